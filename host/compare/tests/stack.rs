//! Every entry point answers in a thread with 192 KB of stack, on the inputs that need most of it: deep ones, wide ones, and both.

use compare::tree::{problem, text, Entry, Tree};
use matcher::raw::{self, FOUND, LARGEST_TEXT, NO, OK, PAUSED, PLACE_WORDS, YES};
use second::Problem;
use std::thread::Builder;

const STACK: usize = 192 * 1024;

/// The search calls to a problem, and the rows that each may pass.
const CALLS: usize = 40;
const ALLOWANCE: u32 = 100;

const SYMBOL: Tree = Tree::Symbol(5);

/// A level more above a term.
type Level = fn(Tree) -> Tree;

fn apply(term: Tree) -> Tree {
    Tree::Apply(vec![term])
}

fn bind(term: Tree) -> Tree {
    Tree::Bind(1, 2, Box::new(term))
}

fn call(function: u8, argument: Tree) -> Tree {
    Tree::Call(function, Box::new(argument))
}

const LEVELS: [Level; 2] = [apply, bind];

/// A term so many levels below the top.
fn below(level: Level, levels: usize, term: Tree) -> Tree {
    (0..levels).fold(term, |term, _| level(term))
}

/// So many children.
fn wide(children: usize, term: Tree) -> Tree {
    Tree::Apply(vec![term; children])
}

/// Terms at document 01's depth of 32 and about it: of each kind of level, and wide at the bottom.
fn deep() -> Vec<Tree> {
    let depths = LEVELS
        .into_iter()
        .flat_map(|level| (29..33).map(move |levels| (level, levels)));
    depths
        .flat_map(|(level, levels)| [SYMBOL, wide(600, SYMBOL)].map(|term| below(level, levels, term)))
        .collect()
}

/// A problem of so many functions, each with what it faces.
fn functions(n: u8, of: &dyn Fn(u8) -> (Tree, Tree)) -> Vec<u8> {
    problem(&(0..n).map(of).collect::<Vec<_>>())
}

/// Faces of 256 nodes: wide ones, and eight branches that are as deep as they may be; and one node more.
fn large() -> Vec<Vec<u8>> {
    let branches = |level: Level| Tree::Apply([vec![below(level, 30, SYMBOL); 8], vec![SYMBOL; 7]].concat());
    let value = |m: u8| Tree::Meta(8 + m);
    vec![
        functions(3, &|m| (call(m, SYMBOL), wide(255, SYMBOL))),
        functions(3, &|m| (call(m, value(m)), wide(255, SYMBOL))),
        functions(3, &|m| (call(m, value(m)), branches(apply))),
        functions(2, &|m| (call(m, value(m)), branches(bind))),
        functions(1, &|m| (call(m, SYMBOL), wide(256, SYMBOL))),
    ]
}

fn problems() -> Vec<Vec<u8>> {
    let nested = below(apply, 29, SYMBOL);
    let calls = || (0..8).map(|m| call(m, SYMBOL));
    let metavariables = || (8..32).map(Tree::Meta);
    let sixteen = |pattern: Tree, expression: Tree| problem(&vec![(pattern, expression); 16]);
    let each = |of: &dyn Fn(u8) -> (Tree, Tree)| functions(8, of);
    let mut problems: Vec<Vec<u8>> = deep()
        .into_iter()
        .map(|term| problem(&[(Tree::Meta(1), term)]))
        .collect();
    problems.extend(LEVELS.map(|level| {
        let term = below(level, 31, SYMBOL);
        problem(&[(term.clone(), term)])
    }));
    problems.extend([
        vec![],
        problem(&[(call(0, Tree::Meta(1)), SYMBOL)]),
        problem(&[(wide(1017, Tree::Meta(1)), SYMBOL)]),
        problem(&[(Tree::Meta(1), wide(817, SYMBOL))]),
        sixteen(nested.clone(), nested.clone()),
        problem(&[(
            Tree::Apply(calls().chain(metavariables()).collect()),
            Tree::Apply([vec![wide(3, SYMBOL); 8], vec![nested.clone(); 24]].concat()),
        )]),
        each(&|m| (call(m, SYMBOL), wide(63, SYMBOL))),
        each(&|m| (call(m, below(apply, 29, SYMBOL)), wide(63, SYMBOL))),
        each(&|m| (call(m, below(bind, 30, Tree::Meta(8 + m))), below(bind, 30, SYMBOL))),
        problem(&[(
            below(apply, 15, call(0, below(apply, 15, Tree::Meta(1)))),
            below(apply, 30, SYMBOL),
        )]),
    ]);
    problems
}

fn texts() -> Vec<Vec<u8>> {
    let all = |entry: &dyn Fn(u8) -> Entry| text(&(0..32).map(entry).collect::<Vec<_>>());
    let mut texts = vec![
        vec![],
        text(&[Entry::Body(0, wide(2726, Tree::Hole))]),
        all(&|m| Entry::Body(m, below(apply, 31, Tree::Hole))),
        all(&|m| Entry::Value(m, below(apply, 31, SYMBOL))),
        all(&Entry::Open),
    ];
    for level in LEVELS {
        for levels in 29..33 {
            texts.push(text(&[Entry::Body(0, below(level, levels, wide(2500, Tree::Hole)))]));
            texts.push(text(&[Entry::Value(1, below(level, levels, wide(1500, SYMBOL)))]));
        }
    }
    texts
}

/// What a problem's calls answer.
struct Answers {
    start: u32,
    written: Vec<Vec<u8>>,
    checks: Vec<u32>,
}

/// Calls every entry point; the texts that are written are checked after those that are given.
fn answers(problem: &[u8], texts: &[Vec<u8>]) -> Answers {
    let (mut place, mut row) = ([0; PLACE_WORDS], [0; PLACE_WORDS]);
    let mut out = vec![0; LARGEST_TEXT];
    let mut written = Vec::new();
    let start = raw::start(problem, &mut place);
    for _ in 0..CALLS {
        let mut length = 0;
        let answer = raw::search(problem, &mut place, &mut row, ALLOWANCE);
        if raw::write(problem, &row, &mut out, &mut length) == OK && answer == FOUND {
            written.push(out[..length].to_vec());
        }
        if answer != FOUND && answer != PAUSED {
            break;
        }
    }
    let checks = texts
        .iter()
        .chain(&written)
        .map(|text| raw::check(problem, text))
        .collect();
    Answers { start, written, checks }
}

/// The same in a thread with little stack: where that is not enough, the whole test dies.
fn in_little_stack(number: usize, problem: &[u8], texts: &[Vec<u8>]) -> Answers {
    let (problem, texts) = (problem.to_vec(), texts.to_vec());
    let thread = Builder::new().name(format!("problem {number}")).stack_size(STACK);
    let running = thread
        .spawn(move || answers(&problem, &texts))
        .expect("a thread starts");
    running.join().expect("no call panics")
}

/// T-13's writer takes no problem.
#[test]
fn the_longest_problem_needs_little_stack() {
    let thread = Builder::new().stack_size(STACK);
    let write = || raw::longest(256, &mut [0; 1289], &mut 0);
    let running = thread.spawn(write).expect("a thread starts");
    assert_eq!(running.join().expect("no call panics"), OK);
}

#[test]
fn every_entry_point_needs_little_stack() {
    let texts = texts();
    let (mut accepted, mut refused, mut written) = (0, 0, 0);
    for (number, problem) in problems().into_iter().chain(large()).enumerate() {
        let answers = in_little_stack(number, &problem, &texts);
        let expected: Vec<u32> = match Problem::read(&problem) {
            Err(refusal) => {
                refused += 1;
                assert_eq!(answers.start, u32::from(refusal), "problem {number}");
                vec![u32::from(refusal); texts.len()]
            }
            Ok(read) => {
                accepted += 1;
                assert_eq!(answers.start, OK, "problem {number}");
                let code = |passes| if passes { YES } else { NO };
                let checked = |text: &Vec<u8>| read.check(text).map_or_else(u32::from, code);
                texts
                    .iter()
                    .map(checked)
                    .chain(answers.written.iter().map(|_| YES))
                    .collect()
            }
        };
        written += answers.written.len();
        assert_eq!(answers.checks, expected, "problem {number}");
    }
    assert!(
        accepted >= 15 && refused >= 5 && written >= 20,
        "{accepted}, {refused}, {written}"
    );
}
