//! Random problems and texts, put together by the host's constructors: they have the bytes that the trees have, are shown
//! as the second implementation shows them, and what a solution is said to be is what its text says.

use compare::generate;
use compare::random::Random;
use compare::report::differ;
use compare::tree::{self, Entry, Tree};
use matcher::{text_of, Given, Problem, Solution, Term};

const SEEDS: std::ops::Range<u64> = 800_000..804_000;

/// The solutions that are looked at of each problem.
const MOST: usize = 20;

fn term(tree: &Tree) -> Term {
    match tree {
        Tree::Symbol(s) => Term::symbol(*s),
        Tree::Variable(v) => Term::variable(*v),
        Tree::Apply(terms) => Term::application(terms.iter().map(term)),
        Tree::Bind(b, v, body) => Term::binder(*b, *v, term(body)),
        Tree::Meta(m) => Term::metavariable(*m),
        Tree::Call(m, argument) => Term::function(*m, term(argument)),
        Tree::Hole => Term::hole(),
    }
}

fn given(entry: &Entry) -> (u8, Given) {
    match entry {
        Entry::Value(m, value) => (*m, Given::Value(term(value))),
        Entry::Body(m, body) => (*m, Given::Body(term(body))),
        Entry::Open(m) => (*m, Given::Open),
    }
}

/// The notation of the second implementation for whole problems.
fn shown(constraints: &[(Term, Term)]) -> String {
    let equations = constraints
        .iter()
        .map(|(pattern, expression)| format!("{pattern} = {expression}"));
    equations.collect::<Vec<_>>().join(" ; ")
}

/// What a solution is said to be, by its text and by the holes of its functions.
fn solution_agrees(solution: &Solution) -> bool {
    let filling = solution.filling();
    let entries = tree::read_text(&solution.text());
    filling == entries.iter().map(given).collect::<Vec<_>>()
        && text_of(filling.clone()) == Ok(solution.text())
        && entries.iter().all(|entry| entry_agrees(solution, entry))
        && (0..34).filter(|m| solution.given(*m).is_some()).count() == entries.len()
}

/// What is said of one metavariable: a function has so many holes as its body, and any other none.
fn entry_agrees(solution: &Solution, entry: &Entry) -> bool {
    let holes = match entry {
        Entry::Body(_, body) => Some(body.all().iter().filter(|node| ***node == Tree::Hole).count()),
        Entry::Value(..) | Entry::Open(_) => None,
    };
    let (m, said) = given(entry);
    solution.given(m) == Some(said) && solution.holes(m).map(|nodes| nodes.len()) == holes
}

#[test]
fn problems_and_texts_agree() {
    let (mut accepted, mut solutions) = (0, 0);
    for seed in SEEDS {
        let made = generate::problem(&mut Random::new(seed));
        let bytes = tree::problem(&made.constraints);
        let at = |what: &str| format!("seed {seed}: {}", differ(&bytes, what));
        let constraints: Vec<(Term, Term)> = made.constraints.iter().map(|(p, e)| (term(p), term(e))).collect();
        for ((pattern, expression), (p, e)) in made.constraints.iter().zip(&constraints) {
            assert_eq!(p.bytes(), Some(&pattern.bytes()[..]), "{}", at("a pattern"));
            assert_eq!(e.bytes(), Some(&expression.bytes()[..]), "{}", at("an expression"));
        }
        let text = text_of(made.filling.iter().map(given));
        assert_eq!(text, Ok(tree::text(&made.filling)), "{}", at("a filling"));
        let notation = shown(&constraints);
        let problem = Problem::of(constraints);
        assert_eq!(problem, Problem::new(&bytes), "{}", at("the problem"));
        let Ok(problem) = problem else { continue };
        let read = second::Problem::read(&bytes).map(|read| read.to_string());
        assert_eq!(Ok(notation), read, "{}", at("the notation"));
        accepted += 1;
        for solution in problem.search().take(MOST) {
            assert!(solution_agrees(&solution), "{}", at(&format!("{solution:?}")));
            solutions += 1;
        }
    }
    assert!(accepted >= 3_000 && solutions >= 5_000, "{accepted}, {solutions}");
}
