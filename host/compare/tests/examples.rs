//! Document 01's examples, and those of T-05, T-07, T-09 and T-10, worked out by hand: what the proved matcher lists and says of a
//! text, and what the second implementation does.

use compare::tree::{self, Entry, Tree};
use matcher::{Problem, Refusal, Verdict};

const P: u8 = 0;
const Q: u8 = 1;
const X: u8 = 2;
const Y: u8 = 3;
const FORALL: u16 = 1;
const EXISTS: u16 = 2;

fn s(number: u32) -> Tree {
    Tree::Symbol(number)
}

fn v(number: u16) -> Tree {
    Tree::Variable(number)
}

fn meta(m: u8) -> Tree {
    Tree::Meta(m)
}

fn call(m: u8, argument: Tree) -> Tree {
    Tree::Call(m, Box::new(argument))
}

fn all(x: u16, term: Tree) -> Tree {
    Tree::Bind(FORALL, x, Box::new(term))
}

fn exists(x: u16, term: Tree) -> Tree {
    Tree::Bind(EXISTS, x, Box::new(term))
}

/// An operator, which is a symbol, applied to terms.
fn op(symbol: u32, terms: &[Tree]) -> Tree {
    Tree::Apply([&[s(symbol)], terms].concat())
}

fn hole() -> Tree {
    Tree::Hole
}

const PLUS: u32 = 100;
const AND: u32 = 101;
const UNEQUAL: u32 = 102;
const EQUALS: u32 = 103;
const POWER: u32 = 104;
const GREATER: u32 = 105;
const LESS: u32 = 106;
const IMPLIES: u32 = 107;
const MINUS: u32 = 108;
const WRAP: u32 = 109;

/// Both implementations list just these solutions, in this order, with just these texts.
fn lists(constraints: &[(Tree, Tree)], solutions: &[Vec<Entry>]) {
    let bytes = tree::problem(constraints);
    let expected: Vec<Vec<u8>> = solutions.iter().map(|entries| tree::text(entries)).collect();
    let problem = Problem::new(&bytes).expect("the example is accepted");
    let listed: Vec<Vec<u8>> = problem.search().map(|solution| solution.text()).collect();
    assert_eq!(listed, expected, "the proved matcher");
    let second = second::Problem::read(&bytes).expect("the example is accepted");
    let listed: Vec<Vec<u8>> = second
        .solutions(1000)
        .expect("the list is short")
        .into_iter()
        .map(|s| s.text)
        .collect();
    assert_eq!(listed, expected, "the second implementation");
    for text in expected {
        assert_eq!(problem.check(&text), Ok(Verdict::Yes));
        assert_eq!(second.check(&text), Ok(true));
    }
}

fn refused(constraints: &[(Tree, Tree)], refusal: Refusal) {
    let bytes = tree::problem(constraints);
    assert_eq!(Problem::new(&bytes), Err(refusal));
    assert_eq!(second::Problem::read(&bytes).err(), Some(refusal.number()));
}

fn body(m: u8, term: Tree) -> Entry {
    Entry::Body(m, term)
}

fn value(m: u8, term: Tree) -> Entry {
    Entry::Value(m, term)
}

#[test]
fn no_constraint() {
    lists(&[], &[vec![]]);
}

#[test]
fn a_function_and_a_symbol() {
    let problem = [(call(P, meta(X)), s(5))];
    lists(
        &problem,
        &[
            vec![body(P, hole()), value(X, s(5))],
            vec![body(P, s(5)), Entry::Open(X)],
        ],
    );
}

#[test]
fn two_values() {
    lists(&[(meta(X), s(1)), (meta(X), s(2))], &[]);
    lists(&[(meta(X), s(1)), (meta(X), s(1))], &[vec![value(X, s(1))]]);
}

#[test]
fn one_plus_one() {
    let sum = |left: Tree, right: Tree| vec![body(P, op(PLUS, &[left, right]))];
    let problem = [(call(P, s(1)), op(PLUS, &[s(1), s(1)]))];
    lists(
        &problem,
        &[
            sum(hole(), hole()),
            sum(hole(), s(1)),
            sum(s(1), hole()),
            sum(s(1), s(1)),
        ],
    );
}

#[test]
fn examples_of_001() {
    let problem = [(op(AND, &[meta(X), meta(Y)]), op(AND, &[s(6), op(PLUS, &[s(7), s(8)])]))];
    lists(&problem, &[vec![value(X, s(6)), value(Y, op(PLUS, &[s(7), s(8)]))]]);
    let problem = [(
        op(POWER, &[op(PLUS, &[meta(X), meta(Y)]), op(MINUS, &[meta(X), meta(Y)])]),
        op(POWER, &[op(PLUS, &[s(3), v(1)]), op(MINUS, &[s(3), v(2)])]),
    )];
    lists(&problem, &[]);
    let problem = [(
        op(AND, &[call(P, s(1)), call(P, s(2))]),
        op(AND, &[op(UNEQUAL, &[s(0), s(1)]), op(UNEQUAL, &[s(0), s(2)])]),
    )];
    lists(&problem, &[vec![body(P, op(UNEQUAL, &[s(0), hole()]))]]);
}

#[test]
fn bound_outside() {
    lists(&[(all(1, meta(X)), all(2, v(2)))], &[]);
    lists(&[(all(1, call(P, v(1))), all(2, s(6)))], &[vec![body(P, s(6))]]);
}

#[test]
fn holes_under_a_binder() {
    let (y, z, w) = (1, 2, 3);
    let equation = |x: u16, left: Tree, right: Tree| all(x, op(EQUALS, &[left, right]));
    let whole = equation(y, v(y), v(z));
    let no_equals = all(y, Tree::Apply(vec![hole(), v(y), v(z)]));
    let first = (call(P, meta(X)), whole.clone());
    let solutions = [
        vec![body(P, hole()), value(X, whole.clone())],
        vec![body(P, no_equals), value(X, s(EQUALS))],
        vec![body(P, equation(y, v(y), hole())), value(X, v(z))],
        vec![body(P, whole.clone()), Entry::Open(X)],
    ];
    lists(std::slice::from_ref(&first), &solutions);
    // the same with (P(Y), ∀w.w=y): Y is y, which the body's own y must not catch
    let other = equation(w, v(w), v(y));
    let solutions = [
        vec![body(P, hole()), value(X, whole), value(Y, other.clone())],
        vec![body(P, equation(y, v(y), hole())), value(X, v(z)), value(Y, v(y))],
    ];
    lists(&[first, (call(P, meta(Y)), other)], &solutions);
}

#[test]
fn table_of_001() {
    let above = |base: Tree| op(GREATER, &[op(PLUS, &[op(POWER, &[base, s(2)]), s(1)]), s(0)]);
    let minus_nine = op(MINUS, &[s(9)]);
    let problem = [(
        op(WRAP, &[all(1, call(P, v(1))), call(P, meta(X))]),
        op(WRAP, &[all(2, above(v(2))), above(minus_nine.clone())]),
    )];
    lists(&problem, &[vec![body(P, above(hole())), value(X, minus_nine)]]);

    let below = |left: Tree| op(LESS, &[op(PLUS, &[left, s(1)]), s(5)]);
    let problem = [(
        op(WRAP, &[op(WRAP, &[meta(X), call(P, meta(X))]), all(1, call(P, v(1)))]),
        op(WRAP, &[op(WRAP, &[v(7), below(v(7))]), all(2, below(v(2)))]),
    )];
    lists(&problem, &[vec![body(P, below(hole())), value(X, v(7))]]);

    // Q's x would be bound in the second line
    let cube = |x: u16| op(EQUALS, &[op(POWER, &[v(x), s(3)]), op(MINUS, &[s(1)])]);
    let under_five = op(LESS, &[v(1), s(5)]);
    let problem = [(
        op(
            WRAP,
            &[
                exists(1, call(P, v(1))),
                all(2, op(IMPLIES, &[call(P, v(2)), meta(X)])),
                meta(X),
            ],
        ),
        op(
            WRAP,
            &[
                exists(1, cube(1)),
                all(1, op(IMPLIES, &[cube(1), under_five.clone()])),
                under_five,
            ],
        ),
    )];
    lists(&problem, &[]);
}

/// A symbol so deep, at most 32.
fn deep(depth: usize) -> Tree {
    (1..depth).fold(s(1), |inner, _| Tree::Apply(vec![inner]))
}

#[test]
fn limits() {
    let many = |nodes: usize| Tree::Apply((1..nodes).map(|k| s(k as u32)).collect());
    // each hole is the only node with its symbol
    for (nodes, k) in [(64, 63), (65, 64), (65, 63), (256, 255), (256, 192), (256, 1)] {
        let mut with_hole = many(nodes);
        *with_hole.node_mut(k) = hole();
        lists(
            &[(call(P, s(k as u32)), many(nodes))],
            &[vec![body(P, with_hole)], vec![body(P, many(nodes))]],
        );
    }
    refused(&[(call(P, s(63)), many(257))], Refusal::FaceTooLarge);
    lists(&[(meta(X), deep(32))], &[vec![value(X, deep(32))]]);
    refused(&[(meta(X), deep(33))], Refusal::TooDeep);
    lists(&vec![(meta(X), s(1)); 16], &[vec![value(X, s(1))]]);
    refused(&vec![(meta(X), s(1)); 17], Refusal::TooManyConstraints);
    refused(&[(call(P, call(Q, meta(X))), s(1))], Refusal::FunctionInArgument);
}

/// T-10: symbol 1 stands at three nodes of a face of 256, in the first, the second and the last word of its set.
#[test]
fn nodes_in_several_words() {
    let [first, second, last] = [63, 64, 255];
    let ones = |holes: &[usize]| {
        let term = |node: usize| match node {
            _ if holes.contains(&node) => hole(),
            _ if [first, second, last].contains(&node) => s(1),
            _ => s(1_000 + node as u32),
        };
        Tree::Apply((1..256).map(term).collect())
    };
    let sets: [&[usize]; 8] = [
        &[first, second, last],
        &[first, second],
        &[first, last],
        &[first],
        &[second, last],
        &[second],
        &[last],
        &[],
    ];
    let solutions = sets.map(|holes| vec![body(P, ones(holes))]);
    lists(&[(call(P, s(1)), ones(&[]))], &solutions);
}

/// T-10: nodes 63 and 64 of a face of 256, and 254 and 255, are a binder and its variable, with two names. X's value is copied from the
/// lowest hole, with the name that it has there.
#[test]
fn a_value_from_the_lowest_hole_of_several_words() {
    let bound = |name: u16| all(name, v(name));
    let named = |at_63: Tree, at_254: Tree| {
        let before = (1..63).map(|k| s(1_000 + k));
        let between = (65..254).map(|k| s(1_000 + k));
        Tree::Apply(before.chain([at_63]).chain(between).chain([at_254]).collect())
    };
    let problem = [
        (call(P, meta(X)), named(bound(5), bound(7))),
        (call(P, s(3)), named(s(3), s(3))),
    ];
    lists(&problem, &[vec![body(P, named(hole(), hole())), value(X, bound(5))]]);
    let problem = [
        (call(P, meta(X)), named(bound(5), bound(7))),
        (call(P, s(3)), named(bound(5), s(3))),
    ];
    lists(&problem, &[vec![body(P, named(bound(5), hole())), value(X, bound(7))]]);
}

/// T-05: 65,541 has four bytes and the low half 5, but is not 5.
#[test]
fn both_widths() {
    for wide in [65_541, 4_294_901_765] {
        let problem = [(call(P, meta(X)), Tree::Apply(vec![s(wide), s(5)])), (meta(X), s(wide))];
        let solution = |first: Tree| vec![body(P, Tree::Apply(vec![first, s(5)])), value(X, s(wide))];
        lists(&problem, &[solution(hole()), solution(s(wide))]);
        lists(&[(s(wide), s(5))], &[]);
    }
    for number in [65_535, 65_536, u32::MAX] {
        lists(&[(meta(X), s(number))], &[vec![value(X, s(number))]]);
    }
    let mut bytes = tree::problem(&[(meta(X), s(65_541))]);
    for at in tree::high_halves(&bytes) {
        bytes[at..at + 2].fill(0);
    }
    assert_eq!(Problem::new(&bytes), Err(Refusal::SymbolTooWide));
    assert_eq!(second::Problem::read(&bytes).err(), Some(25));
}

/// What both checkers say of a text.
fn checked(problem: &[(Tree, Tree)], text: &[Entry], answer: Result<bool, Refusal>) {
    let bytes = tree::problem(problem);
    let text = tree::text(text);
    let proved = Problem::new(&bytes).and_then(|p| p.check(&text));
    assert_eq!(proved.map(Verdict::is_yes), answer);
    let second = second::Problem::read(&bytes).and_then(|p| p.check(&text));
    assert_eq!(second, answer.map_err(Refusal::number));
}

/// T-07: numbers rise from field to field, and 27 comes after 20 and before yes or no.
#[test]
fn fields_in_number_order() {
    let problem = [(call(P, meta(X)), s(1))];
    let [p, x] = [body(P, hole()), value(X, s(1))];
    checked(&problem, &[p.clone(), x.clone()], Ok(true));
    checked(&problem, &[Entry::Open(P), Entry::Open(X)], Ok(false));
    let out_of_order = [
        vec![x.clone(), p.clone()],
        vec![p.clone(), x.clone(), x.clone()],
        vec![p.clone(), p.clone(), x.clone()],
        vec![p.clone(), x, p],
        vec![Entry::Open(X), Entry::Open(P)],
    ];
    let over_31 = [Entry::Open(32)];
    for text in &out_of_order {
        checked(&problem, text, Err(Refusal::TextOutOfOrder));
        checked(&problem, &[text, &over_31[..]].concat(), Err(Refusal::TextMalformed));
        checked(&problem, &[&over_31[..], text].concat(), Err(Refusal::TextMalformed));
    }
}

/// T-07: texts that differ only in bound names both pass, and name the same solution; one after the other they are none.
#[test]
fn bound_names_are_free() {
    let problem = [(meta(X), all(5, v(5)))];
    let named = |name: u16| value(X, all(name, v(name)));
    checked(&problem, &[named(5)], Ok(true));
    checked(&problem, &[named(7)], Ok(true));
    checked(&problem, &[named(5), named(7)], Err(Refusal::TextOutOfOrder));
}

/// T-09: a rule in which P stands both as a function and alone fits nothing, and no text passes.
#[test]
fn a_letter_both_ways() {
    let large = Tree::Apply((1..257).map(s).collect());
    let itself = (call(P, meta(P)), s(1));
    let problems = [
        vec![itself.clone()],
        vec![(call(P, meta(X)), s(1)), (meta(P), s(1))],
        vec![(
            Tree::Apply(vec![call(P, meta(Q)), call(Q, s(1))]),
            Tree::Apply(vec![s(1), s(1)]),
        )],
        // 14 is not looked for in it
        vec![(call(Q, meta(X)), large.clone()), itself.clone()],
        vec![itself, (call(Q, meta(X)), large)],
    ];
    let texts = [
        vec![],
        vec![body(P, hole())],
        vec![body(P, s(1))],
        vec![value(P, s(1))],
        vec![Entry::Open(P)],
    ];
    let doubled = [
        [body(P, hole()), value(P, s(1))],
        [value(P, s(1)), body(P, hole())],
        [body(P, s(1)), Entry::Open(P)],
    ];
    for problem in &problems {
        lists(problem, &[]);
        texts.iter().for_each(|text| checked(problem, text, Ok(false)));
        doubled
            .iter()
            .for_each(|text| checked(problem, text, Err(Refusal::TextOutOfOrder)));
    }
    let nine: Vec<Tree> = (0..9).map(|m| call(m, meta(P))).collect();
    refused(
        &[(Tree::Apply(nine), Tree::Apply(vec![s(1); 9]))],
        Refusal::TooManyFunctions,
    );
}
