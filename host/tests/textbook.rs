//! The worked examples of source document 000, section 8, with what it says of each: there ρ heads a rule and its use, and
//! what is open is left out of a solution. A rule's bound variables are bound variables here, so that no solution has them.

use matcher::{Given, Problem, Term};

fn s(number: u32) -> Term {
    Term::symbol(number)
}

fn v(number: u16) -> Term {
    Term::variable(number)
}

fn of<const N: usize>(head: u32, terms: [Term; N]) -> Term {
    Term::application([s(head)].into_iter().chain(terms))
}

const RHO: u32 = 20;
const EQUALS: u32 = 10;
const POWER: u32 = 21;

/// P is metavariable 0, A and t are 1, B and b are 2.
fn p(argument: Term) -> Term {
    Term::function(0, argument)
}

fn a() -> Term {
    Term::metavariable(1)
}

fn b() -> Term {
    Term::metavariable(2)
}

fn for_all(variable: u16, body: Term) -> Term {
    Term::binder(1, variable, body)
}

/// All solutions, without what is open.
fn full_solution_set(rule: Term, used: Term) -> Vec<Vec<(u8, Given)>> {
    let problem = Problem::of([(rule, used)]).expect("the problem is accepted");
    let given = |solution: matcher::Solution| {
        let filling = solution.filling().into_iter();
        filling.filter(|(_, given)| *given != Given::Open).collect()
    };
    problem.search().map(given).collect()
}

/// A, B, therefore A ∧ B: "the only way for the expression to match the pattern".
#[test]
fn conjunction_introduction() {
    let and = |left: Term, right: Term| of(13, [left, right]);
    let root = || of(EQUALS, [of(11, [of(POWER, [v(3), s(2)]), s(1)]), s(0)]);
    let five = || of(EQUALS, [v(4), s(5)]);
    assert_eq!(
        full_solution_set(
            of(RHO, [a(), b(), and(a(), b())]),
            of(RHO, [root(), five(), and(root(), five())])
        ),
        [[(1, Given::Value(root())), (2, Given::Value(five()))]]
    );
}

/// ∀x.P(x), therefore P(t): "the only way".
#[test]
fn universal_elimination() {
    let above = |term: Term| of(25, [of(POWER, [term, s(4)]), s(0)]);
    let minus_tenth = || of(16, [s(27)]);
    assert_eq!(
        full_solution_set(
            of(RHO, [for_all(3, p(v(3))), p(a())]),
            of(RHO, [for_all(3, above(v(3))), above(minus_tenth())])
        ),
        [[(0, Given::Body(above(Term::hole()))), (1, Given::Value(minus_tenth()))]]
    );
}

/// ∃x.P(x), ∀y.P(y)→Q, therefore Q: what 000 finds at first "does not respect free variables".
#[test]
fn existential_elimination() {
    let divides = |left: Term, right: Term| of(26, [left, right]);
    let term = || of(16, [of(15, [s(3), v(7)]), s(2)]);
    let implies = |left: Term, right: Term| of(23, [left, right]);
    let rule = [Term::binder(2, 3, p(v(3))), for_all(4, implies(p(v(4)), a())), a()];
    let used = [
        Term::binder(2, 5, divides(v(5), term())),
        for_all(6, implies(divides(v(6), term()), divides(v(6), v(8)))),
        divides(v(6), v(8)),
    ];
    assert!(full_solution_set(of(RHO, rule), of(RHO, used)).is_empty());
}

/// a = b, P(a), therefore P(b): "judged an invalid use of the rule".
#[test]
fn equality_elimination() {
    let equals = |left: Term, right: Term| of(EQUALS, [left, right]);
    let (k, seven) = (|| of(POWER, [v(7), s(2)]), || of(POWER, [s(7), s(2)]));
    let rule = [equals(a(), b()), p(a()), p(b())];
    let used = [equals(v(7), s(7)), equals(seven(), k()), equals(k(), seven())];
    assert!(full_solution_set(of(RHO, rule), of(RHO, used)).is_empty());
}
