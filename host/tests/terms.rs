//! Terms, problems and texts that are put together by constructors, against bytes that were made by hand.

use matcher::{text_of, Given, Problem, Refusal, Term, Verdict, LARGEST_PROBLEM, LARGEST_TEXT};
use std::iter::{repeat, repeat_n};

fn s(number: u32) -> Term {
    Term::symbol(number)
}

/// An application of so many symbols 5, of 5 bytes each, and so many wide ones, of 7 each.
fn symbols(narrow: usize, wide: usize) -> Term {
    Term::application(repeat_n(s(5), narrow).chain(repeat_n(s(65_536), wide)))
}

/// A term under so many applications of one term.
fn under(levels: usize, term: Term) -> Term {
    (0..levels).fold(term, |inner, _| Term::application([inner]))
}

#[test]
fn each_kind_has_the_bytes_of_the_table() {
    let table: [(Term, &[u8]); 10] = [
        (s(5), &[1, 0, 2, 0, 5]),
        (s(65_535), &[1, 0, 2, 255, 255]),
        (s(65_536), &[1, 0, 4, 0, 1, 0, 0]),
        (s(u32::MAX), &[1, 0, 4, 255, 255, 255, 255]),
        (Term::variable(0x1234), &[2, 0, 2, 0x12, 0x34]),
        (
            Term::application([s(5), Term::hole()]),
            &[3, 0, 8, 1, 0, 2, 0, 5, 10, 0, 0],
        ),
        (Term::binder(0x102, 3, s(5)), &[4, 0, 9, 1, 2, 0, 3, 1, 0, 2, 0, 5]),
        (Term::metavariable(31), &[5, 0, 1, 31]),
        (Term::function(0, Term::metavariable(1)), &[6, 0, 5, 0, 5, 0, 1, 1]),
        (Term::hole(), &[10, 0, 0]),
    ];
    for (term, bytes) in table {
        assert_eq!(term.bytes(), Some(bytes), "{term}");
    }
}

/// A length of over 255 has its high byte first.
#[test]
fn a_long_field_has_a_length_of_two_bytes() {
    let term = symbols(52, 0);
    let bytes = term.bytes().unwrap();
    assert_eq!((bytes.len(), &bytes[..6]), (263, &[3, 1, 4, 1, 0, 2][..]));
}

#[test]
fn the_first_example() {
    let problem = Problem::of([(Term::function(0, Term::metavariable(1)), s(5))]).unwrap();
    assert_eq!(problem.bytes(), [7, 0, 13, 6, 0, 5, 0, 5, 0, 1, 1, 1, 0, 2, 0, 5]);
    let first = [(0, Given::Body(Term::hole())), (1, Given::Value(s(5)))];
    let second = [(0, Given::Body(s(5))), (1, Given::Open)];
    let texts = [first.clone(), second].map(|filling| text_of(filling).unwrap());
    assert_eq!(texts[0], [9, 0, 4, 0, 10, 0, 0, 8, 0, 6, 1, 1, 0, 2, 0, 5]);
    assert_eq!(texts[1], [9, 0, 6, 0, 1, 0, 2, 0, 5, 11, 0, 1, 1]);
    let listed: Vec<Vec<u8>> = problem.search().map(|solution| solution.text()).collect();
    assert_eq!(listed, texts);
    let backwards = first.into_iter().rev();
    assert_eq!(
        problem.check(&text_of(backwards).unwrap()),
        Err(Refusal::TextOutOfOrder)
    );
}

#[test]
fn notation() {
    let equation = Term::application([s(70_000), Term::variable(3), Term::function(2, Term::variable(4))]);
    let term = Term::application([Term::binder(1, 3, equation), Term::hole(), Term::metavariable(31)]);
    assert_eq!(term.to_string(), "([b1 v3 (s70000 v3 ?2{v4})] _ ?31)");
    assert_eq!(Term::application([]).to_string(), "()");
    assert_eq!(Term::application([Term::application([]), s(1)]).to_string(), "(() s1)");
    assert_eq!(format!("{term:?}"), format!("Term({term})"));
    assert_eq!(format!("{:?}", Given::Body(Term::hole())), "Body(Term(_))");
    let shown = [Given::Value(s(5)), Given::Body(Term::hole()), Given::Open].map(|given| given.to_string());
    assert_eq!(shown, ["s5", "_", "open"]);
}

/// Constructors check nothing but lengths.
#[test]
fn the_matcher_refuses_what_is_wrong() {
    let x = || Term::metavariable(0);
    let cases = [
        (Term::hole(), s(1), Refusal::TagOutOfPlace),
        (x(), under(32, s(1)), Refusal::TooDeep),
        (Term::application([]), s(1), Refusal::FixedPart),
        (x(), x(), Refusal::PatternInExpression),
        (
            Term::function(1, Term::function(2, x())),
            s(1),
            Refusal::FunctionInArgument,
        ),
        (Term::metavariable(32), s(1), Refusal::MetavariableOver31),
        (Term::function(1, x()), symbols(256, 0), Refusal::FaceTooLarge),
    ];
    for (pattern, expression, refusal) in cases {
        assert_eq!(Problem::of([(pattern, expression)]), Err(refusal));
    }
    let constraints = |n: usize| Problem::of(repeat_n((x(), s(1)), n));
    assert_eq!(constraints(16).map(|problem| problem.search().count()), Ok(1));
    assert_eq!(constraints(17), Err(Refusal::TooManyConstraints));
    let text = text_of([(0, Given::Value(Term::hole()))]).unwrap();
    assert_eq!(constraints(1).unwrap().check(&text), Err(Refusal::TextMalformed));
}

#[test]
fn the_largest_problem_and_one_byte_more() {
    let of = |narrow: usize, wide: usize| Problem::of([(Term::metavariable(0), symbols(narrow, wide))]);
    assert_eq!(of(813, 3).unwrap().bytes().len(), LARGEST_PROBLEM);
    assert_eq!(of(816, 1), Err(Refusal::ProblemTooLong));
    assert_eq!(Problem::of(repeat((s(1), s(1)))), Err(Refusal::ProblemTooLong));
}

#[test]
fn the_largest_text_and_one_byte_more() {
    let problem = Problem::new(&[]).unwrap();
    let one = |narrow: usize, wide: usize| text_of([(0, Given::Value(symbols(narrow, wide)))]);
    let two = |narrow: usize, wide: usize| text_of([(0, Given::Value(symbols(narrow, wide))), (1, Given::Open)]);
    for text in [one(1637, 0), two(1632, 3)].map(Result::unwrap) {
        assert_eq!(text.len(), LARGEST_TEXT);
        assert_eq!(problem.check(&text), Ok(Verdict::No));
    }
    for text in [one(1633, 3), two(1635, 1)] {
        assert_eq!(text, Err(Refusal::TextTooLong));
    }
    assert_eq!(text_of(repeat((0, Given::Open))), Err(Refusal::TextTooLong));
}

#[test]
fn a_term_that_is_too_long_stays_so() {
    assert_eq!(symbols(1636, 1).bytes().map(<[u8]>::len), Some(8190));
    assert_eq!(symbols(1632, 4).bytes().map(<[u8]>::len), Some(8191));
    let long = [
        symbols(1638, 0),
        symbols(20_000, 0),
        Term::application(repeat(Term::hole())),
        under(1_000_000, Term::hole()),
    ];
    for term in long {
        let around = [
            Term::application([s(1), term.clone()]),
            Term::binder(1, 2, term.clone()),
            Term::function(0, term.clone()),
        ];
        for term in around.into_iter().chain([term]) {
            assert_eq!((term.bytes(), term.to_string()), (None, "..".to_string()));
            assert_eq!(Problem::of([(s(1), term.clone())]), Err(Refusal::ProblemTooLong));
            assert_eq!(text_of([(0, Given::Body(term))]), Err(Refusal::TextTooLong));
        }
    }
}

/// The deepest term that is kept is far deeper than any that is accepted.
#[test]
fn a_deep_term_is_shown() {
    let levels = LARGEST_TEXT / 3 - 1;
    let shown = under(levels, Term::hole()).to_string();
    assert_eq!(shown, format!("{}_{}", "(".repeat(levels), ")".repeat(levels)));
    assert_eq!(under(levels + 1, Term::hole()).to_string(), "..");
}
