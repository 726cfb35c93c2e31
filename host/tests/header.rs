//! One word and one number for one thing in C, in Rust and in Rattle: the header has what this crate has and nothing else,
//! and the sources of the proved library have the same limits, answers, tags and refusals.

use matcher::{raw, text_of, Given, Problem, Refusal, Term};
use std::collections::BTreeMap;
use std::path::Path;

/// Names, without `MATCHER_`, and their numbers.
type Numbers = Vec<(String, usize)>;

/// A file of the repository.
fn file(path: &str) -> String {
    let path = Path::new(env!("CARGO_MANIFEST_DIR")).join("..").join(path);
    std::fs::read_to_string(&path).unwrap_or_else(|e| panic!("{}: {e}", path.display()))
}

fn header() -> String {
    file("include/matcher.h")
}

/// Every number that the header defines, in order.
fn defined() -> Numbers {
    let header = header();
    let lines = header.lines().filter_map(|line| line.strip_prefix("#define MATCHER_"));
    let pairs = lines.filter_map(|line| line.split_once(' '));
    pairs
        .map(|(name, number)| (name.to_string(), number.parse().expect("a number")))
        .collect()
}

fn named(numbers: &[(&str, usize)]) -> Numbers {
    numbers
        .iter()
        .map(|(name, number)| (name.to_string(), *number))
        .collect()
}

/// The tags, from fields that are made here.
fn tags() -> Numbers {
    let tag = |bytes: &[u8]| usize::from(bytes[0]);
    let term = |term: Term| tag(term.bytes().expect("it is short"));
    let entry = |given: Given| tag(&text_of([(0, given)]).expect("it is short"));
    let problem = Problem::of([(Term::symbol(0), Term::symbol(0))]).expect("it is accepted");
    named(&[
        ("SYMBOL", term(Term::symbol(0))),
        ("VARIABLE", term(Term::variable(0))),
        ("APPLICATION", term(Term::application([Term::symbol(0)]))),
        ("BINDER", term(Term::binder(0, 0, Term::symbol(0)))),
        ("METAVARIABLE", term(Term::metavariable(0))),
        ("FUNCTION", term(Term::function(0, Term::symbol(0)))),
        ("CONSTRAINT", tag(problem.bytes())),
        ("VALUE", entry(Given::Value(Term::symbol(0)))),
        ("BODY", entry(Given::Body(Term::symbol(0)))),
        ("HOLE", term(Term::hole())),
        ("OPEN", entry(Given::Open)),
    ])
}

fn limits() -> Numbers {
    named(&[
        ("LARGEST_PROBLEM", matcher::LARGEST_PROBLEM),
        ("LARGEST_TEXT", matcher::LARGEST_TEXT),
        ("LARGEST_WRITTEN", matcher::LARGEST_WRITTEN),
        ("MAX_CONSTRAINTS", matcher::MAX_CONSTRAINTS),
        ("MAX_DEPTH", matcher::MAX_DEPTH),
        ("METAVARIABLES", matcher::METAVARIABLES),
        ("MAX_FUNCTIONS", matcher::MAX_FUNCTIONS),
        ("MAX_FACE_NODES", matcher::MAX_FACE_NODES),
        ("SET_WORDS", matcher::SET_WORDS),
        ("PLACE_WORDS", matcher::PLACE_WORDS),
    ])
}

fn answers() -> Numbers {
    let answers = [
        ("OK", raw::OK),
        ("FOUND", raw::FOUND),
        ("PAUSED", raw::PAUSED),
        ("END", raw::END),
        ("YES", raw::YES),
        ("NO", raw::NO),
    ];
    named(&answers.map(|(name, number)| (name, number as usize)))
}

fn refusals() -> Numbers {
    let numbered = |refusal: &Refusal| (constant(refusal), usize::from(refusal.number()));
    Refusal::ALL.iter().map(numbered).collect()
}

fn constant(refusal: &Refusal) -> String {
    constant_of(&format!("{refusal:?}"))
}

/// A refusal's name as that of a constant: `NotASolution` is `NOT_A_SOLUTION`, `MetavariableOver31` has `_OVER_31`.
fn constant_of(refusal: &str) -> String {
    let mut name = String::new();
    for letter in refusal.chars() {
        let in_number = letter.is_ascii_digit() && name.ends_with(|last: char| last.is_ascii_digit());
        if !name.is_empty() && !letter.is_lowercase() && !in_number {
            name.push('_');
        }
        name.push(letter.to_ascii_uppercase());
    }
    name
}

fn sorted(mut numbers: Numbers) -> Numbers {
    numbers.sort();
    numbers
}

#[test]
fn the_header_defines_what_is_here_and_nothing_else() {
    let version = named(&[("VERSION", 3)]);
    let here = [version, tags(), limits(), answers(), refusals()].concat();
    assert_eq!(sorted(defined()), sorted(here));
}

/// No answer of a function is the number of another.
#[test]
fn no_two_answers_share_a_number() {
    let numbers: BTreeMap<usize, String> = [answers(), refusals()]
        .concat()
        .into_iter()
        .map(|(name, number)| (number, name))
        .collect();
    assert_eq!(numbers.len(), answers().len() + Refusal::ALL.len(), "{numbers:?}");
}

#[test]
fn refusals_mean_the_same() {
    let header = header();
    let meaning = header.split("case MATCHER_").skip(1).map(|case| {
        let (name, after) = case.split_once(':').expect("a colon");
        (name.to_string(), after.split('"').nth(1).expect("words").to_string())
    });
    let here = Refusal::ALL
        .iter()
        .map(|refusal| (constant(refusal), refusal.meaning().to_string()));
    assert_eq!(
        meaning.collect::<BTreeMap<_, _>>(),
        here.collect::<BTreeMap<String, String>>()
    );
}

/// The number of a constant in a source of the proved library.
fn in_rattle(path: &str, name: &str) -> usize {
    let begins = format!("const {name}: ");
    let source = file(path);
    let mut lines = source.lines().filter(|line| line.contains(&begins));
    let line = lines.next().unwrap_or_else(|| panic!("{path} has no {name}"));
    let number = line.split_once(" = ").and_then(|(_, after)| after.strip_suffix(';'));
    number
        .and_then(|number| number.parse().ok())
        .unwrap_or_else(|| panic!("{path}: {line}"))
}

#[test]
fn the_proved_library_has_the_same_numbers() {
    let here: BTreeMap<String, usize> = [tags(), limits(), answers(), refusals()].concat().into_iter().collect();
    let sources: [(&str, &[&str]); 7] = [
        ("tivagyesz/src/codes.rt", &["OK", "FOUND", "PAUSED", "END", "YES", "NO"]),
        ("table/src/limit.rt", &["LARGEST_PROBLEM", "MAX_CONSTRAINTS"]),
        ("items/src/lib.rt", &["LARGEST_TEXT"]),
        ("listing/src/lib.rt", &["LARGEST_WRITTEN"]),
        ("fields/src/limit.rt", &["MAX_DEPTH"]),
        ("metavariables/src/lib.rt", &["METAVARIABLES", "MAX_FUNCTIONS"]),
        ("longest/src/lib.rt", &["APPLICATION", "CONSTRAINT"]),
    ];
    for (path, names) in sources {
        for name in names {
            assert_eq!(in_rattle(&format!("crates/{path}"), name), here[*name], "{name}");
        }
    }
}

/// The refusals of the proved library are the variants of one enum.
#[test]
fn the_proved_library_has_the_same_refusals() {
    let source = file("crates/refusal/src/lib.rt");
    let variants = source
        .lines()
        .filter_map(|line| line.trim().strip_suffix(',')?.split_once(" = "));
    let there = variants.map(|(name, number)| (constant_of(name), number.parse().expect("a number")));
    assert_eq!(sorted(there.collect()), sorted(refusals()));
}

#[test]
fn a_place_has_a_set_for_each_function_and_one_word_more() {
    let functions = in_rattle("crates/metavariables/src/lib.rt", "MAX_FUNCTIONS");
    let [nodes, words] = ["WORD", "WORDS"].map(|name| in_rattle("crates/masks/src/lib.rt", name));
    let expected = named(&[
        ("MAX_FACE_NODES", nodes * words),
        ("SET_WORDS", words),
        ("PLACE_WORDS", words * functions + 1),
    ]);
    assert!(expected.iter().all(|number| defined().contains(number)), "{expected:?}");
}
