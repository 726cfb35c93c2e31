//! Problems and solutions in the notation of `Display`, for tests.

use crate::encode;
use crate::read::tag;
use crate::term::{Meta, Name, Term};
use crate::text::{self, Field};
use crate::Problem;

/// Reads a term in readable notation.
pub fn term(text: &str) -> Term {
    let mut parser = Parser { rest: text };
    let term = parser.term();
    assert_eq!(parser.rest, "", "bytes left in {text}");
    term
}

/// The bytes of a problem in readable notation.
pub fn bytes(problem: &str) -> Vec<u8> {
    let constraints = problem.split(" ; ").filter(|text| !text.is_empty());
    let encoded = constraints.map(|constraint| {
        let (pattern, expression) = constraint.split_once(" = ").expect("an equals sign");
        let sides = [pattern, expression].map(|side| encode::term(&term(side)));
        encode::field(tag::CONSTRAINT, &sides.concat())
    });
    encoded.flatten().collect()
}

/// The problem in readable notation, which must be accepted.
pub fn problem(text: &str) -> Problem {
    Problem::read(&bytes(text)).expect("an accepted problem")
}

/// All solutions in readable notation, as `?0: body, ?1: value, ?2 open`.
pub fn solutions(text: &str) -> Vec<String> {
    let solutions = problem(text).solutions(usize::MAX).expect("no limit");
    solutions.iter().map(|s| show(&s.text)).collect()
}

/// A solution text in readable notation.
pub fn show(text: &[u8]) -> String {
    let fields = text::read(text).expect("a well-formed text");
    let shown: Vec<String> = fields.iter().map(show_field).collect();
    shown.join(", ")
}

/// One field in readable notation.
fn show_field(field: &Field) -> String {
    match field {
        Field::Value(meta, term) | Field::Body(meta, term) => format!("?{}: {term}", meta.0),
        Field::Open(meta) => format!("?{} open", meta.0),
    }
}

/// Bytes written in hexadecimal; spaces don't count.
pub fn hex(digits: &str) -> Vec<u8> {
    let digits: String = digits.split_whitespace().collect();
    let pairs = (0..digits.len()).step_by(2).map(|i| &digits[i..i + 2]);
    pairs
        .map(|pair| u8::from_str_radix(pair, 16).expect("hexadecimal digits"))
        .collect()
}

/// What is still to be read.
struct Parser<'a> {
    rest: &'a str,
}

impl Parser<'_> {
    fn term(&mut self) -> Term {
        match self.next() {
            's' => Term::Symbol(self.number()),
            'v' => Term::Variable(self.name()),
            '(' => Term::Application(self.terms()),
            '[' => self.binder(),
            '?' => self.meta(),
            '_' => Term::Hole,
            other => panic!("no term begins with {other}"),
        }
    }

    fn terms(&mut self) -> Vec<Term> {
        let mut terms = vec![self.term()];
        while self.next() == ' ' {
            terms.push(self.term());
        }
        terms
    }

    fn binder(&mut self) -> Term {
        self.skip("b");
        let number = self.number() as u16;
        self.skip(" v");
        let name = self.name();
        self.skip(" ");
        let inside = Box::new(self.term());
        self.skip("]");
        Term::Binder(number, name, inside)
    }

    fn meta(&mut self) -> Term {
        let meta = Meta(self.number());
        if !self.rest.starts_with('{') {
            return Term::Metavariable(meta);
        }
        self.skip("{");
        let argument = Box::new(self.term());
        self.skip("}");
        Term::Function(meta, argument)
    }

    fn name(&mut self) -> Name {
        Name::Given(self.number() as u16)
    }

    fn number(&mut self) -> u32 {
        let end = self.rest.find(|c: char| !c.is_ascii_digit());
        let (digits, rest) = self.rest.split_at(end.unwrap_or(self.rest.len()));
        self.rest = rest;
        digits.parse().expect("a number")
    }

    fn next(&mut self) -> char {
        let first = self.rest.chars().next().expect("more text");
        self.rest = &self.rest[first.len_utf8()..];
        first
    }

    fn skip(&mut self, text: &str) {
        self.rest = self.rest.strip_prefix(text).expect(text);
    }
}
