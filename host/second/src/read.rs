//! Reading fields, terms and constraints.
//!
//! Document 01: "Reading goes field by field in input order: the head, the
//! content's fixed part, the inner fields each in full, then 7; the first
//! failure met is the refusal, numbers in the order printed." T-05's 25 is
//! "checked with the content after 6".

use crate::refusal::*;
use crate::term::{Meta, Name, Term};

const LARGEST_PROBLEM: usize = 4096;
const MAX_DEPTH: usize = 32;
const MAX_CONSTRAINTS: usize = 16;

/// The tags of fields, those of a solution text included.
pub mod tag {
    pub const SYMBOL: u8 = 1;
    pub const VARIABLE: u8 = 2;
    pub const APPLICATION: u8 = 3;
    pub const BINDER: u8 = 4;
    pub const METAVARIABLE: u8 = 5;
    pub const FUNCTION: u8 = 6;
    pub const CONSTRAINT: u8 = 7;
    pub const VALUE: u8 = 8;
    pub const BODY: u8 = 9;
    pub const HOLE: u8 = 10;
    pub const OPEN: u8 = 11;
}

/// What a term is part of; this says which tags have a place there.
#[derive(Debug, Clone, Copy, PartialEq, Eq)]
pub enum Part {
    /// A pattern, outside arguments.
    Pattern,
    /// The argument of a function application.
    Argument,
    /// An expression.
    Expression,
    /// A body in a solution text.
    Body,
}

/// A pattern and the expression that it has to become.
#[derive(Debug, Clone)]
pub struct Constraint {
    /// The pattern.
    pub pattern: Term,
    /// The expression.
    pub expression: Term,
}

/// Reads all constraints of a problem: refusals 1 to 11 and 25.
pub fn constraints(mut input: &[u8]) -> Result<Vec<Constraint>, u8> {
    if input.len() > LARGEST_PROBLEM {
        return Err(INPUT_TOO_LONG);
    }
    let mut constraints = Vec::new();
    while !input.is_empty() {
        let (tag, mut content) = field(&mut input)?;
        if tag != tag::CONSTRAINT {
            return Err(MISPLACED_TAG);
        }
        if constraints.len() == MAX_CONSTRAINTS {
            return Err(TOO_MANY_CONSTRAINTS);
        }
        let pattern = term(&mut content, Part::Pattern, 1)?;
        let expression = last_term(content, Part::Expression, 1)?;
        constraints.push(Constraint { pattern, expression });
    }
    Ok(constraints)
}

/// Takes the field at the input's front, where one is due.
pub fn field<'a>(input: &mut &'a [u8]) -> Result<(u8, &'a [u8]), u8> {
    match *input {
        [] => Err(BAD_COUNT),
        [_] | [_, _] => Err(HEAD_CUT),
        [tag, high, low, rest @ ..] => {
            let length = usize::from(u16::from_be_bytes([*high, *low]));
            if length > rest.len() {
                return Err(PAST_END);
            }
            let (content, after) = rest.split_at(length);
            *input = after;
            Ok((*tag, content))
        }
    }
}

/// Takes the term at the input's front.
pub fn term(input: &mut &[u8], part: Part, depth: usize) -> Result<Term, u8> {
    let (tag, content) = field(input)?;
    admit(tag, part)?;
    if depth > MAX_DEPTH {
        return Err(TOO_DEEP);
    }
    match tag {
        tag::SYMBOL => Ok(Term::Symbol(symbol(content)?)),
        tag::VARIABLE => Ok(Term::Variable(Name::Given(number(content)?))),
        tag::APPLICATION => application(content, part, depth),
        tag::BINDER => binder(content, part, depth),
        tag::METAVARIABLE => Ok(Term::Metavariable(lone_meta(content)?)),
        tag::FUNCTION => function(content, depth),
        _ => hole(content),
    }
}

/// Whether the tag has a place in that part.
fn admit(tag: u8, part: Part) -> Result<(), u8> {
    match (tag, part) {
        (tag::SYMBOL..=tag::BINDER, _)
        | (tag::METAVARIABLE, Part::Pattern | Part::Argument)
        | (tag::FUNCTION, Part::Pattern)
        | (tag::HOLE, Part::Body) => Ok(()),
        (tag::METAVARIABLE | tag::FUNCTION, Part::Expression | Part::Body) => Err(META_IN_EXPRESSION),
        (tag::FUNCTION, Part::Argument) => Err(FUNCTION_IN_ARGUMENT),
        _ => Err(MISPLACED_TAG),
    }
}

/// A content that is a symbol's number of two or four bytes and nothing else.
/// T-05: "25 when a 4-byte number is below 65,536", so that no number has two
/// spellings.
fn symbol(content: &[u8]) -> Result<u32, u8> {
    match *content {
        [0, 0, _, _] => Err(SPELLED_TOO_WIDE),
        [a, b, c, d] => Ok(u32::from_be_bytes([a, b, c, d])),
        _ => Ok(number(content)?.into()),
    }
}

/// A content that is a number of two bytes and nothing else.
fn number(content: &[u8]) -> Result<u16, u8> {
    let bytes = content.try_into().map_err(|_| BAD_CONTENT)?;
    Ok(u16::from_be_bytes(bytes))
}

/// Any content but an empty one, as terms up to its end.
fn application(mut content: &[u8], part: Part, depth: usize) -> Result<Term, u8> {
    if content.is_empty() {
        return Err(BAD_CONTENT);
    }
    let mut terms = Vec::new();
    while !content.is_empty() {
        terms.push(term(&mut content, part, depth + 1)?);
    }
    Ok(Term::Application(terms))
}

/// Two numbers, then one term.
fn binder(content: &[u8], part: Part, depth: usize) -> Result<Term, u8> {
    let (fixed, rest) = content.split_first_chunk::<4>().ok_or(BAD_CONTENT)?;
    let [b0, b1, v0, v1] = *fixed;
    let inside = last_term(rest, part, depth + 1)?;
    Ok(Term::Binder(
        u16::from_be_bytes([b0, b1]),
        Name::Given(u16::from_be_bytes([v0, v1])),
        Box::new(inside),
    ))
}

/// A metavariable's number, then one term, the argument.
fn function(content: &[u8], depth: usize) -> Result<Term, u8> {
    let (meta, rest) = meta(content)?;
    let argument = last_term(rest, Part::Argument, depth + 1)?;
    Ok(Term::Function(meta, Box::new(argument)))
}

/// Nothing at all.
fn hole(content: &[u8]) -> Result<Term, u8> {
    match content {
        [] => Ok(Term::Hole),
        _ => Err(BAD_CONTENT),
    }
}

/// A metavariable's number, and what comes after it.
pub fn meta(content: &[u8]) -> Result<(Meta, &[u8]), u8> {
    let (number, rest) = content.split_first().ok_or(BAD_CONTENT)?;
    let meta = Meta((*number).into());
    if !meta.is_given() {
        return Err(META_NUMBER);
    }
    Ok((meta, rest))
}

/// A content that is a metavariable's number and nothing else.
pub fn lone_meta(content: &[u8]) -> Result<Meta, u8> {
    if content.len() != 1 {
        return Err(BAD_CONTENT);
    }
    Ok(meta(content)?.0)
}

/// The last term of a content, after which no bytes may be left.
pub fn last_term(mut content: &[u8], part: Part, depth: usize) -> Result<Term, u8> {
    let term = term(&mut content, part, depth)?;
    if !content.is_empty() {
        return Err(BAD_COUNT);
    }
    Ok(term)
}
