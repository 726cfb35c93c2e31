//! A second, independent matcher for patterns with one-place functions.
//!
//! It renders the definitions of document 01, as request T-05 widens them, T-07
//! puts a text's fields in number order, T-09 changes them for a letter used
//! both ways and T-10 lets faces have 256 nodes, by the Huet–Lang procedure of
//! document 001 on named terms, and is there to be compared with another
//! matcher. By request T-02 a comparison of two subexpressions says how far it
//! went, and by T-08 equal ones have the same number; by T-13 it writes the
//! problem with the longest list. Errors are the documents' refusal numbers.

#![forbid(unsafe_code)]
#![warn(missing_docs)]

mod apply;
mod body;
mod check;
mod compare;
mod encode;
mod faces;
mod longest;
mod matches;
mod nodes;
mod problem;
mod rank;
mod read;
mod refusal;
mod rename;
mod row;
mod show;
mod spelling;
mod term;
mod text;

#[cfg(test)]
mod tests;

pub use compare::Compared;
pub use longest::longest;
pub use problem::{Problem, Solution};
pub use row::{Choice, Row};

/// What a single term is read as.
#[derive(Debug, Clone, Copy, PartialEq, Eq)]
pub enum Kind {
    /// A pattern: metavariables and function applications may stand in it.
    Pattern,
    /// An expression: tags 1 to 4 only.
    Expression,
    /// A body: an expression in which holes (tag 10) may stand.
    Body,
}

/// Reads one term of depth 1 at the front of the bytes, which are all there
/// is. The answer is the number of bytes taken and the number of nodes. A
/// refusal has the number it would have in a problem, 7 for no bytes at all.
pub fn read_term(kind: Kind, bytes: &[u8]) -> Result<(usize, usize), u8> {
    let part = match kind {
        Kind::Pattern => read::Part::Pattern,
        Kind::Expression => read::Part::Expression,
        Kind::Body => read::Part::Body,
    };
    let mut rest = bytes;
    let term = read::term(&mut rest, part, 1)?;
    Ok((bytes.len() - rest.len(), term.size()))
}
