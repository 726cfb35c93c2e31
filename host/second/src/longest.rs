//! The problem with the longest list that an expression of a given number of
//! nodes can have.
//!
//! T-13: "For n from 1 to 256 the tool writes the problem (P(X), e), where e has
//! n nodes: for n = 1 a symbol, else an application of n - 1 equal symbols; P, X
//! and symbol are 0, 1 and 0. It has 2^(n-1) + 1 solutions, and every other
//! expression of n nodes in such a problem has at most as many."

use crate::encode;
use crate::read::tag;
use crate::refusal::*;
use crate::term::{Meta, Term};

const MAX_NODES: u32 = 256;

/// The function P.
const FUNCTION: Meta = Meta(0);
/// The metavariable X, its argument.
const ARGUMENT: Meta = Meta(1);
/// The number of the one symbol.
const SYMBOL: u32 = 0;

/// The bytes of the problem whose expression has so many nodes, for a buffer of
/// that room. Refusals: 28, then 29. The bytes are what a successful write puts
/// "at the buffer's front"; it "changes no byte after it".
pub fn longest(nodes: u32, room: usize) -> Result<Vec<u8>, u8> {
    if !(1..=MAX_NODES).contains(&nodes) {
        return Err(NODES_OUT_OF_RANGE);
    }
    let sides = [pattern(), expression(nodes)].map(|side| encode::term(&side));
    let problem = encode::field(tag::CONSTRAINT, &sides.concat());
    if room < problem.len() {
        return Err(NO_ROOM_FOR_PROBLEM);
    }
    Ok(problem)
}

/// P(X).
fn pattern() -> Term {
    Term::Function(FUNCTION, Box::new(Term::Metavariable(ARGUMENT)))
}

/// The expression e of so many nodes, of which there is at least one.
fn expression(nodes: u32) -> Term {
    match nodes {
        1 => Term::Symbol(SYMBOL),
        _ => Term::Application((1..nodes).map(|_| Term::Symbol(SYMBOL)).collect()),
    }
}
