//! T-13's problem with the longest list: its bytes and refusals, worked out by
//! hand from document 01's table of fields, and its list against those of all
//! expressions with few nodes.

use super::notation::{hex, solutions};
use super::random::constraint_bytes;
use crate::term::{Meta, Name, Term};
use crate::{encode, longest, Problem};
use std::collections::BTreeSet;

/// A symbol 0: a head of 3 bytes and a number of 2.
const SYMBOL: &str = "010002 0000";

/// P(X): a function application with 5 bytes of content, its number 0 and a
/// metavariable, which is a head of 3 bytes and the number 1.
const PATTERN: &str = "060005 00 050001 01";

/// The length of the problem: heads of 3 bytes for the constraint and the
/// application, 8 bytes of pattern, and 5 for each symbol.
fn length(nodes: u32) -> usize {
    match nodes {
        1 => 3 + 8 + 5,
        _ => 3 + 8 + 3 + 5 * (nodes as usize - 1),
    }
}

/// The problem for so many nodes, read again.
fn problem(nodes: u32) -> Problem {
    let bytes = longest(nodes, usize::MAX).expect("room");
    Problem::read(&bytes).expect("an accepted problem")
}

/// The number of solutions in the full list.
fn listed(problem: &Problem) -> usize {
    problem.solutions(usize::MAX).expect("no limit").len()
}

/// T-13: "It has 2^(n-1) + 1 solutions".
fn most(nodes: u32) -> usize {
    (1 << (nodes - 1)) + 1
}

#[test]
fn the_bytes_are_those_of_the_table() {
    let bytes = |head: &str, symbols| Ok(hex(&[head, &SYMBOL.repeat(symbols)].concat()));
    // The constraint's content: 8 and 5 bytes.
    assert_eq!(longest(1, 16), bytes(&format!("07000D {PATTERN}"), 1));
    // 8 bytes and an application of 3 + 5.
    assert_eq!(longest(2, 19), bytes(&format!("070010 {PATTERN} 030005"), 1));
    // 8 bytes and an application of 3 + 10.
    assert_eq!(longest(3, 24), bytes(&format!("070015 {PATTERN} 03000A"), 2));
    // 8 bytes and an application of 3 + 1,275; both lengths have a high byte.
    assert_eq!(longest(256, 1289), bytes(&format!("070506 {PATTERN} 0304FB"), 255));
}

#[test]
fn refusal_28_nodes_out_of_range() {
    for nodes in [0, 257, 258, 65_537, u32::MAX] {
        // Before 29: no problem fits 0 or 15 bytes.
        for room in [0, 15, 16, 1289, usize::MAX] {
            assert_eq!(longest(nodes, room), Err(28), "{nodes} nodes, room {room}");
        }
    }
}

#[test]
fn refusal_29_buffer_shorter_than_the_problem() {
    for nodes in 1..=256 {
        let length = length(nodes);
        for room in [0, length / 2, length - 1] {
            assert_eq!(longest(nodes, room), Err(29), "{nodes} nodes, room {room}");
        }
        let exact = longest(nodes, length).expect("room for all bytes");
        assert_eq!(exact.len(), length, "{nodes} nodes");
        // More room changes nothing.
        for room in [length + 1, usize::MAX] {
            assert_eq!(longest(nodes, room).as_ref(), Ok(&exact), "{nodes} nodes");
        }
    }
}

#[test]
fn every_problem_is_accepted_and_has_its_nodes() {
    for nodes in 1..=256 {
        let problem = problem(nodes);
        let expression = match nodes {
            1 => "s0".to_string(),
            _ => format!("({})", vec!["s0"; nodes as usize - 1].join(" ")),
        };
        assert_eq!(problem.to_string(), format!("?0{{?1}} = {expression}"));
        assert_eq!(problem.expression_nodes(), nodes as usize);
        assert_eq!(problem.face_nodes(), Some(vec![nodes as usize]));
        assert_eq!((problem.functions(), problem.metavariables()), (vec![0], vec![0, 1]));
    }
}

#[test]
fn the_list_is_as_long_as_said() {
    for nodes in 1..=14 {
        assert_eq!(listed(&problem(nodes)), most(nodes), "{nodes} nodes");
    }
    // So far as many as rows, which can be counted up to 128 nodes in 128 bits.
    for nodes in 1..=128 {
        let rows = (1u128 << (nodes - 1)) + 1;
        assert_eq!(problem(nodes).row_count(), Some(rows), "{nodes} nodes");
    }
    assert_eq!(problem(129).row_count(), None);
}

#[test]
fn the_lists_of_a_few_nodes() {
    assert_eq!(solutions("?0{?1} = s0"), ["?0: _, ?1: s0", "?0: s0, ?1 open"]);
    let five = [
        "?0: _, ?1: (s0 s0)",
        "?0: (_ _), ?1: s0",
        "?0: (_ s0), ?1: s0",
        "?0: (s0 _), ?1: s0",
        "?0: (s0 s0), ?1 open",
    ];
    assert_eq!(solutions("?0{?1} = (s0 s0)"), five);
    // A tie: as many as (s0) has.
    let three = [
        "?0: _, ?1: [b0 v0 s0]",
        "?0: [b0 v0 _], ?1: s0",
        "?0: [b0 v0 s0], ?1 open",
    ];
    assert_eq!(solutions("?0{?1} = [b0 v0 s0]"), three);
    // One fewer, since no choice has a variable that is bound above it.
    let two = ["?0: _, ?1: [b0 v0 v0]", "?0: [b0 v0 v0], ?1 open"];
    assert_eq!(solutions("?0{?1} = [b0 v0 v0]"), two);
}

/// All expressions of so many nodes with the symbols 0 and 1, the variables 0
/// and 1 and the binder number 0.
fn expressions(nodes: usize) -> Vec<Term> {
    let names = [0, 1].map(Name::Given);
    if nodes == 1 {
        let symbols = [0, 1].map(Term::Symbol).into_iter();
        return symbols.chain(names.map(Term::Variable)).collect();
    }
    let applications = lists(nodes - 1).into_iter().map(Term::Application);
    let binders = expressions(nodes - 1).into_iter().flat_map(|inside| {
        let over = |name| Term::Binder(0, name, Box::new(inside.clone()));
        names.map(over)
    });
    applications.chain(binders).collect()
}

/// All lists of expressions that have so many nodes together.
fn lists(nodes: usize) -> Vec<Vec<Term>> {
    if nodes == 0 {
        return vec![Vec::new()];
    }
    let mut all = Vec::new();
    for size in 1..=nodes {
        let rests = lists(nodes - size);
        for first in expressions(size) {
            let longer = |rest: &Vec<Term>| [vec![first.clone()], rest.clone()].concat();
            all.extend(rests.iter().map(longer));
        }
    }
    all
}

/// With E(n) expressions of n nodes and L(n) lists: E(1) = 4 and L(0) = 1; an
/// application is a list, and two binders go around each expression, so E(n) =
/// L(n-1) + 2 E(n-1); L(n) is the sum of E(k) L(n-k) for k from 1 to n.
/// - L(1) = 4, E(2) = 4 + 8 = 12
/// - L(2) = 4·4 + 12 = 28, E(3) = 28 + 24 = 52
/// - L(3) = 4·28 + 12·4 + 52 = 212, E(4) = 212 + 104 = 316
/// - L(4) = 4·212 + 12·28 + 52·4 + 316 = 1708, E(5) = 1708 + 632 = 2340
const COUNTS: [usize; 5] = [4, 12, 52, 316, 2340];

/// How many of these have the longest list. Of 1 node all have it. Of 2 nodes
/// all but `[b0 v0 v0]` and `[b0 v1 v1]`. Of more only an application of equal
/// leaves: all nodes but the root are equal, so that none is below another.
const LONGEST: [usize; 5] = [4, 10, 4, 4, 4];

#[test]
fn the_expressions_are_all_there() {
    for (nodes, count) in (1..).zip(COUNTS) {
        let all = expressions(nodes);
        assert!(all.iter().all(|expression| expression.size() == nodes));
        let different: BTreeSet<Vec<u8>> = all.iter().map(encode::term).collect();
        assert_eq!((all.len(), different.len()), (count, count), "{nodes} nodes");
    }
}

/// T-13: "every other expression of n nodes in such a problem has at most as
/// many".
#[test]
fn no_expression_has_a_longer_list() {
    let pattern = Term::Function(Meta(0), Box::new(Term::Metavariable(Meta(1))));
    for (nodes, (count, reaching)) in (1..).zip(COUNTS.into_iter().zip(LONGEST)) {
        let (mut below, mut ties, mut own) = (0, 0, 0);
        for expression in expressions(nodes as usize) {
            let bytes = constraint_bytes(&pattern, &expression);
            let list = listed(&Problem::read(&bytes).expect("an accepted problem"));
            assert!(list <= most(nodes), "{list} for {expression}");
            let written = longest(nodes, usize::MAX) == Ok(bytes);
            match (list == most(nodes), written) {
                (true, true) => own += 1,
                (true, false) => ties += 1,
                (false, _) => below += 1,
            }
        }
        let expected = (count - reaching, reaching - 1, 1);
        assert_eq!((below, ties, own), expected, "{nodes} nodes");
    }
}
