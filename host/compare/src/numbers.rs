//! The numbers of all nodes (T-08): two nodes of a problem's expressions have the same number just where they have it in the
//! second implementation.
//!
//! A host cannot ask the proved matcher for this; the program `vectors_texts` can, by its lines of kind A.

use crate::alike;
use crate::asked::{self, Prints, Question};
use crate::hex::hex;
use crate::nameless::Term;
use crate::nodes::{nodes, Binder, Node};
use crate::random::Random;
use crate::report::Tally;
use crate::tree;
use second::Problem;
use std::ops::Range;

/// Compares the numbers of all nodes of each seed's problem.
pub fn random(prints: Prints, seeds: Range<u64>) -> Result<Tally, String> {
    let mut tally = Tally::default();
    asked::compare(prints, seeds.map(|seed| question(seed, &mut tally)))?;
    Ok(tally)
}

/// What is asked about the problem of a seed, counted by what is to be said.
fn question(seed: u64, tally: &mut Tally) -> Question {
    let problem = alike::problem(&mut Random::new(seed));
    match Problem::read(&problem) {
        Ok(read) => accepted(&problem, &read.numbers(), tally),
        Err(_) => tally.count("refused problem"),
    }
    let line = format!("A {}  seed {seed}\n", hex(&problem));
    Question { seed, problem, line }
}

/// What the nodes of a problem that is accepted are cases of.
fn accepted(problem: &[u8], numbers: &[usize], tally: &mut Tally) {
    let expressions = tree::expressions(problem);
    let nodes = nodes(&expressions);
    tally.count("accepted problem");
    tally.add("nodes", nodes.len());
    for (k, lowest) in numbers.iter().enumerate() {
        if *lowest < k {
            count_equal(&nodes[k], &nodes[*lowest], tally);
        }
    }
    count_apart("binders at one depth", &nodes, numbers, by_depth, tally);
    count_apart("binders at one distance", &nodes, numbers, by_distance, tally);
    count_apart("one name", &nodes, numbers, by_name, tally);
}

/// A node and an earlier one that is equal.
fn count_equal(node: &Node, earlier: &Node, tally: &mut Tally) {
    tally.count(match node.size {
        1 => "equal, of one node",
        2..=4 => "equal, of 2 to 4 nodes",
        _ => "equal, of 5 nodes and more",
    });
    if node.tree != earlier.tree {
        tally.count("equal, with other names");
    }
    if node.size > 1 && node.alone(Binder::symbol) != *node.tree {
        tally.count("equal, with a binder outside");
        if node.depth() != earlier.depth() {
            tally.count("equal, with a binder outside, at two depths");
        }
    }
}

/// Nodes that no earlier one is equal to, although one has the same form.
fn count_apart(what: &str, nodes: &[Node], numbers: &[usize], form: fn(&Node) -> Term, tally: &mut Tally) {
    let forms: Vec<Term> = nodes.iter().map(form).collect();
    let is = |k: &usize| numbers[*k] == *k && forms[..*k].contains(&forms[*k]);
    let count = (0..nodes.len()).filter(is).count();
    tally.add(format!("not equal, variables of {what}"), count);
}

/// A subexpression with its binders outside by how many binders these stand under.
pub fn by_depth(node: &Node) -> Term {
    Term::new(&node.alone(Binder::depth_symbol))
}

/// The same by how many binders lie between.
pub fn by_distance(node: &Node) -> Term {
    let distance = |binder: Binder| Binder {
        depth: node.depth() - binder.depth,
        ..binder
    };
    Term::new(&node.alone(|binder| distance(binder).depth_symbol()))
}

/// The same by the names of their variables.
pub fn by_name(node: &Node) -> Term {
    Term::new(node.tree)
}
