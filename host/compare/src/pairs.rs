//! Pairs of nodes (T-02): two nodes of a problem's expressions compare as they do in the second implementation, yes or no
//! and the number of pairs of nodes that it took.
//!
//! A host cannot ask the proved matcher for this; the program `vectors_texts` can, by its lines of kind N.

use crate::alike;
use crate::asked::{self, Prints, Question};
use crate::hex::hex;
use crate::nodes::{nodes, Node};
use crate::random::Random;
use crate::report::Tally;
use crate::tree;
use second::{Compared, Problem};
use std::ops::Range;

/// Pairs to each problem.
const PAIRS: usize = 8;

/// Compares random pairs of nodes of each seed's problem.
pub fn random(prints: Prints, seeds: Range<u64>) -> Result<Tally, String> {
    let mut tally = Tally::default();
    asked::compare(prints, seeds.flat_map(|seed| questions(seed, &mut tally)))?;
    Ok(tally)
}

/// The line that asks for two nodes.
fn line(seed: u64, problem: &[u8], (a, b): (usize, usize)) -> String {
    format!("N {} {a:04X}{b:04X} seed {seed}, nodes {a} and {b}\n", hex(problem))
}

/// What is asked about the problem of a seed.
fn questions(seed: u64, tally: &mut Tally) -> Vec<Question> {
    let random = &mut Random::new(seed);
    let problem = alike::problem(random);
    let pairs = match Problem::read(&problem) {
        Ok(read) => accepted(random, &problem, &read, tally),
        Err(_) => {
            tally.count("refused problem");
            vec![(random.below(3), random.below(65_536))]
        }
    };
    tally.add("pairs", pairs.len());
    let question = |pair| Question {
        seed,
        problem: problem.clone(),
        line: line(seed, &problem, pair),
    };
    pairs.into_iter().map(question).collect()
}

/// Pairs of nodes of a problem that is accepted, counted by what is to be said of them.
fn accepted(random: &mut Random, problem: &[u8], read: &Problem, tally: &mut Tally) -> Vec<(usize, usize)> {
    let expressions = tree::expressions(problem);
    let nodes = nodes(&expressions);
    let pairs: Vec<(usize, usize)> = (0..PAIRS).map(|_| alike::pair(random, &nodes)).collect();
    for &(a, b) in &pairs {
        match read.compare(a, b) {
            Some(compared) => count(&nodes, a, b, compared, tally),
            None => tally.count("no such node"),
        }
    }
    pairs
}

/// What the comparison of two nodes is a case of.
fn count(nodes: &[Node], a: usize, b: usize, compared: Compared, tally: &mut Tally) {
    if a == b {
        return tally.count("a node and itself");
    }
    if b < a + nodes[a].size && a < b + nodes[b].size {
        tally.count("a node inside the other");
    }
    let smaller = nodes[a].size.min(nodes[b].size);
    tally.count(match (compared.equal, compared.pairs) {
        (true, 1) => "yes of one node",
        (true, 2..=4) => "yes of 2 to 4 nodes",
        (true, _) => "yes of 5 nodes and more",
        (false, 1) => "no at the first pair",
        (false, pairs) if pairs == smaller => "no at the last pair of the smaller one",
        (false, _) => "no in between",
    });
    if !compared.equal {
        count_variables(nodes, a, b, compared.pairs - 1, tally);
    }
}

/// Variables at the k-th pair, where it disagrees.
fn count_variables(nodes: &[Node], a: usize, b: usize, k: usize, tally: &mut Tally) {
    let (Some(left), Some(right)) = (nodes[a + k].binder(), nodes[b + k].binder()) else {
        return;
    };
    let outside = left.node < a && right.node < b;
    if outside && left.depth == right.depth {
        tally.count(if k == 0 {
            "variables of two binders at one depth"
        } else {
            "variables of two binders at one depth, further in"
        });
    }
    if inside_one(a, b, left.node) && left == right {
        tally.count("a variable bound inside one and outside the other");
    }
}

/// Whether a binder that stands above a node of each stands inside one of them and outside the other.
pub fn inside_one(a: usize, b: usize, binder: usize) -> bool {
    (a <= binder) != (b <= binder)
}
