//! Wrong numberings of nodes: a comparison of numbers that lets one pass says nothing about it.

use crate::nameless::Term;
use crate::nodes::{nodes, Binder, Node};
use crate::numbers::{by_depth, by_distance, by_name};
use crate::tree::{self, Tree};
use crate::vectors;
use crate::wrong_pairs::{everywhere, narrow};
use second::Problem;
use std::cell::Cell;

/// A way to be wrong.
#[derive(Clone, Copy, Debug, PartialEq, Eq)]
pub enum WrongNumbers {
    /// Takes a binder outside by how many binders lie between (its index).
    DistancesOutside,
    /// Takes it by how many binders it stands under (its level): that of another constraint for one's own.
    DepthsOutside,
    /// Takes it by the name that it binds.
    NamesOutside,
    /// Tells the outermost binder outside from others, and those further in by their depths.
    OutermostAlone,
    /// Compares bound names.
    ComparesNames,
    /// Takes a hash for equality: which nodes there are, in any order.
    Hashes,
    /// Looks at the top and at what stands directly in it, and no further.
    LooksAtTheTop,
    /// Compares symbols of four bytes by their low half.
    LowHalves,
    /// Gives all nodes one number.
    AllEqual,
    /// Gives each node a number of its own.
    NoneEqual,
    /// Has no number for the last node.
    MissesTheLast,
}

impl WrongNumbers {
    /// All of them.
    pub const ALL: [WrongNumbers; 11] = [
        WrongNumbers::DistancesOutside,
        WrongNumbers::DepthsOutside,
        WrongNumbers::NamesOutside,
        WrongNumbers::OutermostAlone,
        WrongNumbers::ComparesNames,
        WrongNumbers::Hashes,
        WrongNumbers::LooksAtTheTop,
        WrongNumbers::LowHalves,
        WrongNumbers::AllEqual,
        WrongNumbers::NoneEqual,
        WrongNumbers::MissesTheLast,
    ];

    /// What it prints in place of `vectors_texts`.
    pub fn prints(self, input: &str) -> String {
        vectors::texts_numbered(input, |problem| {
            let numbers = Problem::read(problem)?.numbers();
            Ok(self.numbers(problem, numbers))
        })
    }

    /// Its numbers, where these are right.
    fn numbers(self, problem: &[u8], mut right: Vec<usize>) -> Vec<usize> {
        match self {
            WrongNumbers::DistancesOutside => by_forms(problem, by_distance),
            WrongNumbers::DepthsOutside => by_forms(problem, by_depth),
            WrongNumbers::NamesOutside => by_forms(problem, by_name),
            WrongNumbers::OutermostAlone => by_forms(problem, |node| (outermost(node), by_depth(node))),
            WrongNumbers::ComparesNames => by_forms(problem, |node| node.alone(Binder::symbol)),
            WrongNumbers::Hashes => by_forms(problem, hash),
            WrongNumbers::LooksAtTheTop => by_forms(problem, top),
            WrongNumbers::LowHalves => by_changed_forms(problem, narrow, by_binder),
            WrongNumbers::AllEqual => vec![0; right.len()],
            WrongNumbers::NoneEqual => (0..right.len()).collect(),
            WrongNumbers::MissesTheLast => {
                right.pop();
                right
            }
        }
    }
}

/// What is printed by one that is not wrong, and makes its numbers as the wrong ones do: what these are caught for is their
/// fault and nothing else.
pub fn right(input: &str) -> String {
    vectors::texts_numbered(input, |problem| {
        Problem::read(problem).map(|_| by_forms(problem, by_binder))
    })
}

/// The numbers of a problem's nodes, where those of one form are equal.
fn by_forms<F: PartialEq>(problem: &[u8], form: impl Fn(&Node) -> F) -> Vec<usize> {
    by_changed_forms(problem, |_| (), form)
}

/// The same after a change of each node.
fn by_changed_forms<F: PartialEq>(problem: &[u8], change: fn(&mut Tree), form: impl Fn(&Node) -> F) -> Vec<usize> {
    let mut expressions = tree::expressions(problem);
    expressions.iter_mut().for_each(|tree| everywhere(tree, change));
    let forms: Vec<F> = nodes(&expressions).iter().map(form).collect();
    let lowest = |form| forms.iter().position(|other| other == form);
    forms.iter().filter_map(lowest).collect()
}

/// A subexpression with each binder outside told from all others.
fn by_binder(node: &Node) -> Term {
    Term::new(&node.alone(Binder::symbol))
}

/// The outermost binder outside that a subexpression uses.
fn outermost(node: &Node) -> Option<usize> {
    let outermost = Cell::new(None);
    node.alone(|binder| {
        let least = outermost
            .get()
            .map_or(binder.node, |least: usize| least.min(binder.node));
        outermost.set(Some(least));
        binder.symbol()
    });
    outermost.get()
}

/// The nodes of a subexpression, each without what stands in it, in one order.
fn hash(node: &Node) -> Vec<Term> {
    let form = by_binder(node);
    let mut labels: Vec<Term> = form.parts().into_iter().map(label).collect();
    labels.sort();
    labels
}

/// The top of a subexpression and what stands directly in it, each without what stands further in.
fn top(node: &Node) -> (Term, Vec<Term>) {
    let form = by_binder(node);
    let inner = match &form {
        Term::Apply(terms) => terms.iter().map(label).collect(),
        Term::Bind(_, body) => vec![label(body)],
        _ => vec![],
    };
    (label(&form), inner)
}

/// A term without what stands in it.
fn label(term: &Term) -> Term {
    match term {
        Term::Apply(terms) => Term::Apply(vec![Term::Hole; terms.len()]),
        Term::Bind(b, _) => Term::Bind(*b, Box::new(Term::Hole)),
        leaf => leaf.clone(),
    }
}
