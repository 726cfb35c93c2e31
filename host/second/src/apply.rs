//! Fillings, and putting them into patterns.
//!
//! Document 001, section 3: "the recursive process Apply(I, p) of applying an
//! instantiation I to a pattern p"; document 01: "No variable of a value, body
//! or argument is ever caught: bound names are changed first where they would
//! catch one."

use crate::rename::{rename_free, Names};
use crate::term::{Meta, Term};
use std::collections::BTreeMap;

/// A filling; metavariables that it doesn't have are open.
#[derive(Debug, Default)]
pub struct Filling {
    /// Values of metavariables.
    pub values: BTreeMap<Meta, Term>,
    /// Bodies of functions.
    pub bodies: BTreeMap<Meta, Term>,
}

impl Filling {
    /// The number of nodes that the filled pattern has, without filling it.
    pub fn size(&self, pattern: &Term) -> usize {
        match pattern {
            Term::Metavariable(meta) => self.values.get(meta).map_or(1, Term::size),
            Term::Function(meta, argument) => match self.bodies.get(meta) {
                Some(body) => size_at(body, self.size(argument)),
                None => 1,
            },
            other => other
                .children()
                .iter()
                .fold(1, |sum, child| usize::saturating_add(sum, self.size(child))),
        }
    }

    /// The filled pattern. Its binders, and those of bodies, take fresh names,
    /// which no value, body or argument uses.
    pub fn apply(&self, pattern: &Term, names: &mut Names) -> Term {
        match pattern {
            Term::Metavariable(meta) => self.values.get(meta).unwrap_or(pattern).clone(),
            Term::Function(meta, argument) => match self.bodies.get(meta) {
                Some(body) => reduce(body, &self.apply(argument, names), names),
                None => pattern.clone(),
            },
            Term::Binder(number, name, inside) => {
                let fresh = names.fresh();
                let inside = self.apply(&rename_free(inside, *name, fresh), names);
                Term::Binder(*number, fresh, Box::new(inside))
            }
            other => other.rebuild(|child| self.apply(child, names)),
        }
    }
}

/// The nodes of a body whose holes are filled with so many each.
fn size_at(body: &Term, hole: usize) -> usize {
    match body {
        Term::Hole => hole,
        other => other
            .children()
            .iter()
            .fold(1, |sum, child| usize::saturating_add(sum, size_at(child, hole))),
    }
}

/// The β-reduction of (λv.body)(argument), where the hole is v.
fn reduce(body: &Term, argument: &Term, names: &mut Names) -> Term {
    match body {
        Term::Hole => argument.clone(),
        Term::Binder(number, name, inside) => {
            let fresh = names.fresh();
            let inside = reduce(&rename_free(inside, *name, fresh), argument, names);
            Term::Binder(*number, fresh, Box::new(inside))
        }
        other => other.rebuild(|child| reduce(child, argument, names)),
    }
}
