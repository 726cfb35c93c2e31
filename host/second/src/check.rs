//! The checker.
//!
//! Document 01: "The checker takes a problem and a text", "bound names free, and
//! says yes or no"; a "wrong" or "missing" metavariable "is a no". T-07: "A
//! doubled metavariable thus no longer reaches a no", nor do fields out of
//! order. T-09, where a letter is used both ways: "the checker says no to every
//! well-formed text".

use crate::apply::Filling;
use crate::body::has_hole;
use crate::problem::Problem;
use crate::read::Constraint;
use crate::rename::{canonical, Names};
use crate::term::{Meta, Name, Term};
use crate::text::Field;
use std::collections::BTreeSet;

/// Whether the fields, whose numbers rise, are a solution of the problem. The
/// other tests don't see a letter used both ways: to (P(P), a) they would pass
/// the body a alone, since in the argument of a body without hole P needs no
/// value.
pub fn is_solution(problem: &Problem, fields: &[Field]) -> bool {
    let filling = filling(fields);
    !problem.both_ways()
        && fields.iter().map(Field::meta).eq(problem.metas().iter().copied())
        && filling.bodies.keys().eq(problem.function_metas())
        && filling.values.keys().eq(&due_values(problem, &filling))
        && problem.constraints().iter().all(|c| fits(c, &filling))
}

/// The filling that the fields give.
fn filling(fields: &[Field]) -> Filling {
    let mut filling = Filling::default();
    for field in fields {
        match field {
            Field::Value(meta, value) => filling.values.insert(*meta, value.clone()),
            Field::Body(meta, body) => filling.bodies.insert(*meta, body.clone()),
            Field::Open(_) => None,
        };
    }
    filling
}

/// The metavariables that must have a value, all others being open: those that
/// stand somewhere else than in arguments of functions without a hole.
fn due_values(problem: &Problem, filling: &Filling) -> BTreeSet<Meta> {
    let mut due = BTreeSet::new();
    for constraint in problem.constraints() {
        add_due(&constraint.pattern, filling, &mut due);
    }
    due
}

/// Adds those of one pattern.
fn add_due(pattern: &Term, filling: &Filling, due: &mut BTreeSet<Meta>) {
    match pattern {
        Term::Metavariable(meta) => {
            due.insert(*meta);
        }
        Term::Function(meta, _) if !filling.bodies.get(meta).is_some_and(has_hole) => {}
        other => {
            for child in other.children() {
                add_due(child, filling, due);
            }
        }
    }
}

/// Whether the filled pattern equals its expression. It is not built where its
/// size alone says no, so the work stays within the problem's own size.
fn fits(constraint: &Constraint, filling: &Filling) -> bool {
    let Constraint { pattern, expression } = constraint;
    filling.size(pattern) == expression.size() && {
        let filled = filling.apply(pattern, &mut Names::of(Name::Apart));
        canonical(&filled) == canonical(expression)
    }
}
