//! The nodes of a problem's expressions, compared with one another.
//!
//! T-02: "Its yes and no keep their meaning, and with them it returns the number
//! of node pairs compared". The meaning is document 01's: "Two terms are equal
//! when they differ at most in the names of bound variables. Binder numbers,
//! symbol numbers and numbers of children must agree. So must free variables by
//! number, and those bound outside both terms by their binder."
//!
//! T-08: "a table shall give each node of a problem's expressions a number, the
//! same for two nodes exactly when their subexpressions are equal. Variables
//! bound outside a subexpression must be told apart by their binder."

use crate::compare::{self, Compared};
use crate::problem::Problem;
use crate::read::Constraint;
use crate::rename::{canonical, rename_bound, Names};
use crate::term::{Name, Term};

impl Problem {
    /// Compares the subexpressions at two nodes. Nodes are numbered from 0
    /// through all expressions: constraints in order, each expression from the
    /// top and left to right; "a binder is one node besides its body". Nothing
    /// if there is no such node.
    pub fn compare(&self, a: usize, b: usize) -> Option<Compared> {
        let expressions = told_apart(self.constraints());
        let nodes: Vec<&Term> = expressions.iter().flat_map(Term::nodes).collect();
        Some(compare::terms(nodes.get(a)?, nodes.get(b)?))
    }

    /// A number for each node, in their order: the lowest node whose
    /// subexpression is equal. No two are compared as above: equal ones have
    /// the same canonical form, in which a name that is not canonical belongs
    /// to a binder outside, or to none.
    pub fn numbers(&self) -> Vec<usize> {
        let expressions = told_apart(self.constraints());
        let nodes = expressions.iter().flat_map(Term::nodes);
        let forms: Vec<Term> = nodes.map(canonical).collect();
        let lowest = |form| forms.iter().position(|other| other == form);
        forms.iter().filter_map(lowest).collect()
    }
}

/// All expressions, where no two binders have the same name, not even in
/// different constraints. So a name tells which binder a variable belongs to,
/// also where that binder stands outside the terms compared.
fn told_apart(constraints: &[Constraint]) -> Vec<Term> {
    let mut names = Names::of(Name::Apart);
    let expressions = constraints.iter().map(|c| &c.expression);
    expressions.map(|term| rename_bound(term, &mut names)).collect()
}
