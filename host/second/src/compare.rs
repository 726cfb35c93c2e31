//! Walking two terms together.
//!
//! Document 01: "Kinds, symbol and binder numbers and child counts must agree,
//! free variables by number and bound ones by their binders, until a
//! metavariable or function application is met; that faces the subexpression
//! there." T-02, of two subexpressions: "let its loop end at the first
//! disagreement".

use crate::term::{Meta, Name, Term};

/// A metavariable or function application, met outside arguments.
pub struct Meeting<'p, 'e> {
    /// The metavariable.
    pub meta: Meta,
    /// Its argument, if it is a function.
    pub argument: Option<&'p Term>,
    /// The subexpression it faces.
    pub face: &'e Term,
}

/// What a comparison of two terms comes to.
#[derive(Debug, Clone, Copy, PartialEq, Eq)]
pub struct Compared {
    /// Whether they "differ at most in the names of bound variables".
    pub equal: bool,
    /// T-02: "the number of node pairs compared: taken together from the top,
    /// up to and with the first pair whose kind, number, binder or child count
    /// disagrees, or all of them if none does".
    pub pairs: usize,
}

/// All meetings from the top and left to right, if the shapes agree.
pub fn meetings<'p, 'e>(pattern: &'p Term, expression: &'e Term) -> Option<Vec<Meeting<'p, 'e>>> {
    let mut walk = Walk::start();
    walk.agree(pattern, expression).then_some(walk.met)
}

/// Compares two terms without metavariables. A variable that none of a term's
/// own binders binds goes by its name alone.
pub fn terms(left: &Term, right: &Term) -> Compared {
    let mut walk = Walk::start();
    let equal = walk.agree(left, right);
    Compared {
        equal,
        pairs: walk.pairs,
    }
}

/// Whether two terms without metavariables differ at most in bound names.
pub fn equal(left: &Term, right: &Term) -> bool {
    terms(left, right).equal
}

/// A walk under way.
struct Walk<'p, 'e> {
    /// How many pairs of nodes were compared.
    pairs: usize,
    /// The bound names of the binders around, the innermost last.
    binders: Vec<(Name, Name)>,
    met: Vec<Meeting<'p, 'e>>,
}

impl<'p, 'e> Walk<'p, 'e> {
    /// Nothing compared yet.
    fn start() -> Self {
        Walk {
            pairs: 0,
            binders: Vec::new(),
            met: Vec::new(),
        }
    }

    /// Walks on from here; false at the first disagreement, after which no pair
    /// is taken.
    fn agree(&mut self, pattern: &'p Term, expression: &'e Term) -> bool {
        self.pairs += 1;
        match (pattern, expression) {
            (Term::Metavariable(meta), _) => self.meet(*meta, None, expression),
            (Term::Function(meta, argument), _) => self.meet(*meta, Some(argument), expression),
            (Term::Symbol(left), Term::Symbol(right)) => left == right,
            (Term::Variable(left), Term::Variable(right)) => self.same_variable(*left, *right),
            (Term::Application(left), Term::Application(right)) => {
                left.len() == right.len() && left.iter().zip(right).all(|(l, r)| self.agree(l, r))
            }
            (Term::Binder(left, x, p), Term::Binder(right, y, e)) if left == right => {
                self.binders.push((*x, *y));
                let agree = self.agree(p, e);
                self.binders.pop();
                agree
            }
            _ => false,
        }
    }

    /// Keeps a meeting; a metavariable agrees with whatever it faces.
    fn meet(&mut self, meta: Meta, argument: Option<&'p Term>, face: &'e Term) -> bool {
        self.met.push(Meeting { meta, argument, face });
        true
    }

    /// A variable belongs to the nearest binder of its name, else it is free.
    fn same_variable(&self, left: Name, right: Name) -> bool {
        let nearest = self.binders.iter().rev().find(|(x, y)| *x == left || *y == right);
        match nearest {
            Some((x, y)) => *x == left && *y == right,
            None => left == right,
        }
    }
}
