//! Problems in readable notation.
//!
//! `s5` is a symbol, `v3` a variable, `(a b)` an application, `[b2 v3 t]`
//! binder 2 over variable 3, `?1` a metavariable, `?0{t}` a function
//! application and `_` a hole.

use crate::problem::Problem;
use crate::read::Constraint;
use crate::term::Term;
use std::fmt::{Display, Formatter, Result};

impl Display for Term {
    fn fmt(&self, f: &mut Formatter<'_>) -> Result {
        match self {
            Term::Symbol(number) => write!(f, "s{number}"),
            Term::Variable(name) => write!(f, "v{}", name.number()),
            Term::Application(terms) => {
                write!(f, "(")?;
                joined(f, terms, " ")?;
                write!(f, ")")
            }
            Term::Binder(number, name, inside) => {
                write!(f, "[b{number} v{} {inside}]", name.number())
            }
            Term::Metavariable(meta) => write!(f, "?{}", meta.number()),
            Term::Function(meta, argument) => write!(f, "?{}{{{argument}}}", meta.number()),
            Term::Hole => write!(f, "_"),
        }
    }
}

impl Display for Constraint {
    fn fmt(&self, f: &mut Formatter<'_>) -> Result {
        write!(f, "{} = {}", self.pattern, self.expression)
    }
}

impl Display for Problem {
    /// Constraints as `pattern = expression`, with ` ; ` between them.
    fn fmt(&self, f: &mut Formatter<'_>) -> Result {
        joined(f, self.constraints(), " ; ")
    }
}

/// Writes the items with a text between each two.
fn joined(f: &mut Formatter<'_>, items: &[impl Display], between: &str) -> Result {
    for (i, item) in items.iter().enumerate() {
        if i > 0 {
            write!(f, "{between}")?;
        }
        write!(f, "{item}")?;
    }
    Ok(())
}
