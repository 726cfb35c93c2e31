//! What each metavariable and each function application faces.
//!
//! Document 01: "A function's face is that of its first application
//! (constraints in order, each pattern left to right from the top)."

use crate::compare;
use crate::read::Constraint;
use crate::rename::{rename_bound, Names};
use crate::term::{Meta, Name, Term};

/// A metavariable outside arguments, and the subexpression it faces.
#[derive(Debug, Clone)]
pub struct Face {
    /// The metavariable.
    pub meta: Meta,
    /// Its argument, if it is a function.
    pub argument: Option<Term>,
    /// The subexpression, with the problem's names.
    pub spelled: Term,
    /// The subexpression, where each binder of the expression, also of those
    /// around, has a name of its own; so names tell what binds a variable.
    pub apart: Term,
}

/// All faces in order, or nothing if the shapes of a constraint disagree.
pub fn faces(constraints: &[Constraint]) -> Option<Vec<Face>> {
    let mut names = Names::of(Name::Apart);
    let mut faces = Vec::new();
    for constraint in constraints {
        let apart = rename_bound(&constraint.expression, &mut names);
        let met = compare::meetings(&constraint.pattern, &constraint.expression)?;
        let met_apart = compare::meetings(&constraint.pattern, &apart)?;
        for (meeting, meeting_apart) in met.into_iter().zip(met_apart) {
            faces.push(Face {
                meta: meeting.meta,
                argument: meeting.argument.cloned(),
                spelled: meeting.face.clone(),
                apart: meeting_apart.face.clone(),
            });
        }
    }
    Some(faces)
}
