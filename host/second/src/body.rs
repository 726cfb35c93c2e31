//! Bodies and the sets of nodes that are their holes.
//!
//! Document 01: "The body of a choice is the face with these nodes as holes";
//! "Nodes of a face are numbered from 0 in that order too; a binder is one
//! node besides its body."

use crate::row::Choice;
use crate::term::Term;

/// The body of a choice for that face.
pub fn of_choice(face: &Term, choice: &Choice) -> Term {
    from_node(face, choice, 0)
}

/// The part of the body that begins at the given node of the face.
fn from_node(face: &Term, choice: &Choice, node: usize) -> Term {
    if choice.contains(&node) {
        return Term::Hole;
    }
    let mut next = node + 1;
    face.rebuild(|child| {
        let part = from_node(child, choice, next);
        next += child.size();
        part
    })
}

/// The choice for that face whose body this is.
pub fn to_choice(body: &Term, face: &Term) -> Choice {
    let mut holes = Choice::new();
    add_holes(body, face, 0, &mut holes);
    holes
}

/// Adds the holes of a part of the body that begins at the given node.
fn add_holes(body: &Term, face: &Term, node: usize, holes: &mut Choice) {
    if *body == Term::Hole {
        holes.insert(node);
        return;
    }
    let mut next = node + 1;
    for (part, child) in body.children().iter().zip(face.children()) {
        add_holes(part, child, next, holes);
        next += child.size();
    }
}

/// Whether the body has a hole.
pub fn has_hole(body: &Term) -> bool {
    body.any(&|term| *term == Term::Hole)
}
