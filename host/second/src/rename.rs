//! Renaming of variables.
//!
//! Document 001: "we must first α-convert λx.B to some λx'.B[x := x'] for an
//! entirely new variable x'"; document 01: "bound names are changed first
//! where they would catch one".

use crate::term::{Name, Term};

/// A source of names of one kind, none given twice.
#[derive(Debug, Clone)]
pub struct Names {
    kind: fn(u32) -> Name,
    next: u32,
}

impl Names {
    /// All names of that kind, from 0.
    pub fn of(kind: fn(u32) -> Name) -> Names {
        Names { kind, next: 0 }
    }

    /// A name that this source has not given before.
    pub fn fresh(&mut self) -> Name {
        let name = (self.kind)(self.next);
        self.next += 1;
        name
    }
}

/// `term[old := new]`, for a new name that no binder of the term binds.
pub fn rename_free(term: &Term, old: Name, new: Name) -> Term {
    match term {
        Term::Variable(name) if *name == old => Term::Variable(new),
        Term::Binder(_, name, _) if *name == old => term.clone(),
        other => other.rebuild(|child| rename_free(child, old, new)),
    }
}

/// The same term, each of its binders with a fresh name, in reading order.
pub fn rename_bound(term: &Term, names: &mut Names) -> Term {
    match term {
        Term::Binder(number, name, inside) => {
            let fresh = names.fresh();
            let inside = rename_free(inside, *name, fresh);
            Term::Binder(*number, fresh, Box::new(rename_bound(&inside, names)))
        }
        other => other.rebuild(|child| rename_bound(child, names)),
    }
}

/// The canonical form of document 001, section 1: terms equal up to bound
/// names, and no others, have the same one.
pub fn canonical(term: &Term) -> Term {
    rename_bound(term, &mut Names::of(Name::Canonical))
}
