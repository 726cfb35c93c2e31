//! Terms, as trees with names.
//!
//! Document 01: "A metavariable's number and a variable's number are never
//! compared: metavariable 3 and variable 3 have nothing in common."

use std::collections::BTreeSet;

/// The name of a variable. Names of different kinds are never the same name,
/// so each maker of new names has a kind to itself.
#[derive(Debug, Clone, Copy, PartialEq, Eq, PartialOrd, Ord)]
pub enum Name {
    /// A variable's number, as the problem or the text has it.
    Given(u16),
    /// A new name for one binder, unlike those of all other binders.
    Apart(u32),
    /// A new name for a binder of a body which the procedure builds.
    Imitated(u32),
    /// The n-th binder of a term, in reading order.
    Canonical(u32),
}

impl Name {
    /// The number by which fields call it. Only given names get there; a made
    /// one would go by the number it was made with.
    pub fn number(self) -> u16 {
        match self {
            Name::Given(number) => number,
            Name::Apart(made) | Name::Imitated(made) | Name::Canonical(made) => made as u16,
        }
    }
}

/// A metavariable: the problem's own are 0 to 31, the procedure's new ones
/// come after them.
#[derive(Debug, Clone, Copy, PartialEq, Eq, PartialOrd, Ord)]
pub struct Meta(pub u32);

impl Meta {
    /// The number of metavariables that a problem can have.
    pub const GIVEN: u32 = 32;

    /// Whether it is one of the problem's own.
    pub fn is_given(self) -> bool {
        self.0 < Self::GIVEN
    }

    /// The one byte by which fields call one of the problem's own.
    pub fn number(self) -> u8 {
        self.0 as u8
    }
}

/// A pattern, an expression or a body.
#[derive(Debug, Clone, PartialEq, Eq)]
pub enum Term {
    /// A symbol with its number, which has 32 bits by T-05.
    Symbol(u32),
    /// A variable, bound or free.
    Variable(Name),
    /// An application of one or more terms.
    Application(Vec<Term>),
    /// A binder with its number, its bound variable and its one term.
    Binder(u16, Name, Box<Term>),
    /// A metavariable that stands alone.
    Metavariable(Meta),
    /// A function metavariable applied to an argument.
    Function(Meta, Box<Term>),
    /// A hole, the place of the argument in a body.
    Hole,
}

impl Term {
    /// The terms directly inside, left to right.
    pub fn children(&self) -> &[Term] {
        match self {
            Term::Application(terms) => terms,
            Term::Binder(_, _, term) | Term::Function(_, term) => std::slice::from_ref(term),
            _ => &[],
        }
    }

    /// The terms directly inside, to be changed.
    pub fn children_mut(&mut self) -> &mut [Term] {
        match self {
            Term::Application(terms) => terms,
            Term::Binder(_, _, term) | Term::Function(_, term) => std::slice::from_mut(term),
            _ => &mut [],
        }
    }

    /// The same term with each term directly inside it changed.
    pub fn rebuild(&self, mut change: impl FnMut(&Term) -> Term) -> Term {
        match self {
            Term::Application(terms) => Term::Application(terms.iter().map(change).collect()),
            Term::Binder(number, name, term) => Term::Binder(*number, *name, Box::new(change(term))),
            Term::Function(meta, term) => Term::Function(*meta, Box::new(change(term))),
            leaf => leaf.clone(),
        }
    }

    /// All nodes, from the top and left to right.
    pub fn nodes(&self) -> Vec<&Term> {
        let mut nodes = vec![self];
        for child in self.children() {
            nodes.extend(child.nodes());
        }
        nodes
    }

    /// The number of nodes; a binder or a function is one besides its term.
    pub fn size(&self) -> usize {
        1 + self.children().iter().map(Term::size).sum::<usize>()
    }

    /// Whether it or a term inside it, at any depth, passes the test.
    pub fn any(&self, test: &impl Fn(&Term) -> bool) -> bool {
        test(self) || self.children().iter().any(|child| child.any(test))
    }

    /// The way down to the first node that passes the test, as child numbers.
    pub fn find(&self, test: &impl Fn(&Term) -> bool) -> Option<Vec<usize>> {
        if test(self) {
            return Some(Vec::new());
        }
        self.children().iter().enumerate().find_map(|(i, child)| {
            let mut path = child.find(test)?;
            path.insert(0, i);
            Some(path)
        })
    }

    /// The term at the end of a way down, if there is such a way.
    pub fn at(&self, path: &[usize]) -> Option<&Term> {
        path.iter().try_fold(self, |term, child| term.children().get(*child))
    }

    /// Whether a metavariable or a function application is in it.
    pub fn has_metavariables(&self) -> bool {
        self.any(&|term| matches!(term, Term::Metavariable(_) | Term::Function(..)))
    }

    /// The names of its variables that none of its own binders binds.
    pub fn free_names(&self) -> BTreeSet<Name> {
        if let Term::Variable(name) = self {
            return BTreeSet::from([*name]);
        }
        let mut names: BTreeSet<Name> = self.children().iter().flat_map(Term::free_names).collect();
        if let Term::Binder(_, name, _) = self {
            names.remove(name);
        }
        names
    }
}
