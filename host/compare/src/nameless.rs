//! Terms without bound names, and filling them: equal terms are the same here, and no variable can be caught.

use crate::tree::Tree;

/// A term of a problem or of a text.
#[derive(Clone, Debug, PartialEq, Eq, PartialOrd, Ord)]
pub enum Term {
    /// A symbol.
    Symbol(u32),
    /// A variable that no binder of the whole term binds.
    Free(u16),
    /// A variable of a binder, with so many other binders between the two; in a part of a term, its own may be outside.
    Bound(usize),
    /// An application.
    Apply(Vec<Term>),
    /// A binder: its number and its body.
    Bind(u16, Box<Term>),
    /// A metavariable.
    Meta(u8),
    /// A function application.
    Call(u8, Box<Term>),
    /// A hole of a body.
    Hole,
}

/// What a letter is given.
#[derive(Clone, Debug, PartialEq, Eq, PartialOrd, Ord)]
pub enum Given {
    /// An expression, put where the letter stands.
    Value(Term),
    /// An expression with holes, put where it is applied.
    Body(Term),
}

impl Term {
    /// The tree without its bound names.
    pub fn new(tree: &Tree) -> Term {
        Term::under(tree, &[])
    }

    /// The same below binders of these names, the nearest last.
    fn under(tree: &Tree, names: &[u16]) -> Term {
        match tree {
            Tree::Symbol(s) => Term::Symbol(*s),
            Tree::Variable(v) => {
                let binder = names.iter().rev().position(|name| name == v);
                binder.map_or(Term::Free(*v), Term::Bound)
            }
            Tree::Apply(terms) => Term::Apply(terms.iter().map(|term| Term::under(term, names)).collect()),
            Tree::Bind(b, v, body) => Term::Bind(*b, Box::new(Term::under(body, &[names, &[*v]].concat()))),
            Tree::Meta(m) => Term::Meta(*m),
            Tree::Call(m, argument) => Term::Call(*m, Box::new(Term::under(argument, names))),
            Tree::Hole => Term::Hole,
        }
    }

    /// The term and all that stands in it.
    pub fn parts(&self) -> Vec<&Term> {
        let mut parts = vec![self];
        match self {
            Term::Apply(terms) => parts.extend(terms.iter().flat_map(Term::parts)),
            Term::Bind(_, term) | Term::Call(_, term) => parts.extend(term.parts()),
            _ => (),
        }
        parts
    }

    /// Whether it has no variable that is bound outside it.
    pub fn stands_alone(&self) -> bool {
        self.stands_below(0)
    }

    /// The same of a term below so many binders.
    fn stands_below(&self, binders: usize) -> bool {
        match self {
            Term::Bound(k) => *k < binders,
            Term::Apply(terms) => terms.iter().all(|term| term.stands_below(binders)),
            Term::Bind(_, body) => body.stands_below(binders + 1),
            Term::Call(_, argument) => argument.stands_below(binders),
            _ => true,
        }
    }

    /// An expression with holes in place of each set of nodes of which none stands in another.
    pub fn with_holes(&self) -> Vec<Term> {
        let mut all = vec![Term::Hole];
        match self {
            Term::Apply(terms) => all.extend(each_with_holes(terms).into_iter().map(Term::Apply)),
            Term::Bind(b, body) => all.extend(body.with_holes().into_iter().map(|term| Term::Bind(*b, Box::new(term)))),
            leaf => all.push(leaf.clone()),
        }
        all
    }

    /// The pattern with what the letters are given; a letter that is given nothing stays.
    pub fn filled(&self, given: &[(u8, &Given)]) -> Term {
        let of = |letter: u8| given.iter().find(|(m, _)| *m == letter).map(|(_, given)| *given);
        match self {
            Term::Meta(m) => match of(*m) {
                Some(Given::Value(value)) => value.clone(),
                _ => self.clone(),
            },
            Term::Call(m, argument) => {
                let argument = argument.filled(given);
                match of(*m) {
                    Some(Given::Body(body)) => body.around(&argument, 0),
                    _ => Term::Call(*m, Box::new(argument)),
                }
            }
            Term::Apply(terms) => Term::Apply(terms.iter().map(|term| term.filled(given)).collect()),
            Term::Bind(b, body) => Term::Bind(*b, Box::new(body.filled(given))),
            leaf => leaf.clone(),
        }
    }

    /// A body, below so many binders of its own, with the argument in each hole.
    fn around(&self, argument: &Term, binders: usize) -> Term {
        match self {
            Term::Hole => argument.lifted(binders, 0),
            Term::Apply(terms) => Term::Apply(terms.iter().map(|term| term.around(argument, binders)).collect()),
            Term::Bind(b, body) => Term::Bind(*b, Box::new(body.around(argument, binders + 1))),
            leaf => leaf.clone(),
        }
    }

    /// The term moved below so many more binders: they come between a variable that is bound outside and its binder. `own`
    /// are the binders of the term above the part that is looked at.
    fn lifted(&self, by: usize, own: usize) -> Term {
        match self {
            Term::Bound(k) if *k >= own => Term::Bound(k + by),
            Term::Apply(terms) => Term::Apply(terms.iter().map(|term| term.lifted(by, own)).collect()),
            Term::Bind(b, body) => Term::Bind(*b, Box::new(body.lifted(by, own + 1))),
            leaf => leaf.clone(),
        }
    }
}

/// The terms, each with holes in every way beside every way of the others.
fn each_with_holes(terms: &[Term]) -> Vec<Vec<Term>> {
    terms.iter().fold(vec![vec![]], |before, term| {
        let ways = term.with_holes();
        let beside = |row: &Vec<Term>| -> Vec<Vec<Term>> {
            ways.iter()
                .map(|way| [&row[..], std::slice::from_ref(way)].concat())
                .collect()
        };
        before.iter().flat_map(beside).collect()
    })
}
