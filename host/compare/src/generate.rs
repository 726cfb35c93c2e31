//! Random problems that have something to find.
//!
//! A filling is made up first, then patterns, and the expressions are the filled patterns with other bound names; in some
//! problems a name is caught on the way, or a node is changed after it, so that near misses come up as often as solutions.
//! Letters are few, so that subterms are equal, functions come again and bound names shadow each other. In two of three
//! problems symbols have numbers near the limits of two and four bytes, most often of both widths, many with the same low
//! half. In one of four problems that have a function, one of the functions may stand alone too (T-09): then the filling has
//! both a body and a value for it.

use crate::random::Random;
use crate::tree::{Entry, Tree};
use std::collections::{BTreeMap, BTreeSet};

/// Variables from here on stand for binders while an expression is made.
const FIRST_BINDER: u16 = 1000;

/// A problem and the filling that it was made with, which may or may not be a solution.
#[derive(Clone, Debug)]
pub struct Made {
    /// The patterns and expressions, of one constraint at least.
    pub constraints: Vec<(Tree, Tree)>,
    /// What each metavariable was filled with.
    pub filling: Vec<Entry>,
}

/// What the terms of one problem are like: how many letters there are of each kind, and about how many nodes.
#[derive(Clone, Debug)]
struct Style {
    constraints: usize,
    symbols: usize,
    variables: usize,
    binders: usize,
    /// One inner node in so many is a binder.
    binder_in: usize,
    functions: usize,
    plain: usize,
    pattern: usize,
    value: usize,
    body: usize,
}

#[rustfmt::skip]
const STYLES: [Style; 6] = [
    // a bit of everything
    Style { constraints: 3, symbols: 3, variables: 3, binders: 2, binder_in: 3, functions: 2, plain: 3, pattern: 7, value: 4, body: 7 },
    // many short constraints
    Style { constraints: 16, symbols: 2, variables: 2, binders: 1, binder_in: 4, functions: 2, plain: 6, pattern: 3, value: 2, body: 4 },
    // many functions
    Style { constraints: 3, symbols: 2, variables: 2, binders: 1, binder_in: 4, functions: 8, plain: 2, pattern: 7, value: 1, body: 2 },
    // binders over binders, and names that shadow each other
    Style { constraints: 2, symbols: 1, variables: 2, binders: 1, binder_in: 2, functions: 2, plain: 2, pattern: 7, value: 4, body: 8 },
    // equal subterms everywhere
    Style { constraints: 2, symbols: 1, variables: 1, binders: 1, binder_in: 3, functions: 1, plain: 2, pattern: 6, value: 3, body: 9 },
    // large bodies of many letters
    Style { constraints: 2, symbols: 60, variables: 40, binders: 4, binder_in: 4, functions: 2, plain: 4, pattern: 8, value: 8, body: 30 },
];

/// Little of everything, so that all fillings of a problem can be tried.
#[rustfmt::skip]
const SMALL: Style =
    Style { constraints: 2, symbols: 1, variables: 2, binders: 2, binder_in: 4, functions: 2, plain: 2, pattern: 4, value: 2, body: 4 };

/// A random problem.
pub fn problem(random: &mut Random) -> Made {
    let style = random.pick(&STYLES).clone();
    styled(random, style)
}

/// A small random problem.
pub fn small(random: &mut Random) -> Made {
    styled(random, SMALL.clone())
}

/// A random problem with terms of this style.
fn styled(random: &mut Random, style: Style) -> Made {
    let mut maker = Maker::new(random, style);
    let filling = maker.filling();
    let patterns: Vec<Tree> = (0..maker.up_to(|s| s.constraints)).map(|_| maker.pattern()).collect();
    let related = !maker.random.once_in(12);
    let constraints = patterns.into_iter().map(|pattern| {
        let expression = if related {
            maker.filled(&pattern, &filling)
        } else {
            maker.expression(|s| s.body)
        };
        (pattern, expression)
    });
    let mut constraints: Vec<(Tree, Tree)> = constraints.collect();
    if random.once_in(3) {
        change(random, &mut constraints);
    }
    Made { constraints, filling }
}

/// Replaces a node of an expression by a copy of another node of one.
fn change(random: &mut Random, constraints: &mut [(Tree, Tree)]) {
    let from = random.below(constraints.len());
    let k = random.below(constraints[from].1.nodes());
    let copy = constraints[from].1.node_mut(k).clone();
    let to = random.below(constraints.len());
    let k = random.below(constraints[to].1.nodes());
    *constraints[to].1.node_mut(k) = copy;
}

/// What makes the terms of one problem.
struct Maker<'r> {
    random: &'r mut Random,
    style: Style,
    /// Which pair of [`widths`] each symbol stands for; none where all have two bytes.
    widths: Option<usize>,
    functions: Vec<u8>,
    plain: Vec<u8>,
    next_binder: u16,
}

impl<'r> Maker<'r> {
    fn new(random: &'r mut Random, style: Style) -> Maker<'r> {
        let mut numbers: Vec<u8> = (0..32).collect();
        let mut draw = |random: &mut Random, most: usize| -> Vec<u8> {
            let n = if random.once_in(8) { 0 } else { random.between(1, most) };
            (0..n)
                .map(|_| numbers.swap_remove(random.below(numbers.len())))
                .collect()
        };
        let functions = draw(random, style.functions);
        let mut plain = draw(random, style.plain);
        if !functions.is_empty() && random.once_in(4) {
            plain.push(*random.pick(&functions));
        }
        let widths = (!random.once_in(3)).then(|| random.below(widths(0).len()));
        Maker {
            random,
            style,
            widths,
            functions,
            plain,
            next_binder: FIRST_BINDER,
        }
    }

    /// A number from 1 to what the style has of it.
    fn up_to(&mut self, of: impl Fn(&Style) -> usize) -> usize {
        self.random.between(1, of(&self.style))
    }

    fn filling(&mut self) -> Vec<Entry> {
        let mut entries = Vec::new();
        for m in self.functions.clone() {
            let body = self.body();
            entries.push(Entry::Body(m, body));
        }
        for m in self.plain.clone() {
            let value = self.expression(|s| s.value);
            entries.push(Entry::Value(m, value));
        }
        entries
    }

    /// A term of about so many nodes with these leaves.
    fn grow(&mut self, nodes: usize, leaf: fn(&mut Maker<'r>) -> Tree) -> Tree {
        if nodes <= 1 {
            return leaf(self);
        }
        if self.random.once_in(self.style.binder_in) {
            let (binder, variable) = (self.binder(), self.variable());
            return Tree::Bind(binder, variable, Box::new(self.grow(nodes - 1, leaf)));
        }
        let parts = self.random.between(1, 3).min(nodes - 1);
        let each = (nodes - 1) / parts;
        Tree::Apply((0..parts).map(|_| self.grow(each, leaf)).collect())
    }

    fn binder(&mut self) -> u16 {
        self.random.below(self.style.binders) as u16
    }

    fn variable(&mut self) -> u16 {
        self.random.below(self.style.variables) as u16
    }

    fn symbol(&mut self) -> u32 {
        let k = self.random.below(self.style.symbols) as u32;
        match self.widths {
            None => k,
            Some(pair) => *self.random.pick(&widths(k)[pair]),
        }
    }

    fn letter(&mut self) -> Tree {
        if self.random.once_in(2) {
            Tree::Symbol(self.symbol())
        } else {
            Tree::Variable(self.variable())
        }
    }

    fn expression(&mut self, nodes: impl Fn(&Style) -> usize) -> Tree {
        let nodes = self.up_to(nodes);
        self.grow(nodes, Maker::letter)
    }

    fn body(&mut self) -> Tree {
        let nodes = self.up_to(|s| s.body);
        self.grow(nodes, |maker| {
            if maker.random.once_in(3) {
                Tree::Hole
            } else {
                maker.letter()
            }
        })
    }

    fn pattern(&mut self) -> Tree {
        let most = if self.random.once_in(2) { 3 } else { self.style.pattern };
        let nodes = self.random.between(1, most);
        self.grow(nodes, |maker| {
            if maker.functions.is_empty() || maker.random.once_in(4) {
                return maker.argument_leaf();
            }
            let m = *maker.random.pick(&maker.functions);
            let nodes = maker.random.between(1, 3);
            Tree::Call(m, Box::new(maker.grow(nodes, Maker::argument_leaf)))
        })
    }

    fn argument_leaf(&mut self) -> Tree {
        if self.plain.is_empty() || self.random.once_in(2) {
            return self.letter();
        }
        Tree::Meta(*self.random.pick(&self.plain))
    }

    /// The pattern with the filling put in, and bound names of its own.
    fn filled(&mut self, pattern: &Tree, filling: &[Entry]) -> Tree {
        let unnamed = self.fill(pattern, filling, &[], None);
        self.named(&unnamed, &BTreeMap::new())
    }

    /// Fills a term. Every binder gets a number that nothing else has; `scope` says which number a name has, the last one
    /// first, and `argument` is what a hole gets.
    fn fill(&mut self, term: &Tree, filling: &[Entry], scope: &[(u16, u16)], argument: Option<&Tree>) -> Tree {
        match term {
            Tree::Symbol(s) => Tree::Symbol(*s),
            Tree::Variable(v) => {
                let owner = scope.iter().rev().find(|(name, _)| name == v);
                Tree::Variable(owner.map_or(*v, |(_, number)| *number))
            }
            Tree::Apply(terms) => Tree::Apply(terms.iter().map(|t| self.fill(t, filling, scope, argument)).collect()),
            Tree::Bind(b, v, body) => {
                let number = self.next_binder;
                self.next_binder += 1;
                let inner = [scope, &[(*v, number)]].concat();
                Tree::Bind(*b, number, Box::new(self.fill(body, filling, &inner, argument)))
            }
            Tree::Meta(m) => self.fill(value(filling, *m), filling, &[], None),
            Tree::Call(m, t) => {
                let argument = self.fill(t, filling, scope, None);
                self.fill(body(filling, *m), filling, &[], Some(&argument))
            }
            Tree::Hole => argument.expect("holes stand in bodies").clone(),
        }
    }

    /// The term with a name for each binder, in place of its number: any that catches nothing, and now and then one that
    /// does.
    fn named(&mut self, term: &Tree, names: &BTreeMap<u16, u16>) -> Tree {
        match term {
            Tree::Variable(v) => Tree::Variable(*names.get(v).unwrap_or(v)),
            Tree::Apply(terms) => Tree::Apply(terms.iter().map(|t| self.named(t, names)).collect()),
            Tree::Bind(b, number, body) => {
                let name = self.name(*number, body, names);
                let mut inner = names.clone();
                inner.insert(*number, name);
                Tree::Bind(*b, name, Box::new(self.named(body, &inner)))
            }
            other => other.clone(),
        }
    }

    fn name(&mut self, number: u16, body: &Tree, names: &BTreeMap<u16, u16>) -> u16 {
        let first = self.variable();
        if self.random.once_in(20) {
            return first;
        }
        let mut used = BTreeSet::new();
        variables(body, &mut used);
        used.remove(&number);
        let taken: BTreeSet<u16> = used.into_iter().map(|v| *names.get(&v).unwrap_or(&v)).collect();
        (first..)
            .find(|name| !taken.contains(name))
            .expect("a term has fewer variables than there are names")
    }
}

/// Pairs of numbers for the k-th symbol, near the limits of two and four bytes: of one width or of both, all but the last
/// with the same low half.
fn widths(k: u32) -> [[u32; 2]; 4] {
    [
        [k, 65_536 + k],
        [65_536 + k, 131_072 + k],
        [65_535 - k, u32::MAX - k],
        [65_535 - k, 65_536 + k],
    ]
}

/// What the filling gives a metavariable where it stands alone.
fn value(filling: &[Entry], m: u8) -> &Tree {
    let of = filling.iter().find_map(|entry| match entry {
        Entry::Value(n, term) if *n == m => Some(term),
        _ => None,
    });
    of.expect("the filling has a value for each that stands alone")
}

/// What it gives a metavariable where it stands as a function.
fn body(filling: &[Entry], m: u8) -> &Tree {
    let of = filling.iter().find_map(|entry| match entry {
        Entry::Body(n, term) if *n == m => Some(term),
        _ => None,
    });
    of.expect("the filling has a body for each function")
}

fn variables(term: &Tree, to: &mut BTreeSet<u16>) {
    if let Tree::Variable(v) = term {
        to.insert(*v);
    }
    for inner in term.inner() {
        variables(inner, to);
    }
}
