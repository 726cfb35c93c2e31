//! Problems in which a function faces many nodes (T-10), of 64 and 65, of 256 and 257 and about them: their lists, their calls and
//! their places.
//!
//! A search goes from row to row, and so there shall be few: most terms of a face stand in it once, and some copies of one
//! term stand far apart, in each word of the set of nodes.

use crate::random::Random;
use crate::report::{each_seed, Tally};
use crate::subject::{Subject, WORD_NODES};
use crate::tree::{self, Tree};
use crate::{calls, damage, lists, places};
use matcher::raw::{MAX_FACE_NODES, SET_WORDS};
use second::Problem;
use std::collections::BTreeSet;
use std::ops::Range;

/// Numbers of nodes about the ends of words, most of them with nodes in the last one.
const SIZES: [usize; 12] = [63, 64, 65, 128, 129, 192, 193, 255, 256, 256, 256, 257];

/// Compares each seed's problem in one of three ways, or its refusal.
pub fn random(subject: &dyn Subject, seeds: Range<u64>) -> Result<Tally, String> {
    each_seed(seeds, |random, tally| {
        let large = Large::new(random);
        let problem = tree::problem(&large.constraints);
        large.count(tally);
        match Problem::read(&problem) {
            Err(refusal) => {
                tally.count(format!("refused {refusal}"));
                damage::everywhere(subject, &problem, u32::from(refusal))
            }
            Ok(_) => match random.below(3) {
                0 => lists::whole(subject, &problem, tally),
                1 => calls::one_list(subject, &problem, random, tally),
                _ => places::some_places(subject, &problem, random, tally),
            },
        }
    })
}

/// A problem with a large face.
#[derive(Clone, Debug)]
pub struct Large {
    /// Its patterns and expressions.
    pub constraints: Vec<(Tree, Tree)>,
    /// How many nodes the face has.
    pub nodes: usize,
    /// At which of them the copies of one term stand.
    pub copies: BTreeSet<usize>,
}

impl Large {
    /// A random one.
    pub fn new(random: &mut Random) -> Large {
        let nodes = match random.below(4) {
            0 => random.between(65, MAX_FACE_NODES),
            _ => *random.pick(&SIZES),
        };
        let copy = random.below(COPIES.len());
        let mut maker = Maker::new(random, COPIES[copy], nodes);
        let face = maker.face(nodes);
        let copies = maker.copies;
        let constraints = constraints(random, COPIES[copy], &face, &copies);
        Large {
            constraints,
            nodes,
            copies,
        }
    }

    /// What it is like.
    fn count(&self, tally: &mut Tally) {
        tally.count(format!("{} nodes", self.nodes));
        let words: BTreeSet<usize> = self.copies.iter().map(|node| node / WORD_NODES).collect();
        for word in &words {
            tally.count(format!("copies in word {word}"));
        }
        if words.len() == SET_WORDS {
            tally.count("copies in every word");
        }
    }
}

/// A copy of a term, with a bound name of its own where it has one.
type Copy = fn(u16) -> Tree;

/// Of one node and of several, with a bound name and without.
const COPIES: [Copy; 4] = [
    |_| Tree::Symbol(1),
    |_| Tree::Apply(vec![Tree::Symbol(1), Tree::Symbol(2)]),
    |name| Tree::Bind(1, name, Box::new(Tree::Variable(name))),
    |name| {
        Tree::Bind(
            1,
            name,
            Box::new(Tree::Apply(vec![Tree::Variable(name), Tree::Symbol(1)])),
        )
    },
];

/// What makes a face.
struct Maker<'r> {
    random: &'r mut Random,
    copy: Copy,
    /// Where copies are wanted.
    wanted: BTreeSet<usize>,
    /// Where they stand.
    copies: BTreeSet<usize>,
    /// The next node's number.
    next: usize,
}

impl<'r> Maker<'r> {
    fn new(random: &'r mut Random, copy: Copy, nodes: usize) -> Maker<'r> {
        let mut wanted = BTreeSet::new();
        let last = nodes - copy(0).nodes();
        for word in 0..nodes.div_ceil(WORD_NODES).min(SET_WORDS) {
            let (first, next) = (WORD_NODES * word, WORD_NODES * (word + 1));
            let near = [first, first + 1, next - 2, next - 1, last];
            if !random.once_in(6) {
                wanted.insert(last.min(*random.pick(&near)));
            }
            if random.once_in(4) {
                wanted.insert(first + random.below(WORD_NODES));
            }
        }
        Maker {
            random,
            copy,
            wanted,
            copies: BTreeSet::new(),
            next: 0,
        }
    }

    /// A term of so many nodes.
    fn face(&mut self, nodes: usize) -> Tree {
        self.next = 1;
        Tree::Apply(self.terms(nodes, None))
    }

    /// Terms whose nodes are the next ones, up to this one; `bound` is a name that is bound there.
    fn terms(&mut self, end: usize, bound: Option<u16>) -> Vec<Tree> {
        let mut terms = Vec::new();
        while self.next < end {
            let term = self.term(end, bound);
            terms.push(term);
        }
        terms
    }

    fn term(&mut self, end: usize, bound: Option<u16>) -> Tree {
        let (node, room) = (self.next, end - self.next);
        let copy = (self.copy)(node as u16);
        if self.wanted.contains(&node) && copy.nodes() <= room {
            self.copies.insert(node);
            self.next += copy.nodes();
            return copy;
        }
        if room > 20 && self.random.once_in(16) {
            return self.group(end);
        }
        self.next += 1;
        match bound {
            Some(name) if self.random.once_in(4) => Tree::Variable(name),
            _ => Tree::Symbol(1_000 + node as u32),
        }
    }

    /// Some terms together, under a binder or not.
    fn group(&mut self, end: usize) -> Tree {
        let name = self.next as u16;
        let binds = self.random.once_in(2);
        self.next += 1 + usize::from(binds);
        let end = end.min(self.next + self.random.between(1, 18));
        let terms = Tree::Apply(self.terms(end, binds.then_some(name)));
        if binds {
            Tree::Bind(2, name, Box::new(terms))
        } else {
            terms
        }
    }
}

/// The constraints of a problem in which a function faces this: P(X) with nothing else, P of a copy, X besides, or P(Y) against
/// the same with another term in place of some copies; and now and then other functions, which face a node each.
fn constraints(random: &mut Random, copy: Copy, face: &Tree, copies: &BTreeSet<usize>) -> Vec<(Tree, Tree)> {
    let mut functions: Vec<u8> = (0..30).collect();
    let mut function = |random: &mut Random| functions.swap_remove(random.below(functions.len()));
    let m = function(random);
    let call = |argument: Tree| Tree::Call(m, Box::new(argument));
    let (x, y) = (Tree::Meta(30), Tree::Meta(31));
    let mut constraints = match random.below(8) {
        0 | 1 => vec![(call(x), face.clone())],
        2 => vec![(call(x.clone()), face.clone()), (x, copy(7))],
        3 | 4 => vec![(call(x), face.clone()), (call(y), exchanged(random, face, copies))],
        _ => vec![(call(copy(7)), face.clone())],
    };
    for _ in 0..*random.pick(&[0, 0, 0, 1, 1, 2]) {
        let other = Tree::Call(function(random), Box::new(Tree::Symbol(5)));
        let at = random.below(constraints.len() + 1);
        constraints.insert(at, (other, Tree::Symbol(5)));
    }
    constraints
}

/// The face with a symbol in place of each copy, or of all but one of them.
fn exchanged(random: &mut Random, face: &Tree, copies: &BTreeSet<usize>) -> Tree {
    let mut other = face.clone();
    let kept = if random.once_in(2) {
        random.below(8)
    } else {
        copies.len()
    };
    // from the last on, so that the nodes before keep their numbers
    for (k, node) in copies.iter().enumerate().rev() {
        if k != kept {
            *other.node_mut(*node) = Tree::Symbol(9);
        }
    }
    other
}
