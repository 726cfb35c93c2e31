//! The potential solutions of a small problem, all of them, and which are complete and minimal: definitions 14 to 17 of
//! document 000, taken as they stand.
//!
//! Each letter is given nothing, or one thing of a pool, which is finite and yet decides what all expressions would. What
//! fits where a letter stands is a part of an expression, or has holes in place of parts of one. Of all else a symbol that
//! occurs nowhere is enough: if the letters left open are given it and every pattern still fits, then no place of theirs is
//! left in the filled patterns, and whatever else they are given fits as well.

use crate::nameless::{Given, Term};
use crate::tree::Tree;
use std::collections::BTreeSet;

/// Problems with more potential solutions than this are too large.
pub const MOST_POTENTIAL: usize = 10_000;

/// Problems with an expression of more nodes than this are too large: it has too many parts with holes.
pub const MOST_NODES: usize = 10;

/// A potential solution, as pairs by ascending letter.
pub type Solution = Vec<(u8, Given)>;

/// A letter that occurs, and what it can be given.
struct Letter {
    number: u8,
    pool: Vec<Given>,
    /// The numbers of potential solutions that differ in this letter alone are apart by multiples of this.
    step: usize,
}

impl Letter {
    /// Which thing of its pool a potential solution gives it, counted from 1; 0 if it is given nothing.
    fn digit(&self, n: usize) -> usize {
        n / self.step % (self.pool.len() + 1)
    }

    /// Its pair, if it is given something.
    fn pair(&self, n: usize) -> Option<(u8, &Given)> {
        Some((self.number, &self.pool[self.digit(n).checked_sub(1)?]))
    }

    /// The potential solutions with a pair for it besides, where it is given nothing.
    fn extended(&self, n: usize) -> impl Iterator<Item = usize> + '_ {
        (1..=self.pool.len()).map(move |digit| n + digit * self.step)
    }

    /// The one without its pair.
    fn without(&self, n: usize) -> usize {
        n - self.digit(n) * self.step
    }
}

/// The potential solutions of a problem. Each has a number, whose digits say what the letters are given.
pub struct Table {
    constraints: Vec<(Term, Term)>,
    letters: Vec<Letter>,
}

impl Table {
    /// The table of a problem that is not too large.
    pub fn new(constraints: &[(Tree, Tree)]) -> Option<Table> {
        if constraints.iter().any(|(_, e)| e.nodes() > MOST_NODES) {
            return None;
        }
        let constraints = constraints.iter().map(|(p, e)| (Term::new(p), Term::new(e)));
        let mut table = Table {
            constraints: constraints.collect(),
            letters: vec![],
        };
        table.add_letters();
        (table.size() <= MOST_POTENTIAL).then_some(table)
    }

    /// Finds the letters: a body is due for one that is applied, and a value for one that stands alone. One that does both
    /// can be given neither.
    fn add_letters(&mut self) {
        let patterns: Vec<&Term> = self.constraints.iter().flat_map(|(p, _)| p.parts()).collect();
        let applied = |m: u8| patterns.iter().any(|part| matches!(part, Term::Call(n, _) if *n == m));
        let alone = |m: u8| patterns.iter().any(|part| **part == Term::Meta(m));
        let uses: Vec<(u8, bool, bool)> = (0..32).map(|m| (m, applied(m), alone(m))).collect();
        for (number, applied, alone) in uses {
            let pool = match (applied, alone) {
                (false, false) => continue,
                (true, false) => self.bodies(),
                (false, true) => self.values(),
                (true, true) => vec![],
            };
            let step = self.size();
            self.letters.push(Letter { number, pool, step });
        }
    }

    /// How many there are.
    pub fn size(&self) -> usize {
        self.letters
            .last()
            .map_or(1, |last| last.step.saturating_mul(last.pool.len() + 1))
    }

    /// How many letters occur.
    pub fn letters(&self) -> usize {
        self.letters.len()
    }

    /// The values that are tried.
    fn values(&self) -> Vec<Given> {
        let parts = self.constraints.iter().flat_map(|(_, e)| e.parts());
        let values: BTreeSet<Term> = parts.cloned().chain([self.fresh()]).collect();
        let alone = values.into_iter().filter(Term::stands_alone);
        alone.map(Given::Value).collect()
    }

    /// The bodies that are tried: a part may have variables that are bound outside it, as long as holes take their places.
    fn bodies(&self) -> Vec<Given> {
        let parts = self.constraints.iter().flat_map(|(_, e)| e.parts());
        let bodies: BTreeSet<Term> = parts.flat_map(Term::with_holes).chain([self.fresh()]).collect();
        let alone = bodies.into_iter().filter(Term::stands_alone);
        alone.map(Given::Body).collect()
    }

    /// A symbol that occurs nowhere.
    fn fresh(&self) -> Term {
        let terms = self.constraints.iter().flat_map(|(p, e)| [p, e]);
        let parts: Vec<&Term> = terms.flat_map(Term::parts).collect();
        let mut symbols = (0..).map(Term::Symbol);
        symbols
            .find(|symbol| !parts.contains(&symbol))
            .expect("a problem has fewer symbols than there are")
    }

    /// The pairs of a potential solution.
    fn pairs(&self, n: usize) -> Vec<(u8, &Given)> {
        self.letters.iter().filter_map(|letter| letter.pair(n)).collect()
    }

    /// Whether every filled pattern is its expression.
    pub fn satisfied(&self, n: usize) -> bool {
        let pairs = self.pairs(n);
        self.constraints.iter().all(|(p, e)| p.filled(&pairs) == *e)
    }

    /// Whether every letter is given something.
    pub fn is_total(&self, n: usize) -> bool {
        self.letters.iter().all(|letter| letter.digit(n) > 0)
    }

    /// Which are complete: this holds of them and of all that extend them. These have greater numbers.
    pub fn complete(&self, holds: impl Fn(usize) -> bool) -> Vec<bool> {
        let mut complete = vec![false; self.size()];
        for n in (0..self.size()).rev() {
            let mut open = self.letters.iter().filter(|letter| letter.digit(n) == 0);
            complete[n] = holds(n) && open.all(|letter| letter.extended(n).all(|more| complete[more]));
        }
        complete
    }

    /// The minimal ones of those that are complete, sorted: no proper part of them is complete.
    pub fn minimal(&self, complete: &[bool]) -> Vec<Solution> {
        let owned = |n: usize| self.pairs(n).into_iter().map(|(m, given)| (m, given.clone()));
        let mut minimal: Vec<Solution> = (0..self.size())
            .filter(|n| complete[*n] && !self.proper_parts(*n).iter().any(|part| complete[*part]))
            .map(|n| owned(n).collect())
            .collect();
        minimal.sort();
        minimal
    }

    /// The potential solutions with some of its pairs, or none, and not all.
    fn proper_parts(&self, n: usize) -> Vec<usize> {
        let mut parts = vec![n];
        for letter in self.letters.iter().filter(|letter| letter.digit(n) > 0) {
            let without: Vec<usize> = parts.iter().map(|part| letter.without(*part)).collect();
            parts.extend(without);
        }
        parts.split_off(1)
    }
}
