//! Lists of calls: any allowances, with pauses and refused calls among them, give document 01's answers, each by itself and
//! all of them together.

use crate::generate;
use crate::random::Random;
use crate::report::{differ, each_seed, same, Tally};
use crate::subject::{words, Subject, Words, PAST, UNTOUCHED};
use crate::tree;
use matcher::raw::{END, FOUND, OK, PAUSED, PLACE_WORDS};
use second::Problem;
use std::collections::HashMap;
use std::ops::Range;

/// Problems with more rows than this are left out.
const MOST_ROWS: usize = 2_000;

/// The places of a problem in order, past the last included, and which of them are solution rows.
pub(crate) struct Rows {
    pub(crate) places: Vec<Words>,
    index: HashMap<Words, usize>,
    solving: Vec<usize>,
}

impl Rows {
    pub(crate) fn of(read: &Problem) -> Option<Rows> {
        let places: Vec<Words> = read.rows(MOST_ROWS)?.iter().map(words).chain([PAST]).collect();
        let index: HashMap<Words, usize> = places
            .iter()
            .copied()
            .enumerate()
            .map(|(at, place)| (place, at))
            .collect();
        let solutions = read.solutions(places.len())?;
        let solving = solutions
            .iter()
            .map(|s| index.get(&words(&s.row)).copied())
            .collect::<Option<Vec<usize>>>()?;
        Some(Rows { places, index, solving })
    }

    /// How many rows there are: the index of past the last.
    pub(crate) fn end(&self) -> usize {
        self.places.len() - 1
    }

    pub(crate) fn next_solution(&self, at: usize) -> Option<usize> {
        self.solving.iter().copied().find(|solution| at <= *solution)
    }
}

/// Makes a random list of calls on each seed's problem.
pub fn random(subject: &dyn Subject, seeds: Range<u64>) -> Result<Tally, String> {
    each_seed(seeds, |random, tally| {
        let problem = tree::problem(&generate::problem(random).constraints);
        one_list(subject, &problem, random, tally)
    })
}

/// Makes a random list of calls on a problem.
pub(crate) fn one_list(
    subject: &dyn Subject,
    problem: &[u8],
    random: &mut Random,
    tally: &mut Tally,
) -> Result<(), String> {
    match Problem::read(problem).ok().and_then(|read| Rows::of(&read)) {
        Some(rows) => Calls::new(subject, problem, &rows).run(random, tally),
        None => {
            tally.count("left out");
            Ok(())
        }
    }
}

/// A list of calls under way.
struct Calls<'a> {
    subject: &'a dyn Subject,
    problem: &'a [u8],
    rows: &'a Rows,
    /// The row that the list is at, and the place as the matcher holds it.
    at: usize,
    place: Words,
    /// The Founds so far, and whether there was an End.
    found: Vec<Words>,
    ended: bool,
}

impl<'a> Calls<'a> {
    fn new(subject: &'a dyn Subject, problem: &'a [u8], rows: &'a Rows) -> Calls<'a> {
        Calls {
            subject,
            problem,
            rows,
            at: 0,
            place: UNTOUCHED,
            found: Vec::new(),
            ended: false,
        }
    }

    /// Calls with random allowances: so many above 0 that End must come, and refused ones between them.
    fn run(&mut self, random: &mut Random, tally: &mut Tally) -> Result<(), String> {
        same(
            self.problem,
            "the start",
            self.subject.start(self.problem, &mut self.place),
            OK,
        )?;
        same(self.problem, "the place of the start", self.place, self.rows.places[0])?;
        let usual = random.between(1, 6).pow(random.between(1, 5) as u32);
        let mut allowed = 0;
        while allowed <= self.rows.end() && !(self.ended && random.once_in(4)) {
            let n = if random.once_in(6) {
                0
            } else {
                random.between(1, usual) as u32
            };
            allowed += usize::from(n > 0);
            self.call(n, tally)?;
            self.list()?;
            if random.once_in(6) {
                self.refused_for_its_row(n, tally)?;
            }
        }
        tally.count("lists");
        same(self.problem, "an End after more calls than rows", self.ended, true)
    }

    fn call(&mut self, n: u32, tally: &mut Tally) -> Result<(), String> {
        let mut row = UNTOUCHED;
        let before = self.place;
        let answer = self.subject.search(self.problem, &mut self.place, &mut row, n);
        let what = format!("a call with {n} at row {} of {}", self.at, self.rows.end());
        if answer != FOUND {
            same(self.problem, &format!("the row buffer of {what}"), row, UNTOUCHED)?;
        }
        if n == 0 {
            tally.count("refused 15");
            same(self.problem, &what, answer, 15)?;
            return same(self.problem, &format!("the place of {what}"), self.place, before);
        }
        let end = self.rows.end();
        match self.rows.next_solution(self.at) {
            Some(next) if next - self.at < n as usize => self.expect_found(&what, answer, row, next, tally),
            None if end - self.at <= n as usize => self.expect_end(&what, answer, tally),
            next => self.expect_pause(&what, answer, n as usize, next.unwrap_or(end - 1), tally),
        }
    }

    fn expect_found(
        &mut self,
        what: &str,
        answer: u32,
        row: Words,
        next: usize,
        tally: &mut Tally,
    ) -> Result<(), String> {
        tally.count("found");
        same(self.problem, what, answer, FOUND)?;
        same(self.problem, &format!("the row of {what}"), row, self.rows.places[next])?;
        self.found.push(row);
        self.at = next + 1;
        same(
            self.problem,
            &format!("the place after {what}"),
            self.place,
            self.rows.places[self.at],
        )
    }

    fn expect_end(&mut self, what: &str, answer: u32, tally: &mut Tally) -> Result<(), String> {
        tally.count("end");
        same(self.problem, what, answer, END)?;
        self.ended = true;
        self.at = self.rows.end();
        same(
            self.problem,
            &format!("the place after {what}"),
            self.place,
            self.rows.places[self.at],
        )
    }

    /// A pause passes at least n rows and no solution row: it ends at `most` at the latest.
    fn expect_pause(
        &mut self,
        what: &str,
        answer: u32,
        n: usize,
        most: usize,
        tally: &mut Tally,
    ) -> Result<(), String> {
        tally.count("paused");
        same(self.problem, what, answer, PAUSED)?;
        let index = self.rows.index.get(&self.place).copied();
        let Some(to) = index.filter(|to| self.at + n <= *to && *to <= most) else {
            return Err(differ(
                self.problem,
                &format!("{what} pauses at {index:?}, not from {} to {most}", self.at + n),
            ));
        };
        self.at = to;
        Ok(())
    }

    /// A call whose row buffer is too short changes nothing, whatever it would have answered.
    fn refused_for_its_row(&mut self, n: u32, tally: &mut Tally) -> Result<(), String> {
        let mut row = UNTOUCHED;
        let before = self.place;
        let expected = if n == 0 { 15 } else { 18 };
        tally.count(format!("refused {expected}"));
        let answer = self
            .subject
            .search(self.problem, &mut self.place, &mut row[..PLACE_WORDS - 1], n);
        same(self.problem, "a call with a short row buffer", answer, expected)?;
        same(self.problem, "the place of a refused call", self.place, before)?;
        same(self.problem, "the row buffer of a refused call", row, UNTOUCHED)
    }

    /// The third demand, of the list of calls so far.
    fn list(&self) -> Result<(), String> {
        let k = self.found.len();
        let full: Vec<Words> = self.rows.solving.iter().map(|at| self.rows.places[*at]).collect();
        if k > full.len() || self.found != full[..k] {
            return Err(differ(
                self.problem,
                &format!("the Founds {:x?} are not the first of {full:x?}", self.found),
            ));
        }
        if self.ended && k != full.len() {
            return Err(differ(
                self.problem,
                &format!("an End after {k} of {} solutions", full.len()),
            ));
        }
        Ok(())
    }
}
