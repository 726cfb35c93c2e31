//! The search: calls that can be stopped and resumed, and the iterator made of them.

use crate::problem::{refused, Problem};
use crate::raw::{self, PLACE_WORDS};
use crate::refusal::Refusal;
use crate::saved::{self, SAVED_BYTES};
use crate::shown;
use crate::solution::Solution;
use std::fmt;

/// The rows that the iterator allows each of its calls. They take some 0.3 seconds on small problems, and up to 50 on
/// the largest: a host that cannot wait so long makes the [calls](Search::call) itself.
pub const ALLOWANCE: u32 = 1_000_000;

/// A search of a problem: a place in the list of its rows. As an iterator it gives the solutions from there on, and makes
/// as many calls as that takes.
///
/// A problem may have far more rows than anyone can wait for. A host that wants to stay in charge makes the calls itself,
/// with [`Search::call`].
///
/// The iterator panics only if the proved library answers what it is proved not to answer.
#[derive(Clone)]
#[must_use = "a search looks for nothing until it is called"]
pub struct Search<'p> {
    problem: &'p Problem,
    place: [u64; PLACE_WORDS],
    /// How many solutions came before the place.
    found: u64,
}

/// What one call of a search gives.
#[derive(Clone, Debug, PartialEq, Eq, Hash)]
#[must_use = "a solution that is not taken is lost: the search has moved past it"]
#[expect(
    clippy::large_enum_variant,
    reason = "a step is taken apart at once, and a row on the heap would cost each Found an allocation"
)]
pub enum Step<'p> {
    /// The first solution at or after the place; the search has moved to the row after it.
    Found(Solution<'p>),
    /// At least as many rows as allowed were passed, with no solution among them, and the search has moved past them.
    Paused,
    /// There is none at or after the place.
    End,
}

impl<'p> Search<'p> {
    pub(crate) fn at(problem: &'p Problem, place: [u64; PLACE_WORDS], found: u64) -> Search<'p> {
        Search { problem, place, found }
    }

    /// Looks for the next solution, and pauses after `allowance` rows without one.
    ///
    /// As measured on one machine, a row takes some 0.3 µs on small problems and up to 50 µs on the largest. Before its
    /// first row a call reads the problem: a small one in some 2 µs, most large ones in 20 µs, and the worst, in which
    /// eight functions face terms as large and as deep as they may be, in 350 µs.
    ///
    /// ```
    /// use matcher::{Problem, Refusal, Step};
    ///
    /// let problem = Problem::new(&[])?; // no constraint: one solution, the empty text
    /// let mut search = problem.search();
    /// assert_eq!(search.call(0), Err(Refusal::NoAllowance));
    /// let Step::Found(solution) = search.call(1)? else { panic!() };
    /// assert_eq!(solution.text(), []);
    /// assert_eq!(search.call(1)?, Step::End);
    /// # Ok::<(), Refusal>(())
    /// ```
    ///
    /// # Errors
    /// [`Refusal::NoAllowance`] where the allowance is 0; the search then stays where it is.
    ///
    /// # Panics
    /// Only if the proved library answers what it is proved not to answer.
    pub fn call(&mut self, allowance: u32) -> Result<Step<'p>, Refusal> {
        let mut row = [0; PLACE_WORDS];
        match raw::search(self.problem.bytes(), &mut self.place, &mut row, allowance) {
            raw::FOUND => {
                self.found = self.found.saturating_add(1);
                Ok(Step::Found(Solution::of(self.problem, row, self.found)))
            }
            raw::PAUSED => Ok(Step::Paused),
            raw::END => Ok(Step::End),
            other => Err(refused(other)),
        }
    }

    /// How many solutions came before the place that the search is at, those before it was suspended included.
    #[must_use]
    pub fn found(&self) -> u64 {
        self.found
    }

    /// The search as bytes, for [`Problem::resume`]. They hold the place, how many solutions came before it, and a mark of
    /// the problem, so that they are not taken for a place in another one. The problem's own bytes are not among them.
    #[must_use]
    pub fn suspend(&self) -> [u8; SAVED_BYTES] {
        saved::bytes(&self.place, self.found, self.problem.bytes())
    }

    /// Whether the problem has the place: a call there is not refused.
    pub(crate) fn stands(&self) -> bool {
        self.clone().call(1).is_ok()
    }
}

impl fmt::Debug for Search<'_> {
    /// How many solutions came before it, and the place: the set of holes of each function up to the last that has one.
    fn fmt(&self, f: &mut fmt::Formatter) -> fmt::Result {
        let place = shown::place(&self.place);
        write!(f, "Search {{ found: {}, place: {place} }}", self.found)
    }
}

impl<'p> Iterator for Search<'p> {
    type Item = Solution<'p>;

    fn next(&mut self) -> Option<Solution<'p>> {
        loop {
            match self.call(ALLOWANCE).expect("the allowance is above 0") {
                Step::Found(solution) => return Some(solution),
                Step::Paused => (),
                Step::End => return None,
            }
        }
    }
}

impl std::iter::FusedIterator for Search<'_> {}
