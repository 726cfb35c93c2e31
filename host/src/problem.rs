//! A problem that the matcher accepts.

use crate::fields::{self, tag};
use crate::raw::{self, LARGEST_PROBLEM, PLACE_WORDS};
use crate::refusal::Refusal;
use crate::saved::{self, ResumeError};
use crate::search::Search;
use crate::shown;
use crate::term::Term;
use crate::verdict::Verdict;
use std::fmt;

/// A problem that is accepted: none of the refusals 1 to 14 and 25 applies to its bytes.
#[derive(Clone, PartialEq, Eq, Hash)]
pub struct Problem {
    bytes: Vec<u8>,
    /// The first row, or past the last if there is none.
    start: [u64; PLACE_WORDS],
}

impl Problem {
    /// Reads the bytes of a problem; [`Problem::of`] makes them from terms.
    ///
    /// ```
    /// use matcher::{Problem, Refusal};
    ///
    /// // no constraint: accepted, and there is one solution, the empty one
    /// assert_eq!(Problem::new(&[])?.search().count(), 1);
    /// // a constraint whose length goes past the end
    /// let refusal = Problem::new(&[7, 0, 1]).unwrap_err();
    /// assert_eq!(refusal, Refusal::LengthPastEnd);
    /// assert_eq!(refusal.to_string(), "refused 3: a field's length goes past the enclosing end");
    /// # Ok::<(), Refusal>(())
    /// ```
    ///
    /// # Errors
    /// The refusal, 1 to 14 or 25.
    ///
    /// # Panics
    /// Only if the proved library answers what it is proved not to answer.
    pub fn new(bytes: &[u8]) -> Result<Problem, Refusal> {
        let mut start = [0; PLACE_WORDS];
        match raw::start(bytes, &mut start) {
            raw::OK => Ok(Problem {
                bytes: bytes.to_vec(),
                start,
            }),
            other => Err(refused(other)),
        }
    }

    /// The problem of these constraints: patterns, each with the expression that it shall equal.
    ///
    /// ```
    /// use matcher::{Problem, Refusal, Term};
    ///
    /// // ?0{?1} shall equal s5
    /// let pattern = Term::function(0, Term::metavariable(1));
    /// let problem = Problem::of([(pattern, Term::symbol(5))])?;
    /// assert_eq!(problem.bytes(), [7, 0, 13, 6, 0, 5, 0, 5, 0, 1, 1, 1, 0, 2, 0, 5]);
    /// // a hole in a pattern
    /// assert_eq!(Problem::of([(Term::hole(), Term::symbol(5))]), Err(Refusal::TagOutOfPlace));
    /// # Ok::<(), Refusal>(())
    /// ```
    ///
    /// # Errors
    /// The refusal, as [`Problem::new`] gives it.
    ///
    /// # Panics
    /// Only if the proved library answers what it is proved not to answer.
    pub fn of(constraints: impl IntoIterator<Item = (Term, Term)>) -> Result<Problem, Refusal> {
        let parts = constraints.into_iter().map(|(pattern, expression)| {
            fields::field(tag::CONSTRAINT, [pattern.into_bytes(), expression.into_bytes()])
        });
        let bytes = fields::joined(parts, LARGEST_PROBLEM).ok_or(Refusal::ProblemTooLong)?;
        Problem::new(&bytes)
    }

    /// The problem with the longest list for this number of nodes: P(X), `?0{?1}`, against symbol 0, or from two nodes on
    /// against an application of equal symbols 0. It has 2^(n-1) + 1 solutions, and P(X) against any other expression of n
    /// nodes has at most as many: who sets allowances can see here what the heaviest formula of that length costs.
    ///
    /// ```
    /// use matcher::{Problem, Refusal, Term};
    ///
    /// let three = Problem::longest(3)?;
    /// let expression = Term::application([Term::symbol(0), Term::symbol(0)]);
    /// assert_eq!(three, Problem::of([(Term::function(0, Term::metavariable(1)), expression)])?);
    /// assert_eq!(three.search().count(), 5);
    /// assert_eq!(Problem::longest(257), Err(Refusal::NodesOutOfRange));
    /// # Ok::<(), Refusal>(())
    /// ```
    ///
    /// # Errors
    /// [`Refusal::NodesOutOfRange`], if there are not from 1 to [`MAX_FACE_NODES`](crate::MAX_FACE_NODES) nodes.
    ///
    /// # Panics
    /// Only if the proved library answers what it is proved not to answer.
    pub fn longest(nodes: u32) -> Result<Problem, Refusal> {
        let mut bytes = [0; LARGEST_PROBLEM];
        let mut length = 0;
        match raw::longest(nodes, &mut bytes, &mut length) {
            raw::OK => Problem::new(&bytes[..length]),
            other => Err(refused(other)),
        }
    }

    /// Its bytes.
    #[must_use]
    pub fn bytes(&self) -> &[u8] {
        &self.bytes
    }

    /// The list of its solutions, from the first on.
    pub fn search(&self) -> Search<'_> {
        Search::at(self, self.start, 0)
    }

    /// A search that goes on where another one was [suspended](Search::suspend), in this process or another.
    ///
    /// # Errors
    /// The bytes are not those of a search of this problem, were saved by a version of this crate whose places were shorter,
    /// or are damaged. The search that they came from can still be resumed from bytes that are not.
    ///
    /// # Panics
    /// Only if the proved library answers what it is proved not to answer.
    pub fn resume(&self, saved: &[u8]) -> Result<Search<'_>, ResumeError> {
        let (place, found) = saved::read(saved, &self.bytes)?;
        let search = Search::at(self, place, found);
        if search.stands() {
            Ok(search)
        } else {
            Err(ResumeError::NoSuchPlace)
        }
    }

    /// Whether the filling that a text names is a solution; [`text_of`](crate::text_of) gives the text of a filling.
    /// Bound names are free: two texts that pass name the same solution exactly when they differ only in bound names. A
    /// wrong or missing metavariable is a no.
    ///
    /// # Errors
    /// [`Refusal::TextTooLong`], [`Refusal::TextMalformed`], or, where metavariable numbers do not rise from field to
    /// field, [`Refusal::TextOutOfOrder`].
    ///
    /// # Panics
    /// Only if the proved library answers what it is proved not to answer.
    pub fn check(&self, text: &[u8]) -> Result<Verdict, Refusal> {
        match raw::check(&self.bytes, text) {
            raw::YES => Ok(Verdict::Yes),
            raw::NO => Ok(Verdict::No),
            other => Err(refused(other)),
        }
    }
}

impl fmt::Debug for Problem {
    fn fmt(&self, f: &mut fmt::Formatter) -> fmt::Result {
        write!(f, "Problem({})", shown::bytes(&self.bytes))
    }
}

/// The refusal that an answer is.
pub(crate) fn refused(answer: u32) -> Refusal {
    Refusal::numbered(answer).unwrap_or_else(|| panic!("the matcher is proved not to answer {answer} here"))
}

#[cfg(test)]
mod tests {
    use super::*;

    /// Bytes that were made up, with marks that are right, still name no place that the problem has not.
    #[test]
    fn a_place_that_is_made_up_is_told() {
        let problem = Problem::new(&[]).expect("no constraint is a problem");
        for at in 0..PLACE_WORDS {
            let mut place = problem.start;
            place[at] = 2;
            let saved = saved::bytes(&place, 0, problem.bytes());
            assert_eq!(
                problem.resume(&saved).err(),
                Some(ResumeError::NoSuchPlace),
                "word {at}"
            );
        }
        let saved = saved::bytes(&problem.start, 0, problem.bytes());
        assert_eq!(problem.resume(&saved).map(Iterator::count), Ok(1));
    }
}
