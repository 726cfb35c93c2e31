//! One solution of a problem.

use crate::fields;
use crate::filling::Given;
use crate::node_set::NodeSet;
use crate::problem::Problem;
use crate::raw::{self, LARGEST_WRITTEN, PLACE_WORDS};
use crate::shown;
use std::fmt;

/// A solution of a problem: a row of it, and what every metavariable and function stands for there.
#[derive(Clone, PartialEq, Eq, Hash)]
pub struct Solution<'p> {
    problem: &'p Problem,
    row: [u64; PLACE_WORDS],
    number: u64,
}

impl<'p> Solution<'p> {
    pub(crate) fn of(problem: &'p Problem, row: [u64; PLACE_WORDS], number: u64) -> Solution<'p> {
        Solution { problem, row, number }
    }

    /// Its number in the problem's list, from 1.
    #[must_use]
    pub fn number(&self) -> u64 {
        self.number
    }

    /// What every metavariable of the problem stands for, by ascending number.
    ///
    /// # Panics
    /// Only if the proved library answers what it is proved not to answer.
    #[must_use]
    pub fn filling(&self) -> Vec<(u8, Given)> {
        fields::all(&self.text())
            .map(|(tag, content)| Given::written(tag, content))
            .collect()
    }

    /// What one metavariable stands for; nothing where the problem does not have it.
    ///
    /// # Panics
    /// Only if the proved library answers what it is proved not to answer.
    #[must_use]
    pub fn given(&self, metavariable: u8) -> Option<Given> {
        let mut filling = self.filling().into_iter();
        filling.find_map(|(number, given)| (number == metavariable).then_some(given))
    }

    /// The nodes of a function's face that are holes of its body, none where it has no hole; nothing where the metavariable
    /// is no function of the problem. Nodes of a face are numbered from 0, left to right from the top.
    ///
    /// # Panics
    /// Only if the proved library answers what it is proved not to answer.
    #[must_use]
    pub fn holes(&self, metavariable: u8) -> Option<Vec<usize>> {
        let filling = self.filling();
        let mut functions = filling.iter().filter(|(_, given)| matches!(given, Given::Body(_)));
        let rank = functions.position(|(number, _)| *number == metavariable)?;
        Some(NodeSet::in_place(&self.row, rank).nodes().collect())
    }

    /// Its row in the form that the functions of [`raw`] take; [`NodeSet`] reads its sets of holes.
    #[must_use]
    pub fn row(&self) -> [u64; PLACE_WORDS] {
        self.row
    }

    /// Its text: one field for each metavariable of the problem, ascending. [`Problem::check`] passes it.
    ///
    /// # Panics
    /// Only if the proved library answers what it is proved not to answer.
    #[must_use]
    pub fn text(&self) -> Vec<u8> {
        let (mut text, mut written) = ([0; LARGEST_WRITTEN], 0);
        let answer = raw::write(self.problem.bytes(), &self.row, &mut text, &mut written);
        assert_eq!(answer, raw::OK, "the matcher is proved to write what it found");
        text[..written].to_vec()
    }
}

impl fmt::Debug for Solution<'_> {
    /// Its number, and the set of holes of each function up to the last that has one.
    fn fmt(&self, f: &mut fmt::Formatter) -> fmt::Result {
        let holes = shown::place(&self.row);
        write!(f, "Solution {{ number: {}, row: {holes} }}", self.number)
    }
}
