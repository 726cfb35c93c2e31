//! Accepted problems and what can be asked of them.
//!
//! Document 01: "A problem is accepted when none of 1 to 14 applies." T-05, of
//! its 25: "a problem refused so isn't accepted". Document 01: "A row is a
//! solution row if some solution has these bodies; that solution is then the
//! only one, up to bound names."
//!
//! T-09 withdraws 12. A problem in which a letter stands both as a function and
//! alone "has by definition no solutions", "and so no rows; 14 isn't looked for
//! in it".
//!
//! T-10: "A face may have 256; refusal 14 now begins at 257."

use crate::faces::{faces, Face};
use crate::matches::{matches, Bodies};
use crate::read::{self, Constraint};
use crate::refusal::*;
use crate::row::{self, Row};
use crate::term::{Meta, Term};
use crate::{body, check, spelling, text};
use std::collections::BTreeSet;

const MAX_FUNCTIONS: usize = 8;
const MAX_FACE_NODES: usize = 256;

/// A solution row with its solution's text.
#[derive(Debug, Clone, PartialEq, Eq)]
pub struct Solution {
    /// The row.
    pub row: Row,
    /// The text that document 01 has written for the row.
    pub text: Vec<u8>,
}

/// An accepted problem.
#[derive(Debug, Clone)]
pub struct Problem {
    constraints: Vec<Constraint>,
    /// All metavariables that occur.
    metas: BTreeSet<Meta>,
    /// Those of them that are functions.
    functions: BTreeSet<Meta>,
    /// Whether one of these stands alone too.
    both_ways: bool,
    /// What stands outside arguments with what it faces, if there are rows.
    faces: Option<Vec<Face>>,
}

impl Problem {
    /// Reads a problem. A refusal is one of document 01's numbers 1 to 14, of
    /// which 12 is withdrawn, or T-05's 25.
    pub fn read(bytes: &[u8]) -> Result<Problem, u8> {
        let constraints = read::constraints(bytes)?;
        let patterns = || constraints.iter().flat_map(|c| c.pattern.nodes());
        let functions: BTreeSet<Meta> = patterns().filter_map(function).collect();
        let others: BTreeSet<Meta> = patterns().filter_map(metavariable).collect();
        if functions.len() > MAX_FUNCTIONS {
            return Err(TOO_MANY_FUNCTIONS);
        }
        let both_ways = !functions.is_disjoint(&others);
        let problem = Problem {
            metas: &functions | &others,
            functions,
            both_ways,
            faces: if both_ways { None } else { faces(&constraints) },
            constraints,
        };
        let mut function_faces = problem.function_faces().into_iter().flatten();
        if function_faces.any(|face| face.spelled.size() > MAX_FACE_NODES) {
            return Err(FACE_TOO_LARGE);
        }
        Ok(problem)
    }

    /// The nodes of all patterns together. A metavariable is one node, and a
    /// function application one besides its argument's.
    pub fn pattern_nodes(&self) -> usize {
        self.constraints.iter().map(|c| c.pattern.size()).sum()
    }

    /// The nodes of all expressions together.
    pub fn expression_nodes(&self) -> usize {
        self.constraints.iter().map(|c| c.expression.size()).sum()
    }

    /// Whether the problem has rows: no letter is used both ways, and each
    /// pattern agrees with its expression down to the metavariables.
    pub fn has_rows(&self) -> bool {
        self.faces.is_some()
    }

    /// The number of nodes of each function's face, by ascending function.
    /// Nothing if there are no rows.
    pub fn face_nodes(&self) -> Option<Vec<usize>> {
        let faces = self.function_faces()?;
        Some(faces.iter().map(|face| face.spelled.size()).collect())
    }

    /// The functions, ascending.
    pub fn functions(&self) -> Vec<u8> {
        self.functions.iter().map(|meta| meta.number()).collect()
    }

    /// All metavariables that occur, functions included, ascending.
    pub fn metavariables(&self) -> Vec<u8> {
        self.metas.iter().map(|meta| meta.number()).collect()
    }

    /// All rows in order, or nothing when there are more than the limit; these
    /// are counted without being listed.
    pub fn rows(&self, limit: usize) -> Option<Vec<Row>> {
        let Some(faces) = self.function_faces() else {
            return Some(Vec::new());
        };
        let faces: Vec<&Term> = faces.iter().map(|face| &face.apart).collect();
        let few = row::count_rows(&faces).is_some_and(|count| count <= limit as u128);
        few.then(|| row::rows(&faces))
    }

    /// Whether that is a row of the problem.
    pub fn is_row(&self, row: &Row) -> bool {
        self.function_faces().is_some_and(|faces| {
            faces.len() == row.len()
                && faces
                    .iter()
                    .zip(row)
                    .all(|(face, choice)| row::is_choice(&face.apart, choice))
        })
    }

    /// The full list: all solution rows in order, each with its solution's
    /// text. Nothing when there are more than the limit.
    ///
    /// A letter used both ways is not left to the procedure, which has no case
    /// for it. Document 000, of its case 4: "the same results could be
    /// accomplished by scanning the pattern once, before the algorithm is
    /// invoked".
    pub fn solutions(&self, limit: usize) -> Option<Vec<Solution>> {
        if self.both_ways {
            return Some(Vec::new());
        }
        let found = matches(&self.constraints, &Bodies::new(), limit)?;
        let mut rows: Vec<Row> = found.iter().filter_map(|bodies| self.row_of(bodies)).collect();
        rows.sort_by(row::row_order);
        let solution = |row: Row| {
            let text = self.spell(&row)?;
            Some(Solution { row, text })
        };
        Some(rows.into_iter().filter_map(solution).collect())
    }

    /// The text of a row's solution. Refusals: 16 if there is no such row, 17
    /// if it is no solution row.
    pub fn write(&self, row: &Row) -> Result<Vec<u8>, u8> {
        if !self.is_row(row) {
            return Err(NO_SUCH_ROW);
        }
        // A variable of a face that is bound outside it reads as a free one in
        // the body. It then matches nothing, for in the expressions that the
        // procedure compares it has got its binder's new name.
        let fixed = self.bodies_of(row).unwrap_or_default();
        match matches(&self.constraints, &fixed, 1).as_deref() {
            Some([_]) => self.spell(row).ok_or(NO_SOLUTION_ROW),
            _ => Err(NO_SOLUTION_ROW),
        }
    }

    /// Whether the text is a solution. Refusals: 19, 20 and 27.
    pub fn check(&self, text: &[u8]) -> Result<bool, u8> {
        Ok(check::is_solution(self, &text::read(text)?))
    }

    /// The constraints in order.
    pub(crate) fn constraints(&self) -> &[Constraint] {
        &self.constraints
    }

    /// All metavariables that occur, ascending.
    pub(crate) fn metas(&self) -> &BTreeSet<Meta> {
        &self.metas
    }

    /// The functions among them.
    pub(crate) fn function_metas(&self) -> &BTreeSet<Meta> {
        &self.functions
    }

    /// Whether some metavariable stands both as a function and alone.
    pub(crate) fn both_ways(&self) -> bool {
        self.both_ways
    }

    /// Each function's face, which is that of its first application.
    pub(crate) fn function_faces(&self) -> Option<Vec<&Face>> {
        let faces = self.faces.as_ref()?;
        let first = |meta: &Meta| faces.iter().find(|face| face.meta == *meta);
        self.functions.iter().map(first).collect()
    }

    /// The row of these bodies.
    pub(crate) fn row_of(&self, bodies: &Bodies) -> Option<Row> {
        let faces = self.function_faces()?;
        let choice = |face: &&Face| {
            let body = bodies.get(&face.meta)?;
            Some(body::to_choice(body, &face.spelled))
        };
        faces.iter().map(choice).collect()
    }

    /// The bodies of a row, with the problem's names.
    pub(crate) fn bodies_of(&self, row: &Row) -> Option<Bodies> {
        Some(spelling::bodies(self.function_faces()?.into_iter(), row))
    }

    /// The text which the row's bodies lead to.
    pub(crate) fn spell(&self, row: &Row) -> Option<Vec<u8>> {
        let faces = self.faces.as_ref()?;
        let fields = spelling::fields(&self.metas, faces, &self.bodies_of(row)?)?;
        Some(text::write(&fields))
    }
}

/// The metavariable of a function application.
fn function(term: &Term) -> Option<Meta> {
    match term {
        Term::Function(meta, _) => Some(*meta),
        _ => None,
    }
}

/// A metavariable that stands alone.
fn metavariable(term: &Term) -> Option<Meta> {
    match term {
        Term::Metavariable(meta) => Some(*meta),
        _ => None,
    }
}
