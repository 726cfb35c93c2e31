//! How many rows come before a row, counted without listing them.

use crate::problem::Problem;
use crate::row::{classes, count_choices, count_rows, Choice, Row};
use crate::term::Term;

impl Problem {
    /// How many rows there are. Nothing where the number has over 128 bits.
    pub fn row_count(&self) -> Option<u128> {
        let Some(faces) = self.function_faces() else {
            return Some(0);
        };
        let faces: Vec<&Term> = faces.iter().map(|face| &face.apart).collect();
        count_rows(&faces)
    }

    /// How many rows come before this one, which is a row of the problem.
    /// Nothing where the number has over 128 bits.
    pub fn rank(&self, row: &Row) -> Option<u128> {
        let faces = self.function_faces()?;
        let mut pairs = faces.iter().zip(row);
        pairs.try_fold(0u128, |before, (face, choice)| {
            let earlier = match before {
                0 => 0,
                _ => before.checked_mul(count_choices(&face.apart)?)?,
            };
            earlier.checked_add(choice_rank(&face.apart, choice)?)
        })
    }
}

/// How many choices for the face come before this one. "The earlier is the one
/// that has the lowest node in which they differ": another choice of its class
/// is earlier by the lowest node that only one of them has; a choice of another
/// class by its lowest node. Nothing where the number has over 128 bits.
fn choice_rank(face: &Term, choice: &Choice) -> Option<u128> {
    let of_class = |class: Vec<usize>| {
        let own = choice.iter().next().is_some_and(|node| class.contains(node));
        let power = |at: usize| 2u128.checked_pow((class.len() - 1 - at) as u32);
        let earlier = |at: &usize| match choice.first() {
            Some(_) if own => !choice.contains(&class[*at]),
            Some(lowest) => class[*at] < *lowest,
            None => true,
        };
        total((0..class.len()).filter(earlier).map(power))
    };
    total(classes(face).into_iter().map(of_class))
}

/// The sum, if all are there and it has no more than 128 bits.
fn total(mut numbers: impl Iterator<Item = Option<u128>>) -> Option<u128> {
    numbers.try_fold(0u128, |sum, number| sum.checked_add(number?))
}
