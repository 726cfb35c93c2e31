//! Choices and rows, and their order.
//!
//! Document 01: "A choice for a function is a set of nodes of its face whose
//! subexpressions are all equal. A node that uses a variable bound inside the
//! face above it is in no choice. The empty set is a choice."

use crate::compare::equal;
use crate::term::{Name, Term};
use std::cmp::Ordering;
use std::collections::BTreeSet;

/// A set of nodes of a face, which are numbered from 0 in reading order.
pub type Choice = BTreeSet<usize>;

/// One choice for each function, by ascending metavariable number.
pub type Row = Vec<Choice>;

/// "Of two choices the earlier is the one that has the lowest node in which
/// they differ."
pub fn choice_order(left: &Choice, right: &Choice) -> Ordering {
    match left.symmetric_difference(right).next() {
        None => Ordering::Equal,
        Some(lowest) if left.contains(lowest) => Ordering::Less,
        Some(_) => Ordering::Greater,
    }
}

/// "Rows are ordered by the first function that differs."
pub fn row_order(left: &Row, right: &Row) -> Ordering {
    left.iter()
        .zip(right)
        .map(|(l, r)| choice_order(l, r))
        .find(|order| order.is_ne())
        .unwrap_or(Ordering::Equal)
}

/// Whether the set is a choice for that face, whose binders are told apart.
pub fn is_choice(face: &Term, choice: &Choice) -> bool {
    let free = free_nodes(face);
    let chosen: Vec<_> = free.iter().filter(|(n, _)| choice.contains(n)).collect();
    chosen.len() == choice.len() && chosen.windows(2).all(|pair| equal(pair[0].1, pair[1].1))
}

/// All choices for that face, in order.
pub fn choices(face: &Term) -> Vec<Choice> {
    let mut choices = vec![Choice::new()];
    for class in classes(face) {
        choices.extend(subsets(&class).into_iter().filter(|set| !set.is_empty()));
    }
    choices.sort_by(choice_order);
    choices
}

/// How many choices there are: a class of n equal nodes has 2^n - 1 subsets
/// that are not empty, and the empty set comes once. Nothing where the number
/// has over 128 bits.
pub fn count_choices(face: &Term) -> Option<u128> {
    let mut sizes = classes(face).into_iter().map(|class| class.len() as u32);
    sizes.try_fold(1u128, |count, size| count.checked_add(2u128.checked_pow(size)? - 1))
}

/// The nodes that may be in a choice, in classes of equal ones.
pub(crate) fn classes(face: &Term) -> Vec<Vec<usize>> {
    let mut classes: Vec<(&Term, Vec<usize>)> = Vec::new();
    for (number, node) in free_nodes(face) {
        match classes.iter_mut().find(|(first, _)| equal(first, node)) {
            Some((_, class)) => class.push(number),
            None => classes.push((node, vec![number])),
        }
    }
    classes.into_iter().map(|(_, class)| class).collect()
}

/// The nodes, with their numbers, that use no variable bound inside the face
/// above them. A name of the face's own binders that is free in a node is
/// bound above it, since no two binders have the same name.
fn free_nodes(face: &Term) -> Vec<(usize, &Term)> {
    let nodes = face.nodes();
    let bound: BTreeSet<Name> = nodes.iter().filter_map(|node| bound_name(node)).collect();
    let numbered = nodes.into_iter().enumerate();
    numbered
        .filter(|(_, node)| node.free_names().is_disjoint(&bound))
        .collect()
}

/// The name that a binder binds.
fn bound_name(term: &Term) -> Option<Name> {
    match term {
        Term::Binder(_, name, _) => Some(*name),
        _ => None,
    }
}

/// All subsets of a class.
fn subsets(class: &[usize]) -> Vec<Choice> {
    let mut subsets = vec![Choice::new()];
    for node in class {
        let with_node = subsets.iter().cloned().map(|mut set| {
            set.insert(*node);
            set
        });
        subsets = with_node.chain(subsets.iter().cloned()).collect();
    }
    subsets
}

/// All rows for these faces, one for each function, in order.
pub fn rows(faces: &[&Term]) -> Vec<Row> {
    let mut rows = vec![Row::new()];
    for face in faces {
        let choices = choices(face);
        let longer = rows.iter().flat_map(|row| {
            choices.iter().map(|choice| {
                let mut row = row.clone();
                row.push(choice.clone());
                row
            })
        });
        rows = longer.collect();
    }
    rows
}

/// How many rows there are. Nothing where the number has over 128 bits.
pub fn count_rows(faces: &[&Term]) -> Option<u128> {
    let mut counts = faces.iter().map(|face| count_choices(face));
    counts.try_fold(1u128, |rows, count| rows.checked_mul(count?))
}
