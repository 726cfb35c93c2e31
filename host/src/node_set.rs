//! Sets of nodes of a face.

use crate::raw::{MAX_FACE_NODES, SET_WORDS};

/// The nodes in each word.
const WORD_NODES: usize = u64::BITS as usize;

/// A set of nodes of a function's face, in the form that places and rows have them. Nodes are numbered from 0, left to right
/// from the top.
///
/// ```
/// use matcher::{NodeSet, PLACE_WORDS, SET_WORDS};
///
/// // a row in which the second function has holes at the nodes 1 and 70
/// let mut row = [0; PLACE_WORDS];
/// row[SET_WORDS] = 1 << 62;
/// row[SET_WORDS + 1] = 1 << 57;
/// let holes = NodeSet::in_place(&row, 1);
/// assert_eq!(holes.nodes().collect::<Vec<_>>(), [1, 70]);
/// assert!(NodeSet::in_place(&row, 0).is_empty());
/// ```
#[derive(Clone, Copy, Debug, Default, PartialEq, Eq, Hash)]
#[must_use]
pub struct NodeSet([u64; SET_WORDS]);

impl NodeSet {
    /// The set of these words: node 64 i + j is bit 63 - j of word i.
    pub fn of(words: [u64; SET_WORDS]) -> NodeSet {
        NodeSet(words)
    }

    /// The holes of a function in a place that names a row: that of this rank, counted from 0 by ascending metavariable
    /// number. The set is empty where the place has no words for it.
    pub fn in_place(place: &[u64], rank: usize) -> NodeSet {
        let words = rank
            .checked_mul(SET_WORDS)
            .and_then(|from| place.get(from..)?.first_chunk());
        NodeSet(words.copied().unwrap_or_default())
    }

    /// Its words.
    #[must_use]
    pub fn words(&self) -> [u64; SET_WORDS] {
        self.0
    }

    /// Whether it has the node.
    #[must_use]
    pub fn contains(&self, node: usize) -> bool {
        let word = self.0.get(node / WORD_NODES);
        word.is_some_and(|word| word >> (WORD_NODES - 1 - node % WORD_NODES) & 1 == 1)
    }

    /// Whether it has none.
    #[must_use]
    pub fn is_empty(&self) -> bool {
        *self == NodeSet::default()
    }

    /// Its nodes, ascending.
    pub fn nodes(self) -> impl Iterator<Item = usize> {
        (0..MAX_FACE_NODES).filter(move |node| self.contains(*node))
    }
}

#[cfg(test)]
mod tests {
    use super::*;

    /// The nodes at both ends of each word.
    #[test]
    fn words_follow_each_other() {
        let ends = NodeSet::of([1 << 63 | 1; SET_WORDS]);
        assert_eq!(ends.nodes().collect::<Vec<_>>(), [0, 63, 64, 127, 128, 191, 192, 255]);
        for (word, first) in [0, 64, 128, 192].into_iter().enumerate() {
            let mut words = [0; SET_WORDS];
            words[word] = 1 << 62;
            assert_eq!(NodeSet::of(words).nodes().collect::<Vec<_>>(), [first + 1]);
        }
    }

    /// Where a place has no such words, nor a set such a node.
    #[test]
    fn what_is_not_there_is_not_in_it() {
        let full = NodeSet::of([u64::MAX; SET_WORDS]);
        assert!(full.contains(255) && !full.contains(256) && !full.contains(usize::MAX));
        for rank in [1, 2, usize::MAX] {
            assert!(NodeSet::in_place(&[u64::MAX; SET_WORDS + 3], rank).is_empty());
        }
    }
}
