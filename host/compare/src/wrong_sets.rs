//! Matchers whose sets of nodes are wrong past the first word, or that keep to another limit (T-10).

use crate::subject::{Proved, Subject};
use crate::tree::{self, Entry};
use matcher::raw::{self, FOUND, LARGEST_WRITTEN, OK, PAUSED, PLACE_WORDS, SET_WORDS};
use second::Problem;

/// A way to be wrong.
#[derive(Clone, Copy, Debug, PartialEq, Eq)]
pub enum WrongSets {
    /// Has the words of a set in reverse order.
    ReversesWords,
    /// Gives only the first word of each set of a row.
    GivesFirstWords,
    /// Takes rows for the same that differ past the first words.
    ComparesFirstWords,
    /// Takes for the lowest hole the lowest one of the last word that has any.
    LowestInLastWord,
    /// Refuses a face of over 64 nodes.
    LimitOf64,
    /// Takes a face of 257 nodes.
    LimitOf257,
}

impl WrongSets {
    /// All of them.
    pub const ALL: [WrongSets; 6] = [
        WrongSets::ReversesWords,
        WrongSets::GivesFirstWords,
        WrongSets::ComparesFirstWords,
        WrongSets::LowestInLastWord,
        WrongSets::LimitOf64,
        WrongSets::LimitOf257,
    ];

    /// The words of a place as it has them, and back.
    fn turned(self, place: &[u64]) -> Vec<u64> {
        let mut turned = place.to_vec();
        if self == WrongSets::ReversesWords && place.len() >= PLACE_WORDS {
            turned[..PLACE_WORDS - 1]
                .chunks_exact_mut(SET_WORDS)
                .for_each(<[u64]>::reverse);
        }
        turned
    }
}

/// The sets of a place, or none where it has too few words.
fn sets(place: &[u64]) -> std::slice::ChunksExact<'_, u64> {
    place.get(..PLACE_WORDS - 1).unwrap_or_default().chunks_exact(SET_WORDS)
}

/// Whether no first word of a set tells the two apart.
fn same_first_words(a: &[u64], b: &[u64]) -> bool {
    a.get(PLACE_WORDS - 1) == b.get(PLACE_WORDS - 1) && sets(a).zip(sets(b)).all(|(a, b)| a[0] == b[0])
}

/// The row with the last word of each set that has any node, and no other.
fn last_words(row: &[u64]) -> Vec<u64> {
    let mut last = row.to_vec();
    for set in last[..PLACE_WORDS - 1].chunks_exact_mut(SET_WORDS) {
        if let Some(at) = set.iter().rposition(|word| *word != 0) {
            set[..at].fill(0);
        }
    }
    last
}

/// A text with the values of another one.
fn with_values(text: &[u8], other: &[u8]) -> Vec<u8> {
    let pairs = tree::read_text(text).into_iter().zip(tree::read_text(other));
    let entries = pairs.map(|(entry, other)| match other {
        Entry::Value(..) => other,
        _ => entry,
    });
    tree::text(&entries.collect::<Vec<_>>())
}

/// Whether some function faces over 64 nodes.
fn faces_over_64(problem: &[u8]) -> bool {
    let faces = Problem::read(problem).ok().and_then(|read| read.face_nodes());
    faces.is_some_and(|faces| faces.iter().any(|nodes| *nodes > 64))
}

/// Whether no expression has over 257 nodes: then 14 is for a face of 257.
fn up_to_257(problem: &[u8]) -> bool {
    tree::expressions(problem)
        .iter()
        .all(|expression| expression.nodes() <= 257)
}

impl Subject for WrongSets {
    fn start(&self, problem: &[u8], place: &mut [u64]) -> u32 {
        if *self == WrongSets::LimitOf64 && faces_over_64(problem) {
            return 14;
        }
        let answer = Proved.start(problem, place);
        match self {
            WrongSets::ReversesWords if answer == OK => {
                place.copy_from_slice(&self.turned(place));
                OK
            }
            WrongSets::LimitOf257 if answer == 14 && up_to_257(problem) => OK,
            _ => answer,
        }
    }

    fn search(&self, problem: &[u8], place: &mut [u64], row: &mut [u64], n: u32) -> u32 {
        let mut at = self.turned(place);
        let answer = Proved.search(problem, &mut at, row, n);
        if *self == WrongSets::ComparesFirstWords && answer == FOUND {
            let mut passed = [0; PLACE_WORDS];
            while same_first_words(&at, row) {
                if ![FOUND, PAUSED].contains(&Proved.search(problem, &mut at, &mut passed, 1)) {
                    break;
                }
            }
        }
        if *self == WrongSets::GivesFirstWords && answer == FOUND {
            let sets = row[..PLACE_WORDS - 1].chunks_exact_mut(SET_WORDS);
            sets.for_each(|set| set[1..].fill(0));
        }
        if answer == FOUND {
            row.copy_from_slice(&self.turned(row));
        }
        place.copy_from_slice(&self.turned(&at));
        answer
    }

    fn write(&self, problem: &[u8], row: &[u64], out: &mut [u8], written: &mut usize) -> u32 {
        let row = self.turned(row);
        let answer = Proved.write(problem, &row, out, written);
        if *self == WrongSets::LowestInLastWord && answer == OK {
            let (mut other, mut length) = ([0; LARGEST_WRITTEN], 0);
            if Proved.write(problem, &last_words(&row), &mut other, &mut length) == OK {
                let text = with_values(&out[..*written], &other[..length]);
                out[..text.len()].copy_from_slice(&text);
            }
        }
        answer
    }

    fn check(&self, problem: &[u8], text: &[u8]) -> u32 {
        raw::check(problem, text)
    }
}
