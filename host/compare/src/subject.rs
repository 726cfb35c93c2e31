//! What is tested: the proved matcher, or a wrong one in its place.

use matcher::raw::{self, MAX_FUNCTIONS, PLACE_WORDS, SET_WORDS};
use second::{Choice, Problem, Row};

/// The entry points of a matcher, as `matcher::raw` has them.
pub trait Subject {
    /// The start of a problem.
    fn start(&self, problem: &[u8], place: &mut [u64]) -> u32;
    /// One search call.
    fn search(&self, problem: &[u8], place: &mut [u64], row: &mut [u64], n: u32) -> u32;
    /// A row's text.
    fn write(&self, problem: &[u8], row: &[u64], out: &mut [u8], written: &mut usize) -> u32;
    /// Whether a text passes.
    fn check(&self, problem: &[u8], text: &[u8]) -> u32;
}

/// The proved matcher.
pub struct Proved;

impl Subject for Proved {
    fn start(&self, problem: &[u8], place: &mut [u64]) -> u32 {
        raw::start(problem, place)
    }

    fn search(&self, problem: &[u8], place: &mut [u64], row: &mut [u64], n: u32) -> u32 {
        raw::search(problem, place, row, n)
    }

    fn write(&self, problem: &[u8], row: &[u64], out: &mut [u8], written: &mut usize) -> u32 {
        raw::write(problem, row, out, written)
    }

    fn check(&self, problem: &[u8], text: &[u8]) -> u32 {
        raw::check(problem, text)
    }
}

/// A place as the words that a matcher takes.
pub type Words = [u64; PLACE_WORDS];

/// Past the last.
pub const PAST: Words = {
    let mut words = [0; PLACE_WORDS];
    words[PLACE_WORDS - 1] = 1;
    words
};

/// Words that no call should leave in a buffer that it fills.
pub const UNTOUCHED: Words = [0xA5A5_A5A5_A5A5_A5A5; PLACE_WORDS];

/// How many nodes a word has.
pub const WORD_NODES: usize = u64::BITS as usize;

/// The words of a row: node 64 i + j of a face is bit 63 - j of word i of its function's set.
pub fn words(row: &Row) -> Words {
    let mut words = [0; PLACE_WORDS];
    for (set, choice) in words.chunks_exact_mut(SET_WORDS).zip(row) {
        for node in choice {
            set[node / WORD_NODES] |= 1 << (WORD_NODES - 1 - node % WORD_NODES);
        }
    }
    words
}

/// The choice that the words of a set are.
fn choice(set: &[u64]) -> Choice {
    let has = |node: &usize| set[node / WORD_NODES] >> (WORD_NODES - 1 - node % WORD_NODES) & 1 == 1;
    (0..WORD_NODES * set.len()).filter(has).collect()
}

/// The words of a buffer with a place put at its front.
pub fn with_front(front: &Words, buffer: &[u64]) -> Vec<u64> {
    [&front[..], &buffer[PLACE_WORDS..]].concat()
}

/// The words of a row, or of past the last where there is none.
pub fn place(row: Option<&Row>) -> Words {
    row.map_or(PAST, words)
}

/// What the words name in a problem: a row, past the last (no row), or nothing. Words after those of a place say nothing.
pub fn named(read: &Problem, words: &[u64]) -> Option<Option<Row>> {
    let place = words.get(..PLACE_WORDS)?;
    if place == PAST {
        return Some(None);
    }
    let mut row: Row = place.chunks_exact(SET_WORDS).take(MAX_FUNCTIONS).map(choice).collect();
    let others = row.split_off(read.functions().len());
    let rest_is_0 = others.iter().all(Choice::is_empty) && place[PLACE_WORDS - 1] == 0;
    (rest_is_0 && read.is_row(&row)).then_some(Some(row))
}
