//! A suspended search as bytes.
//!
//! | bytes | what |
//! |---|---|
//! | 4 | `TVS2` |
//! | 8 | mark of the problem's bytes |
//! | 8 | how many solutions came before the place |
//! | 264 | the place, 33 words |
//! | 8 | mark of all bytes before it |
//!
//! Numbers are high byte first, as in document 01. The marks are no seal: they tell an accident, not a forger.
//!
//! Before faces could have 256 nodes (T-10), places had nine words and the name was `TVS1`. Such bytes are told from damaged
//! ones.

use crate::raw::PLACE_WORDS;
use std::fmt;

/// How long a suspended search is.
pub const SAVED_BYTES: usize = PLACE + 8 * PLACE_WORDS + 8;

const NAME: &[u8; 4] = b"TVS2";
const PROBLEM: usize = 4;
const FOUND: usize = 12;
const PLACE: usize = 20;
const MARK: usize = SAVED_BYTES - 8;

/// What places of nine words were saved as.
const EARLIER_NAME: &[u8; 4] = b"TVS1";
const EARLIER_BYTES: usize = PLACE + 8 * 9 + 8;

/// Why bytes are not a suspended search of a problem.
#[derive(Clone, Copy, Debug, PartialEq, Eq, Hash)]
#[non_exhaustive]
pub enum ResumeError {
    /// They were saved by an earlier version, whose places had 9 words and which took faces of 64 nodes at most.
    EarlierVersion,
    /// Their number is not [`SAVED_BYTES`].
    Length,
    /// They are not what was saved.
    Damaged,
    /// They were saved for another problem.
    OtherProblem,
    /// The problem has no such place.
    NoSuchPlace,
}

impl fmt::Display for ResumeError {
    fn fmt(&self, f: &mut fmt::Formatter) -> fmt::Result {
        match self {
            ResumeError::EarlierVersion => write!(
                f,
                "the search was suspended by an earlier version, whose places had 9 words and not {PLACE_WORDS}"
            ),
            ResumeError::Length => write!(f, "a suspended search has {SAVED_BYTES} bytes"),
            ResumeError::Damaged => write!(f, "the suspended search is damaged"),
            ResumeError::OtherProblem => write!(f, "the search was suspended in another problem"),
            ResumeError::NoSuchPlace => write!(f, "the problem has no such place"),
        }
    }
}

impl std::error::Error for ResumeError {}

/// The bytes of a search at this place of this problem.
pub(crate) fn bytes(place: &[u64; PLACE_WORDS], found: u64, problem: &[u8]) -> [u8; SAVED_BYTES] {
    let mut saved = [0; SAVED_BYTES];
    saved[..PROBLEM].copy_from_slice(NAME);
    put(&mut saved, PROBLEM, mark(problem));
    put(&mut saved, FOUND, found);
    for (k, word) in place.iter().enumerate() {
        put(&mut saved, PLACE + 8 * k, *word);
    }
    let own = mark(&saved[..MARK]);
    put(&mut saved, MARK, own);
    saved
}

/// The place that the bytes hold, and how many solutions came before it.
pub(crate) fn read(saved: &[u8], problem: &[u8]) -> Result<([u64; PLACE_WORDS], u64), ResumeError> {
    if saved.len() == EARLIER_BYTES && saved.starts_with(EARLIER_NAME) {
        return Err(ResumeError::EarlierVersion);
    }
    if saved.len() != SAVED_BYTES {
        return Err(ResumeError::Length);
    }
    if &saved[..PROBLEM] != NAME || get(saved, MARK) != mark(&saved[..MARK]) {
        return Err(ResumeError::Damaged);
    }
    if get(saved, PROBLEM) != mark(problem) {
        return Err(ResumeError::OtherProblem);
    }
    let place = std::array::from_fn(|k| get(saved, PLACE + 8 * k));
    Ok((place, get(saved, FOUND)))
}

fn put(bytes: &mut [u8], at: usize, word: u64) {
    bytes[at..at + 8].copy_from_slice(&word.to_be_bytes());
}

fn get(bytes: &[u8], at: usize) -> u64 {
    bytes[at..at + 8]
        .iter()
        .fold(0, |word, byte| word << 8 | u64::from(*byte))
}

/// FNV-1a, 64 bits wide: any change of one byte changes it.
fn mark(bytes: &[u8]) -> u64 {
    bytes.iter().fold(0xcbf2_9ce4_8422_2325, |mark, byte| {
        (mark ^ u64::from(*byte)).wrapping_mul(0x0100_0000_01b3)
    })
}
