//! The functions of the proved library as they stand in `include/matcher.h`, with slices in place of pointers.
//!
//! Every function takes any bytes, words and buffers, and answers a number: 0 or one from 256 on, or else a refusal, 1 to
//! 20 but for 12, 25, or 27 to 29 ([`Refusal`](crate::Refusal)). After a refusal no buffer is changed. A host that has a
//! [`Problem`](crate::Problem) needs none of this; it is here for programs that keep places and rows in their own way.

/// The largest problem that is accepted, in bytes.
pub const LARGEST_PROBLEM: usize = 4096;

/// The largest text that is checked, in bytes.
pub const LARGEST_TEXT: usize = 8192;

/// The largest text that is written, in bytes.
pub const LARGEST_WRITTEN: usize = 4224;

/// The most constraints of a problem.
pub const MAX_CONSTRAINTS: usize = 16;

/// The most levels of a term: a pattern or an expression itself is the first.
pub const MAX_DEPTH: usize = 32;

/// How many metavariables there are: their numbers are below this.
pub const METAVARIABLES: usize = 32;

/// The most functions of a problem.
pub const MAX_FUNCTIONS: usize = 8;

/// The most nodes of a face, the expression that a function's first application shall equal.
pub const MAX_FACE_NODES: usize = 256;

/// A set of nodes of a face has so many words: node 64 i + j is bit 63 - j of word i, so that node 0 is the highest bit of
/// the first. [`NodeSet`](crate::NodeSet) lists the nodes.
pub const SET_WORDS: usize = MAX_FACE_NODES / u64::BITS as usize;

/// A place has so many words: the set of holes of each of 8 functions by ascending number, then 0 for a row or 1 for past
/// the last. A slice may have more: the place stands at its front, and later words are neither read nor changed.
pub const PLACE_WORDS: usize = SET_WORDS * MAX_FUNCTIONS + 1;

/// Done: what [`start`], [`write()`] and [`longest`] answer when they do not refuse.
pub const OK: u32 = 0;

/// [`search`]: the first solution row at or after the place.
pub const FOUND: u32 = 256;

/// [`search`]: at least as many rows as allowed were passed, and more follow.
pub const PAUSED: u32 = 257;

/// [`search`]: no solution row is left.
pub const END: u32 = 258;

/// [`check`]: the text names a solution.
pub const YES: u32 = 259;

/// [`check`]: it does not.
pub const NO: u32 = 260;

extern "C" {
    fn matcher_start(problem: *const u8, len: usize, place: *mut u64, words: usize) -> u32;
    fn matcher_search(
        problem: *const u8,
        len: usize,
        place: *mut u64,
        words: usize,
        row: *mut u64,
        row_words: usize,
        n: u32,
    ) -> u32;
    fn matcher_write(
        problem: *const u8,
        len: usize,
        row: *const u64,
        words: usize,
        out: *mut u8,
        out_len: usize,
        written: *mut usize,
    ) -> u32;
    fn matcher_check(problem: *const u8, len: usize, text: *const u8, text_len: usize) -> u32;
    fn matcher_longest(n: u32, out: *mut u8, out_len: usize, written: *mut usize) -> u32;
}

/// The start of the problem into `place`. [`OK`], or refused: 1 to 14 or 25; 18 where `place` has fewer than [`PLACE_WORDS`].
#[must_use]
pub fn start(problem: &[u8], place: &mut [u64]) -> u32 {
    // SAFETY: pointers and lengths are those of slices, never null; what is written to is borrowed by nobody else.
    unsafe { matcher_start(problem.as_ptr(), problem.len(), place.as_mut_ptr(), place.len()) }
}

/// The first solution row at or after `place`, looking at `n` rows before it pauses. [`FOUND`]: it is in `row`, and the
/// place after it in `place`; [`PAUSED`]: `place` is a later row; [`END`]: `place` is past the last. Refused: 1 to 14 or 25; 15 if
/// `n` is 0; 16 if `place` is no such place; 18 where `row` has fewer than [`PLACE_WORDS`], whatever the answer would have been.
///
/// A row takes some 0.3 µs on small problems and up to 50 µs on the largest; [`Search::call`](crate::Search::call) says more.
#[must_use]
pub fn search(problem: &[u8], place: &mut [u64], row: &mut [u64], n: u32) -> u32 {
    // SAFETY: as in `start`.
    unsafe {
        matcher_search(
            problem.as_ptr(),
            problem.len(),
            place.as_mut_ptr(),
            place.len(),
            row.as_mut_ptr(),
            row.len(),
            n,
        )
    }
}

/// The text of the solution of `row` at the front of `out`, its length in `written`; no byte of `out` after it changes.
/// [`OK`], or refused: 1 to 14 or 25; 16 if `row` is no such row; 17 if it is not a solution row; 18 if `out` is too short.
#[must_use]
pub fn write(problem: &[u8], row: &[u64], out: &mut [u8], written: &mut usize) -> u32 {
    // SAFETY: as in `start`.
    unsafe {
        matcher_write(
            problem.as_ptr(),
            problem.len(),
            row.as_ptr(),
            row.len(),
            out.as_mut_ptr(),
            out.len(),
            written,
        )
    }
}

/// Whether the filling that the text names is a solution: [`YES`] or [`NO`]. Refused: 1 to 14 or 25; 19 a text over
/// [`LARGEST_TEXT`] bytes; 20 a malformed one; 27 one whose numbers do not rise from field to field.
#[must_use]
pub fn check(problem: &[u8], text: &[u8]) -> u32 {
    // SAFETY: as in `start`.
    unsafe { matcher_check(problem.as_ptr(), problem.len(), text.as_ptr(), text.len()) }
}

/// The problem with the longest list for `n` nodes at the front of `out`, its length in `written`; no byte of `out` after it
/// changes. [`OK`], or refused: 28 if `n` is not from 1 to 256; 29 if `out` is too short, which [`LARGEST_PROBLEM`] bytes
/// never are. [`Problem::longest`](crate::Problem::longest) says which problem it is.
#[must_use]
pub fn longest(n: u32, out: &mut [u8], written: &mut usize) -> u32 {
    // SAFETY: as in `start`.
    unsafe { matcher_longest(n, out.as_mut_ptr(), out.len(), written) }
}
