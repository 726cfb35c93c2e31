//! T-13's writer: what it answers and leaves for a number of nodes and a buffer is what the second implementation gives.

use crate::hex::hex;
use crate::report::Tally;
use matcher::raw::{LARGEST_PROBLEM, OK};

/// Writes the problem with the longest list for so many nodes, as `matcher::raw::longest` does.
pub type Writer = dyn Fn(u32, &mut [u8], &mut usize) -> u32;

/// A byte, and a length, that no call should leave where it writes.
const UNTOUCHED: u8 = 0xA5;
const NO_LENGTH: usize = 77_777;

/// Numbers of nodes within the limits and about them.
fn numbers() -> impl Iterator<Item = u32> {
    (0..=260).chain([511, 512, 65_535, 65_537, u32::MAX])
}

/// The length of the last problem, by hand: 11 bytes before the application, 3 of its head, and 5 for each of 255 symbols.
const LAST: usize = 11 + 3 + 5 * 255;

/// Buffers of any length that matters: none, those about the shortest problem, about this one or, where there is none, the
/// last, and room for all.
fn rooms(nodes: u32) -> Vec<usize> {
    let exact = second::longest(nodes, usize::MAX).map_or(LAST, |bytes| bytes.len());
    vec![0, 1, 15, 16, 17, exact - 1, exact, exact + 1, LARGEST_PROBLEM]
}

/// Compares the writer's answers, lengths and buffers.
pub fn agree(write: &Writer) -> Result<Tally, String> {
    let mut tally = Tally::default();
    for nodes in numbers() {
        for room in rooms(nodes) {
            let case =
                one(write, nodes, room).map_err(|what| format!("{nodes} nodes, a buffer of {room} bytes: {what}"))?;
            tally.count(case);
        }
    }
    Ok(tally)
}

/// One call, and which case it is.
fn one(write: &Writer, nodes: u32, room: usize) -> Result<String, String> {
    let mut out = vec![UNTOUCHED; room];
    let mut written = NO_LENGTH;
    let answer = write(nodes, &mut out, &mut written);
    let (case, code, length, front) = match second::longest(nodes, room) {
        Ok(bytes) => ("written".to_string(), OK, bytes.len(), bytes),
        Err(refusal) => (format!("refused {refusal}"), u32::from(refusal), NO_LENGTH, vec![]),
    };
    let mut buffer = front;
    buffer.resize(room, UNTOUCHED);
    if (answer, written) != (code, length) {
        return Err(format!("answered {answer} and {written}, not {code} and {length}"));
    }
    if out != buffer {
        return Err(format!("left {}, not {}", hex(&out), hex(&buffer)));
    }
    Ok(case)
}
