//! Bytes and places as `Debug` shows them: short, in hexadecimal.

use crate::node_set::NodeSet;
use crate::raw::{MAX_FUNCTIONS, PLACE_WORDS};

/// Of more bytes than this only the first are shown.
const SHOWN: usize = 32;

/// Two digits for each byte; of many, how many there are.
pub(crate) fn bytes(bytes: &[u8]) -> String {
    let shown = &bytes[..bytes.len().min(SHOWN)];
    let digits: String = shown.iter().map(|byte| format!("{byte:02X}")).collect();
    if bytes.len() > SHOWN {
        return format!("{digits}.. {} bytes", bytes.len());
    }
    digits
}

/// The sets of a place up to the last that is not empty.
pub(crate) fn place(place: &[u64; PLACE_WORDS]) -> String {
    if place[PLACE_WORDS - 1] != 0 {
        return "past the last".to_string();
    }
    let mut sets: Vec<NodeSet> = (0..MAX_FUNCTIONS).map(|rank| NodeSet::in_place(place, rank)).collect();
    let last = sets.iter().rposition(|set| !set.is_empty());
    sets.truncate(last.map_or(0, |last| last + 1));
    let sets: Vec<String> = sets.iter().map(set).collect();
    format!("[{}]", sets.join(", "))
}

/// The words of a set, as far as there are nodes, and one at least.
fn set(set: &NodeSet) -> String {
    let words = set.words();
    let last = words.iter().rposition(|word| *word != 0).unwrap_or(0);
    words[..=last].iter().map(|word| format!("{word:016X}")).collect()
}
