//! Fields: how they are put together and taken apart.

use crate::raw::LARGEST_TEXT;

/// The tags of fields, as the table in the crate's documentation has them.
pub(crate) mod tag {
    pub(crate) const SYMBOL: u8 = 1;
    pub(crate) const VARIABLE: u8 = 2;
    pub(crate) const APPLICATION: u8 = 3;
    pub(crate) const BINDER: u8 = 4;
    pub(crate) const METAVARIABLE: u8 = 5;
    pub(crate) const FUNCTION: u8 = 6;
    pub(crate) const CONSTRAINT: u8 = 7;
    pub(crate) const VALUE: u8 = 8;
    pub(crate) const BODY: u8 = 9;
    pub(crate) const HOLE: u8 = 10;
    pub(crate) const OPEN: u8 = 11;
}

/// A tag and a length stand before the content.
const HEAD: usize = 3;

/// Bytes, or none where they are too many for any problem or text.
pub(crate) type Bytes = Option<Vec<u8>>;

/// The field with these parts, its fixed part and its inner fields; none where it has over [`LARGEST_TEXT`] bytes.
pub(crate) fn field(tag: u8, parts: impl IntoIterator<Item = Bytes>) -> Bytes {
    let content = joined(parts, LARGEST_TEXT - HEAD)?;
    let length = u16::try_from(content.len()).ok()?;
    let [high, low] = length.to_be_bytes();
    Some([&[tag, high, low], &content[..]].concat())
}

/// The parts one after the other; none where one is none, or together they have more than `most` bytes. No part after
/// that is asked for.
pub(crate) fn joined(parts: impl IntoIterator<Item = Bytes>, most: usize) -> Bytes {
    let mut bytes = Vec::new();
    for part in parts {
        bytes.extend(part?);
        if bytes.len() > most {
            return None;
        }
    }
    Some(bytes)
}

/// The first field of the bytes, as its tag and content, and what follows it; nothing where they do not begin with one.
pub(crate) fn first(bytes: &[u8]) -> Option<(u8, &[u8], &[u8])> {
    let ([tag, high, low], after) = bytes.split_first_chunk::<HEAD>()?;
    let (content, rest) = after.split_at_checked(usize::from(u16::from_be_bytes([*high, *low])))?;
    Some((*tag, content, rest))
}

/// The fields that the bytes are, each as its tag and content.
pub(crate) fn all(bytes: &[u8]) -> impl Iterator<Item = (u8, &[u8])> {
    let mut left = bytes;
    std::iter::from_fn(move || {
        let (tag, content, rest) = first(left)?;
        left = rest;
        Some((tag, content))
    })
}
