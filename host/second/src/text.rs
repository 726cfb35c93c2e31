//! Solution texts as lists of fields.
//!
//! Document 01: "Fields: 8 (value: number, 1 byte, then an expression), 9
//! (body: number, 1 byte, then an expression in which 10 may stand for a
//! term), 10 (hole, length 0), 11 (open: number, 1 byte)." T-07: "From now on
//! metavariable numbers must rise from field to field."

use crate::encode;
use crate::read::{self, tag, Part};
use crate::refusal::*;
use crate::term::{Meta, Term};

const LARGEST_TEXT: usize = 8192;

/// A field of a solution text.
#[derive(Debug, Clone, PartialEq, Eq)]
pub enum Field {
    /// A metavariable's value.
    Value(Meta, Term),
    /// A function's body.
    Body(Meta, Term),
    /// An open metavariable.
    Open(Meta),
}

impl Field {
    /// The metavariable that the field is about.
    pub fn meta(&self) -> Meta {
        match self {
            Field::Value(meta, _) | Field::Body(meta, _) | Field::Open(meta) => *meta,
        }
    }
}

/// Reads a text; refusals 19, 20 and 27. T-07 has 27 "checked after 20 over the
/// whole text", so the numbers are compared when all fields are there.
pub fn read(mut text: &[u8]) -> Result<Vec<Field>, u8> {
    if text.len() > LARGEST_TEXT {
        return Err(TEXT_TOO_LONG);
    }
    let mut fields = Vec::new();
    while !text.is_empty() {
        fields.push(read_field(&mut text).map_err(|_| BAD_TEXT)?);
    }
    if !fields.is_sorted_by(|before, field| before.meta() < field.meta()) {
        return Err(NOT_RISING);
    }
    Ok(fields)
}

/// Takes the field at the text's front; any number stands for a 20.
fn read_field(text: &mut &[u8]) -> Result<Field, u8> {
    match read::field(text)? {
        (tag::VALUE, content) => {
            let (meta, rest) = read::meta(content)?;
            Ok(Field::Value(meta, read::last_term(rest, Part::Expression, 1)?))
        }
        (tag::BODY, content) => {
            let (meta, rest) = read::meta(content)?;
            Ok(Field::Body(meta, read::last_term(rest, Part::Body, 1)?))
        }
        (tag::OPEN, content) => Ok(Field::Open(read::lone_meta(content)?)),
        _ => Err(MISPLACED_TAG),
    }
}

/// Writes the fields one after another.
pub fn write(fields: &[Field]) -> Vec<u8> {
    fields.iter().flat_map(write_field).collect()
}

/// Writes one field.
fn write_field(field: &Field) -> Vec<u8> {
    let (tag, term) = match field {
        Field::Value(_, value) => (tag::VALUE, encode::term(value)),
        Field::Body(_, body) => (tag::BODY, encode::term(body)),
        Field::Open(_) => (tag::OPEN, Vec::new()),
    };
    let mut content = vec![field.meta().number()];
    content.extend(term);
    encode::field(tag, &content)
}
