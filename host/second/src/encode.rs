//! Writing terms as fields.
//!
//! Document 01: "Bodies and values are copied from the problem with its bound
//! names, lengths made right inside out."

use crate::read::tag;
use crate::term::Term;

/// One field: the head, made from the content that is already there.
///
/// All that is written was read from at most 4,096 bytes, or is T-13's problem,
/// which has at most 1,289, so that the length has room in its two bytes.
pub fn field(tag: u8, content: &[u8]) -> Vec<u8> {
    let mut bytes = vec![tag];
    bytes.extend((content.len() as u16).to_be_bytes());
    bytes.extend(content);
    bytes
}

/// A term as one field.
pub fn term(term: &Term) -> Vec<u8> {
    let mut content = fixed_part(term);
    for child in term.children() {
        content.extend(self::term(child));
    }
    field(tag_of(term), &content)
}

/// The tag that a term is written with.
fn tag_of(term: &Term) -> u8 {
    match term {
        Term::Symbol(_) => tag::SYMBOL,
        Term::Variable(_) => tag::VARIABLE,
        Term::Application(_) => tag::APPLICATION,
        Term::Binder(..) => tag::BINDER,
        Term::Metavariable(_) => tag::METAVARIABLE,
        Term::Function(..) => tag::FUNCTION,
        Term::Hole => tag::HOLE,
    }
}

/// What comes before the inner fields.
fn fixed_part(term: &Term) -> Vec<u8> {
    match term {
        Term::Symbol(number) => symbol(*number),
        Term::Variable(name) => name.number().to_be_bytes().to_vec(),
        Term::Binder(number, name, _) => [*number, name.number()].map(u16::to_be_bytes).concat(),
        Term::Metavariable(meta) | Term::Function(meta, _) => vec![meta.number()],
        Term::Application(_) | Term::Hole => Vec::new(),
    }
}

/// A symbol's number in its one spelling, which is that of the problem: two
/// bytes where they are enough, else four.
fn symbol(number: u32) -> Vec<u8> {
    match u16::try_from(number) {
        Ok(narrow) => narrow.to_be_bytes().to_vec(),
        Err(_) => number.to_be_bytes().to_vec(),
    }
}
