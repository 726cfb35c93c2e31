//! Terms, put together without counting bytes.

use crate::fields::{self, tag, Bytes};
use std::fmt::{self, Write};

/// A term of a problem or of a text, as the bytes of its field.
///
/// The constructors count the bytes and check nothing else. What a term may not have where it stands, as an empty
/// application, a hole in a pattern or a metavariable over 31, the proved matcher refuses when it gets the
/// [problem](crate::Problem::of) or the [text](crate::text_of).
///
/// A term of over [`LARGEST_TEXT`](crate::LARGEST_TEXT) bytes has room in no problem and no text, and its bytes are not
/// kept: all such terms are alike. It can still be built upon; what it stands in is too long as well, and is refused for
/// that.
///
/// It is shown in this notation:
///
/// ```
/// use matcher::Term;
///
/// assert_eq!(Term::symbol(5).to_string(), "s5");
/// assert_eq!(Term::variable(3).to_string(), "v3");
/// assert_eq!(Term::application([Term::symbol(5), Term::variable(3)]).to_string(), "(s5 v3)");
/// assert_eq!(Term::binder(2, 3, Term::variable(3)).to_string(), "[b2 v3 v3]");
/// assert_eq!(Term::metavariable(1).to_string(), "?1");
/// assert_eq!(Term::function(0, Term::metavariable(1)).to_string(), "?0{?1}");
/// assert_eq!(Term::hole().to_string(), "_");
/// ```
#[derive(Clone, PartialEq, Eq, Hash)]
#[must_use]
pub struct Term {
    bytes: Bytes,
}

impl Term {
    /// A symbol: its number has two bytes below 65,536, and four from there on.
    pub fn symbol(number: u32) -> Term {
        match u16::try_from(number) {
            Ok(narrow) => Term::made(tag::SYMBOL, &narrow.to_be_bytes(), []),
            Err(_) => Term::made(tag::SYMBOL, &number.to_be_bytes(), []),
        }
    }

    /// A variable, free or bound.
    pub fn variable(number: u16) -> Term {
        Term::made(tag::VARIABLE, &number.to_be_bytes(), [])
    }

    /// An application of 1 or more terms.
    pub fn application(terms: impl IntoIterator<Item = Term>) -> Term {
        Term::made(tag::APPLICATION, &[], terms)
    }

    /// A binder with this number, which binds the variable in its body.
    pub fn binder(number: u16, variable: u16, body: Term) -> Term {
        let fixed = [number.to_be_bytes(), variable.to_be_bytes()].concat();
        Term::made(tag::BINDER, &fixed, [body])
    }

    /// A metavariable that stands alone, 0 to 31.
    pub fn metavariable(number: u8) -> Term {
        Term::made(tag::METAVARIABLE, &[number], [])
    }

    /// A metavariable, 0 to 31, that is applied to an argument as a one-place function.
    pub fn function(number: u8, argument: Term) -> Term {
        Term::made(tag::FUNCTION, &[number], [argument])
    }

    /// A hole: where a function's body has its argument.
    pub fn hole() -> Term {
        Term::made(tag::HOLE, &[], [])
    }

    fn made(tag: u8, fixed: &[u8], inner: impl IntoIterator<Item = Term>) -> Term {
        let inner = inner.into_iter().map(Term::into_bytes);
        Term {
            bytes: fields::field(tag, std::iter::once(Some(fixed.to_vec())).chain(inner)),
        }
    }

    /// The term of a field that the matcher has written.
    pub(crate) fn written(field: &[u8]) -> Term {
        Term {
            bytes: Some(field.to_vec()),
        }
    }

    /// Its field; nothing where that has over [`LARGEST_TEXT`](crate::LARGEST_TEXT) bytes.
    #[must_use]
    pub fn bytes(&self) -> Option<&[u8]> {
        self.bytes.as_deref()
    }

    pub(crate) fn into_bytes(self) -> Bytes {
        self.bytes
    }
}

impl fmt::Display for Term {
    /// A term that is too long is shown as `..`.
    fn fmt(&self, f: &mut fmt::Formatter) -> fmt::Result {
        let Some(mut left) = self.bytes() else {
            return f.write_str("..");
        };
        // The terms that have begun and not ended: what each ends with, and what follows it. There is no recursion here,
        // since a term may be far deeper than any that is accepted.
        let mut begun = Vec::new();
        loop {
            if let Some((tag, content, rest)) = fields::first(left) {
                let (head, inner, end) = notation(tag, content);
                f.write_str(&head)?;
                begun.push((end, rest));
                left = inner;
            } else if let Some((end, rest)) = begun.pop() {
                f.write_str(end)?;
                if !rest.is_empty() {
                    f.write_char(' ')?;
                }
                left = rest;
            } else {
                return Ok(());
            }
        }
    }
}

/// A term in notation: how it begins, the terms inside, and how it ends.
fn notation(tag: u8, content: &[u8]) -> (String, &[u8], &'static str) {
    let leaf = |letter: char| (format!("{letter}{}", number(content)), &[][..], "");
    match tag {
        tag::SYMBOL => leaf('s'),
        tag::VARIABLE => leaf('v'),
        tag::METAVARIABLE => leaf('?'),
        tag::APPLICATION => ("(".to_string(), content, ")"),
        tag::BINDER => {
            let head = format!("[b{} v{} ", number(&content[..2]), number(&content[2..4]));
            (head, &content[4..], "]")
        }
        tag::FUNCTION => (format!("?{}{{", content[0]), &content[1..], "}"),
        _ => ("_".to_string(), &[], ""),
    }
}

/// The number that the bytes are, high byte first.
fn number(bytes: &[u8]) -> u32 {
    bytes.iter().fold(0, |number, byte| number << 8 | u32::from(*byte))
}

impl fmt::Debug for Term {
    fn fmt(&self, f: &mut fmt::Formatter) -> fmt::Result {
        write!(f, "Term({self})")
    }
}
