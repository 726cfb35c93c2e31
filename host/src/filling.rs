//! What metavariables stand for, and the texts that say it.

use crate::fields::{self, tag, Bytes};
use crate::raw::LARGEST_TEXT;
use crate::refusal::Refusal;
use crate::term::Term;
use std::fmt;

/// What a metavariable stands for. It is shown as its term, or as `open`.
#[derive(Clone, Debug, PartialEq, Eq, Hash)]
#[non_exhaustive]
pub enum Given {
    /// It stands alone, for this expression.
    Value(Term),
    /// It is a function with this body: an expression with a hole wherever its argument comes in.
    Body(Term),
    /// It is open: it stands only in arguments of functions whose body has no hole, and may be any expression.
    Open,
}

impl Given {
    /// What a field of a text that the matcher has written says, and of which metavariable.
    pub(crate) fn written(tag: u8, content: &[u8]) -> (u8, Given) {
        let given = match tag {
            tag::VALUE => Given::Value(Term::written(&content[1..])),
            tag::BODY => Given::Body(Term::written(&content[1..])),
            tag::OPEN => Given::Open,
            _ => panic!("the matcher is proved not to write a field of tag {tag} here"),
        };
        (content[0], given)
    }

    /// The field that says it of a metavariable.
    fn field(self, metavariable: u8) -> Bytes {
        let number = Some(vec![metavariable]);
        match self {
            Given::Value(term) => fields::field(tag::VALUE, [number, term.into_bytes()]),
            Given::Body(term) => fields::field(tag::BODY, [number, term.into_bytes()]),
            Given::Open => fields::field(tag::OPEN, [number]),
        }
    }
}

impl fmt::Display for Given {
    fn fmt(&self, f: &mut fmt::Formatter) -> fmt::Result {
        match self {
            Given::Value(term) | Given::Body(term) => term.fmt(f),
            Given::Open => f.write_str("open"),
        }
    }
}

/// The text that says what each metavariable stands for, for [`Problem::check`](crate::Problem::check). Numbers must rise,
/// as those of [`Solution::filling`](crate::Solution::filling) do. Where they do not, or anything else is wrong, the text
/// is refused when it is checked.
///
/// ```
/// use matcher::{text_of, Given, Problem, Refusal, Term, Verdict};
///
/// // X shall equal s5: s5 does, and s6 does not
/// let problem = Problem::of([(Term::metavariable(0), Term::symbol(5))])?;
/// let says = |number: u32| text_of([(0, Given::Value(Term::symbol(number)))]);
/// assert_eq!(problem.check(&says(5)?)?, Verdict::Yes);
/// assert_eq!(problem.check(&says(6)?)?, Verdict::No);
/// # Ok::<(), Refusal>(())
/// ```
///
/// # Errors
/// [`Refusal::TextTooLong`] where it has over [`LARGEST_TEXT`] bytes.
pub fn text_of(filling: impl IntoIterator<Item = (u8, Given)>) -> Result<Vec<u8>, Refusal> {
    let parts = filling
        .into_iter()
        .map(|(metavariable, given)| given.field(metavariable));
    fields::joined(parts, LARGEST_TEXT).ok_or(Refusal::TextTooLong)
}
