//! What a check says.

/// Whether a text names a solution.
///
/// ```
/// # let problem = matcher::Problem::new(&[])?;
/// assert!(problem.check(&[])?.is_yes());
/// # Ok::<(), matcher::Refusal>(())
/// ```
///
/// The compiler warns of a verdict that is dropped, so that a no is not taken for a yes:
///
/// ```compile_fail
/// #![deny(unused_must_use)]
/// # let problem = matcher::Problem::new(&[])?;
/// problem.check(&[])?;
/// # Ok::<(), matcher::Refusal>(())
/// ```
#[derive(Clone, Copy, Debug, PartialEq, Eq, Hash)]
#[must_use = "a text that does not name a solution is no error"]
pub enum Verdict {
    /// It does.
    Yes,
    /// It does not.
    No,
}

impl Verdict {
    /// Whether it is a yes.
    #[must_use]
    pub fn is_yes(self) -> bool {
        self == Verdict::Yes
    }
}
