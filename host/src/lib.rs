//! The matcher: every way in which a rule fits formulas, in a fixed numbered order.
//!
//! A rule has patterns with metavariables X and one-place functions P(X). A [`Problem`] pairs each pattern with the
//! expression that it shall equal; its solutions say what each metavariable and function stands for. [`Problem::search`]
//! lists them all, none twice, always in the same order. The search can be stopped after any call, kept as
//! [bytes](Search::suspend) and [resumed](Problem::resume) by another process: the list comes out the same.
//!
//! The work is done by a library that is proved against document 01; what is here only hands it bytes and words and
//! gives its numbers names. Document 01 is the name of this project's specification. In the repository, `docs/FORMAT.md`
//! restates what it says of bytes and refusals, and `docs/TRUST.md` says what is proved of the library and what is not.
//!
//! # An example
//!
//! The pattern P(X) shall equal symbol 5. There are two ways: P is a hole and X is symbol 5; or P is symbol 5 itself, and
//! X stays open.
//!
//! ```
//! use matcher::{Problem, Term};
//!
//! // metavariables have numbers, 0 to 31
//! const P: u8 = 0;
//! const X: u8 = 1;
//!
//! let pattern = Term::function(P, Term::metavariable(X));
//! let problem = Problem::of([(pattern, Term::symbol(5))])?;
//! let mut ways = Vec::new();
//! for solution in problem.search() {
//!     let [p, x] = [P, X].map(|number| solution.given(number).expect("the problem has it"));
//!     ways.push(format!("{}: P is {p}, X is {x}", solution.number()));
//!     // the solution as bytes, which the checker passes
//!     assert!(problem.check(&solution.text())?.is_yes());
//! }
//! assert_eq!(ways, ["1: P is _, X is s5", "2: P is s5, X is open"]);
//! # Ok::<(), matcher::Refusal>(())
//! ```
//!
//! # Fields
//!
//! Problems and texts are bytes. [`Term`], [`Problem::of`] and [`text_of`] make them, and [`Solution::filling`] takes a
//! text apart. They are fields: a one-byte tag, a two-byte length, high byte first, and that many bytes of content.
//!
//! | tag | meaning | content |
//! |---|---|---|
//! | 1 | symbol | number, 2 bytes, or 4 where it is 65,536 or more |
//! | 2 | variable | number, 2 bytes |
//! | 3 | application | 1 or more terms |
//! | 4 | binder | binder number, 2 bytes; bound variable, 2 bytes; one term |
//! | 5 | metavariable | number 0 to 31, 1 byte |
//! | 6 | function application | number 0 to 31, 1 byte; one term, the argument |
//! | 7 | constraint | the pattern term, the expression term |
//! | 8 | value, in a text | number, 1 byte; an expression |
//! | 9 | body, in a text | number, 1 byte; an expression in which 10 may stand for a term |
//! | 10 | hole | nothing |
//! | 11 | open, in a text | number, 1 byte |
//!
//! A problem is at most [`MAX_CONSTRAINTS`] constraints in at most [`LARGEST_PROBLEM`] bytes. Terms are at most
//! [`MAX_DEPTH`] deep, at most [`MAX_FUNCTIONS`] metavariables are functions, and what the first application of each shall
//! equal has at most [`MAX_FACE_NODES`] nodes.

#![warn(missing_docs)]

mod fields;
mod filling;
mod node_set;
mod problem;
pub mod raw;
mod refusal;
mod saved;
mod search;
mod shown;
mod solution;
mod term;
mod verdict;

pub use filling::{text_of, Given};
pub use node_set::NodeSet;
pub use problem::Problem;
pub use raw::{LARGEST_PROBLEM, LARGEST_TEXT, LARGEST_WRITTEN, PLACE_WORDS, SET_WORDS};
pub use raw::{MAX_CONSTRAINTS, MAX_DEPTH, MAX_FACE_NODES, MAX_FUNCTIONS, METAVARIABLES};
pub use refusal::Refusal;
pub use saved::{ResumeError, SAVED_BYTES};
pub use search::{Search, Step, ALLOWANCE};
pub use solution::Solution;
pub use term::Term;
pub use verdict::Verdict;
