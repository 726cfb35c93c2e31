//! The proved matcher held against a second implementation, on the same problems.
//!
//! Each comparison is a function over a [`subject::Subject`], so that it can be tried on wrong matchers too ([`wrong`]):
//! one that passes any of them would be no test. [`large`] has wrong ones of its own ([`wrong_sets`]), and so has [`longest`]
//! ([`wrong_longest`]). [`pairs`] and [`numbers`] are over what a program prints, with wrong ones of their own too
//! ([`wrong_pairs`], [`wrong_numbers`]). [`textbook`] has no second implementation: it tries everything that a definition
//! speaks of.

#![forbid(unsafe_code)]
#![warn(missing_docs)]

pub mod alike;
pub mod asked;
pub mod calls;
pub mod damage;
pub mod features;
pub mod generate;
pub mod hex;
pub mod large;
pub mod lists;
pub mod longest;
pub mod nameless;
pub mod nodes;
pub mod numbers;
pub mod outline;
pub mod pairs;
pub mod places;
pub mod potential;
pub mod random;
pub mod report;
pub mod subject;
pub mod textbook;
pub mod texts;
pub mod tree;
pub mod vectors;
pub mod wrong;
pub mod wrong_longest;
pub mod wrong_numbers;
pub mod wrong_pairs;
pub mod wrong_sets;

/// A comparison of random inputs, one for each seed.
pub type Comparison = fn(&dyn subject::Subject, std::ops::Range<u64>) -> Result<report::Tally, String>;

/// All of them but [`large`], of which a seed takes far longer, with their names.
pub const COMPARISONS: [(&str, Comparison); 6] = [
    ("lists", lists::random),
    ("calls", calls::random),
    ("damage", damage::random),
    ("texts", texts::random),
    ("places", places::random),
    ("textbook", textbook::random),
];
