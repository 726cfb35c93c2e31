//! Tests, with outputs worked out by hand from the documents.

mod checker;
mod compared;
mod examples;
mod labels;
mod longest;
mod naming;
mod notation;
mod numbered;
mod random;
mod refusals;
mod rows;
mod words;
