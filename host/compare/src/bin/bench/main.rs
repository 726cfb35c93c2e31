//! Measures the proved matcher and the second implementation on the same problems, in the same run, and how the proved one's
//! time grows with nodes, with rows and with solutions.
//!
//!     cargo run --release --bin bench
//!
//! Nothing fails by being slow, but a difference between the two ends the run.

mod clock;
mod growth;
mod lists;
mod problems;
mod single;

fn main() {
    single::table();
    lists::table();
    growth::tables();
}
