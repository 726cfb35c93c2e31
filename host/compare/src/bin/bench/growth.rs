//! How the proved matcher's time grows.

use crate::clock::{nanoseconds, shown};
use crate::lists;
use crate::problems::{call, different_symbols, equal_symbols};
use compare::tree::{self, Tree};
use matcher::Problem;

pub fn tables() {
    let title = "nodes: an application of so many symbols, read by the start";
    growing("nodes", title, &[50, 100, 200, 400, 800], nodes);
    let title = "the nodes of a face: (P(X), so many different symbols), read by the start";
    growing("nodes", title, &[31, 63, 127, 255], faces);
    let title = "rows: (P(X), so many equal symbols), (P(X), v0), in one call that finds none";
    growing("rows", title, &[4, 8, 12, 16], rows);
    let title = "solutions: (P(X), so many equal symbols), the whole list with its texts";
    growing("solutions", title, &[4, 6, 8, 10, 12], solutions);
    println!("'grows' is how many times longer it takes than in the line before, for each time that there are more: 1 is in proportion");
}

/// A table of how many there are and how long they take, for each size.
fn growing(what: &str, title: &str, sizes: &[usize], measured: fn(usize) -> (f64, f64)) {
    println!("growth with {title}\n");
    println!("{what:>10} {:>12} {:>12} {:>8}", "proved", "for each", "grows");
    let mut before: Option<(f64, f64)> = None;
    for size in sizes {
        let (count, time) = measured(*size);
        let grows = before.map_or(String::new(), |(c, t)| format!("{:.2}", (time / t) / (count / c)));
        println!("{count:>10} {:>12} {:>12} {grows:>8}", shown(time), shown(time / count));
        before = Some((count, time));
    }
    println!();
}

fn nodes(n: usize) -> (f64, f64) {
    let problem = tree::problem(&[(Tree::Meta(0), different_symbols(n))]);
    (n as f64 + 1.0, nanoseconds(|| Problem::new(&problem)))
}

fn faces(n: usize) -> (f64, f64) {
    let problem = tree::problem(&[(call(0, &Tree::Meta(1)), different_symbols(n))]);
    (n as f64 + 1.0, nanoseconds(|| Problem::new(&problem)))
}

fn rows(n: usize) -> (f64, f64) {
    let pattern = call(0, &Tree::Meta(1));
    let problem = tree::problem(&[(pattern.clone(), equal_symbols(n)), (pattern, Tree::Variable(0))]);
    let problem = Problem::new(&problem).expect("the problem is accepted");
    // the sets of equal symbols, the whole application, and the empty set
    (
        2f64.powi(n as i32) + 1.0,
        nanoseconds(|| problem.search().call(u32::MAX).is_ok()),
    )
}

fn solutions(n: usize) -> (f64, f64) {
    let problem = tree::problem(&[(call(0, &Tree::Meta(1)), equal_symbols(n))]);
    let time = nanoseconds(|| lists::by_the_proved(&problem));
    (lists::by_the_proved(&problem).len() as f64, time)
}
