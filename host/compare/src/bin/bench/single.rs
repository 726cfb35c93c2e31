//! Single operations, on large problems and on a small one.

use crate::clock::{head, line, nanoseconds, shown};
use crate::problems;
use compare::tree::{self, Tree};
use matcher::Problem;

/// A problem of 4,095 bytes: one of the largest.
const READ: &[u8] = include_bytes!("../../../problems/read");

/// A problem of 4,075 bytes with 11 metavariables and a function, and a text of 1,525 bytes.
const TEXT: &[u8] = include_bytes!("../../../problems/text");

fn read_by_the_second(problem: &[u8]) -> second::Problem {
    second::Problem::read(problem).expect("the problem is accepted")
}

pub fn table() {
    head("single operations", "bytes");
    reading("reading a problem", READ);
    reading("reading another one", TEXT);
    texts();
    println!();
    calls();
    calls_on_a_large_face();
    faces_prepared(63, 8);
    faces_prepared(255, 3);
    starts();
    println!();
}

/// Checking no text reads the problem and looks no further, since a metavariable is missing.
fn reading(name: &str, bytes: &[u8]) {
    let problem = Problem::new(bytes).expect("the problem is accepted");
    let proved = nanoseconds(|| problem.check(&[]));
    let second = nanoseconds(|| read_by_the_second(bytes));
    line(name, &bytes.len().to_string(), proved, second);
}

/// The first solution's text, each time from the problem's bytes on.
fn texts() {
    let problem = Problem::new(TEXT).expect("the problem is accepted");
    let solution = problem.search().next().expect("it has a solution");
    let text = solution.text();
    let read = read_by_the_second(TEXT);
    let solutions = read.solutions(usize::MAX).expect("no list is longer");
    let row = &solutions[0].row;
    assert_eq!(read.write(row).as_ref(), Ok(&text), "the two write another text");
    let length = text.len().to_string();
    let proved = nanoseconds(|| solution.text());
    let second = nanoseconds(|| read_by_the_second(TEXT).write(row));
    line("reading it and writing its first text", &length, proved, second);
    let proved = nanoseconds(|| problem.check(&text));
    let second = nanoseconds(|| read_by_the_second(TEXT).check(&text));
    line("reading it and checking that text", &length, proved, second);
}

/// A call that judges one row, and one that judges them all.
fn calls() {
    let bytes = tree::problem(&problems::no_solution());
    let problem = Problem::new(&bytes).expect("the problem is accepted");
    let rows = read_by_the_second(&bytes).row_count().expect("they are few");
    let one = nanoseconds(|| problem.search().call(1));
    let all = nanoseconds(|| problem.search().call(u32::MAX));
    println!(
        "a search call that judges one row, problem of {} bytes: {}",
        bytes.len(),
        shown(one)
    );
    println!(
        "judging a row more, of {rows}: {}",
        shown((all - one) / (rows - 1) as f64)
    );
}

/// The same on a face of 256 nodes.
fn calls_on_a_large_face() {
    let face = problems::different_symbols(255);
    let pattern = problems::call(0, &Tree::Meta(1));
    let bytes = tree::problem(&[(pattern.clone(), face), (pattern, Tree::Variable(0))]);
    let problem = Problem::new(&bytes).expect("the problem is accepted");
    let rows = read_by_the_second(&bytes).row_count().expect("they are few");
    let one = nanoseconds(|| problem.search().call(1));
    let all = nanoseconds(|| problem.search().call(u32::MAX));
    println!("a search call that judges one row, a face of 256 nodes: {}", shown(one));
    let more = shown((all - one) / (rows - 1) as f64);
    println!("judging a row more, of {rows}, a face of 256 nodes: {more}");
}

/// What the start of a problem takes longer where functions face so many symbols than where plain metavariables do, for each of them: it
/// prepares their faces.
fn faces_prepared(symbols: usize, functions: u8) {
    let (equal, different) = (problems::equal_symbols(symbols), problems::different_symbols(symbols));
    for (name, face) in [("equal", equal), ("different", different)] {
        let start = |pattern: fn(u8) -> Tree| {
            let constraints: Vec<_> = (0..functions).map(|m| (pattern(m), face.clone())).collect();
            let bytes = tree::problem(&constraints);
            nanoseconds(|| Problem::new(&bytes).is_ok())
        };
        let longer = start(|m| problems::call(m, &Tree::Meta(20))) - start(Tree::Meta);
        println!(
            "preparing a face of {symbols} {name} symbols: {}",
            shown(longer / f64::from(functions))
        );
    }
}

/// The whole start of a problem whose function faces 256 nodes.
fn starts() {
    let faces = [
        ("equal symbols", problems::equal_symbols(255)),
        ("different symbols", problems::different_symbols(255)),
        ("equal branches", problems::branches(|_| 0)),
        ("different branches", problems::branches(|k| k)),
        ("nested binders", problems::all_nested()),
    ];
    for (name, face) in faces {
        let nodes = face.nodes();
        let bytes = tree::problem(&[(problems::call(0, &Tree::Meta(1)), face)]);
        let time = nanoseconds(|| Problem::new(&bytes).is_ok());
        println!(
            "the start of a problem with a face of {nodes} nodes, {name}: {}",
            shown(time)
        );
    }
}
