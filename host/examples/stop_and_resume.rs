//! Lists the solutions of a problem a few at a time, stopping in between: each run goes on where the last one stopped.
//!
//!     cargo run --example stop_and_resume -- PROBLEM SAVED COUNT
//!
//! PROBLEM is a file with the bytes of a problem, SAVED the file that keeps the place; it is made by the first run. At most
//! COUNT solutions are printed, each with its number in the whole list and what its metavariables stand for, then
//! `end N`, or `stopped after N`, after which another run goes on.

use matcher::{Problem, Search, Solution};
use std::error::Error;
use std::io::{ErrorKind, Write};
use std::path::Path;

fn main() {
    if let Err(error) = run() {
        eprintln!("stop_and_resume: {error}");
        std::process::exit(1);
    }
}

fn run() -> Result<(), Box<dyn Error>> {
    let arguments: Vec<String> = std::env::args().skip(1).collect();
    let [problem, saved, count] = &arguments[..] else {
        return Err("usage: stop_and_resume PROBLEM SAVED COUNT".into());
    };
    let count = count.parse().map_err(|_| format!("COUNT is a number, not '{count}'"))?;
    let problem = Problem::new(&std::fs::read(problem).map_err(|e| format!("{problem}: {e}"))?)?;
    let saved = Path::new(saved);
    let mut search = open(&problem, saved).map_err(|e| format!("{}: {e}", saved.display()))?;
    // Only what was printed is saved as given: if printing fails, the next run prints it again.
    print(&mut search, count)?;
    save(&search, saved).map_err(|e| format!("{}: {e}", saved.display()).into())
}

/// The search that the file keeps, or one from the start where there is no file.
fn open<'p>(problem: &'p Problem, saved: &Path) -> Result<Search<'p>, Box<dyn Error>> {
    match std::fs::read(saved) {
        Ok(bytes) => Ok(problem.resume(&bytes)?),
        Err(e) if e.kind() == ErrorKind::NotFound => Ok(problem.search()),
        Err(e) => Err(e.into()),
    }
}

/// Prints the next solutions, at most `count` of them.
fn print(search: &mut Search, count: usize) -> std::io::Result<()> {
    let mut out = std::io::stdout().lock();
    for _ in 0..count {
        let Some(solution) = search.next() else {
            return writeln!(out, "end {}", search.found());
        };
        writeln!(out, "solution {}: {}", solution.number(), words(&solution))?;
    }
    writeln!(out, "stopped after {}", search.found())
}

/// What each metavariable stands for: `?0 is _, ?1 is s5`.
fn words(solution: &Solution) -> String {
    let filling = solution.filling();
    let words = filling.iter().map(|(number, given)| format!("?{number} is {given}"));
    words.collect::<Vec<String>>().join(", ")
}

/// Writes the file beside the old one and then in its place, so that a place is never half written.
fn save(search: &Search, saved: &Path) -> std::io::Result<()> {
    let beside = saved.with_extension("new");
    std::fs::write(&beside, search.suspend())?;
    std::fs::rename(beside, saved)
}
