//! Whole lists: the rows and texts that a search gives, from the start to End, are those of the second implementation.

use crate::features::FEATURES;
use crate::generate;
use crate::hex::hex;
use crate::report::{differ, each_seed, same, Tally};
use crate::subject::{place, words, Subject, Words, PAST, UNTOUCHED};
use crate::tree::{self, Entry};
use matcher::raw::{END, FOUND, LARGEST_TEXT, OK};
use second::{Problem, Solution};
use std::ops::Range;

/// Problems with more rows than this are left out: a list that is walked to its end shall end soon.
pub const MOST_ROWS: usize = 20_000;

/// Compares the lists of random problems, one for each seed.
pub fn random(subject: &dyn Subject, seeds: Range<u64>) -> Result<Tally, String> {
    each_seed(seeds, |random, tally| {
        let made = generate::problem(random);
        for (feature, has) in FEATURES {
            tally.add(feature, usize::from(has(&made)));
        }
        whole(subject, &tree::problem(&made.constraints), tally)
    })
}

/// Compares the whole list of one problem.
pub fn whole(subject: &dyn Subject, problem: &[u8], tally: &mut Tally) -> Result<(), String> {
    let mut at = UNTOUCHED;
    let started = subject.start(problem, &mut at);
    let read = match Problem::read(problem) {
        Err(refusal) => {
            tally.count("refused");
            same(problem, "the start", started, u32::from(refusal))?;
            return same(problem, "the place of a refused start", at, UNTOUCHED);
        }
        Ok(read) => read,
    };
    same(problem, "the start", started, OK)?;
    let Some(rows) = read.rows(MOST_ROWS) else {
        tally.count("too many rows");
        return Ok(());
    };
    same(problem, "the place of the start", at, place(rows.first()))?;
    let solutions = read
        .solutions(rows.len())
        .ok_or_else(|| differ(problem, "more solutions than rows"))?;
    count(problem, &read, &solutions, tally);
    listed(subject, problem, at, &solutions)
}

/// Walks from the start to End, all rows allowed at once.
fn listed(subject: &dyn Subject, problem: &[u8], start: Words, solutions: &[Solution]) -> Result<(), String> {
    let mut at = start;
    for (k, solution) in solutions.iter().enumerate() {
        let mut row = UNTOUCHED;
        let what = format!("call {} of {}", k + 1, solutions.len());
        same(
            problem,
            &what,
            subject.search(problem, &mut at, &mut row, u32::MAX),
            FOUND,
        )?;
        same(problem, &format!("the row of {what}"), row, words(&solution.row))?;
        written(subject, problem, row, &solution.text)?;
    }
    let mut row = UNTOUCHED;
    same(
        problem,
        "the call after the last solution",
        subject.search(problem, &mut at, &mut row, u32::MAX),
        END,
    )?;
    same(problem, "the place after End", at, PAST)?;
    same(problem, "the row of an End", row, UNTOUCHED)
}

/// The text of a row, and that it passes.
fn written(subject: &dyn Subject, problem: &[u8], row: Words, text: &[u8]) -> Result<(), String> {
    let mut out = [0xA5; LARGEST_TEXT];
    let mut length = 0;
    same(
        problem,
        "writing a solution",
        subject.write(problem, &row, &mut out, &mut length),
        OK,
    )?;
    same(problem, "the length of a text", length, text.len())?;
    same(problem, "a text", hex(&out[..text.len()]), hex(text))?;
    if out[text.len()..].iter().any(|byte| *byte != 0xA5) {
        return Err(differ(problem, "a byte after the text is changed"));
    }
    same(
        problem,
        "checking a written text",
        subject.check(problem, text),
        matcher::raw::YES,
    )
}

/// What there is to find in the problem.
fn count(problem: &[u8], read: &Problem, solutions: &[Solution], tally: &mut Tally) {
    tally.count("problems");
    tally.add("solutions", solutions.len());
    match solutions.len() {
        0 => tally.count("no solution"),
        1 => tally.count("one solution"),
        _ => tally.count("several solutions"),
    }
    if !tree::both_ways(problem).is_empty() {
        tally.count("fits nothing");
    } else if !read.has_rows() {
        tally.count("shapes that disagree");
    }
    if solutions.iter().any(|s| opens(&s.text)) {
        tally.count("an open metavariable");
    }
}

/// Whether a metavariable is open in the text.
fn opens(text: &[u8]) -> bool {
    tree::read_text(text)
        .iter()
        .any(|entry| matches!(entry, Entry::Open(_)))
}
