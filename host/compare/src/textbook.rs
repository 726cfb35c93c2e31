//! Full solution sets: what a search lists of a small problem, from the start to End and without what is open, is the set
//! that document 000 defines, each solution once. Where no letter is used both ways, T-12's words give the same set.

use crate::features::{self, BOTH_WAYS, FEATURES};
use crate::generate::{self, Made};
use crate::hex::hex;
use crate::nameless::{Given, Term};
use crate::potential::{Solution, Table};
use crate::report::{differ, each_seed, same, Tally};
use crate::subject::{Subject, UNTOUCHED};
use crate::tree::{self, Entry, Tree};
use matcher::raw::{END, FOUND, LARGEST_WRITTEN, OK};
use second::Problem;
use std::ops::Range;

/// Compares the full solution sets of small random problems, one for each seed.
pub fn random(subject: &dyn Subject, seeds: Range<u64>) -> Result<Tally, String> {
    each_seed(seeds, |random, tally| {
        let made = generate::small(random);
        match Table::new(&made.constraints) {
            Some(table) => full(subject, &made, &table, tally),
            None => {
                tally.count("too large");
                Ok(())
            }
        }
    })
}

/// Compares the full solution set of one problem. T-12 speaks only of those that give something to every letter, of all that
/// extend a solution; the others need not be satisfied then.
fn full(subject: &dyn Subject, made: &Made, table: &Table, tally: &mut Tally) -> Result<(), String> {
    let problem = tree::problem(&made.constraints);
    let satisfied: Vec<bool> = (0..table.size()).map(|n| table.satisfied(n)).collect();
    let complete = table.complete(|n| satisfied[n]);
    let minimal = table.minimal(&complete);
    let listed = listed(subject, &problem, minimal.len())?;
    same(&problem, "the full solution set", &listed, &minimal)?;
    if !features::has(made, BOTH_WAYS) {
        let by_total = table.complete(|n| satisfied[n] || !table.is_total(n));
        same(&problem, "the set by T-12's words", &listed, &table.minimal(&by_total))?;
    }
    let beyond = complete.iter().filter(|is| **is).count() - minimal.len();
    tally.add("complete and not minimal", usize::from(beyond > 0));
    count(made, table, &minimal, tally);
    Ok(())
}

/// The solutions that are listed, sorted. A list with more than `most` is not followed further: it may never end.
fn listed(subject: &dyn Subject, problem: &[u8], most: usize) -> Result<Vec<Solution>, String> {
    let mut at = UNTOUCHED;
    same(problem, "the start", subject.start(problem, &mut at), OK)?;
    let mut solutions = Vec::new();
    while solutions.len() <= most {
        let mut row = UNTOUCHED;
        let answer = subject.search(problem, &mut at, &mut row, u32::MAX);
        if answer == END {
            break;
        }
        same(problem, "a call before End", answer, FOUND)?;
        solutions.push(written(subject, problem, &row)?);
    }
    solutions.sort();
    Ok(solutions)
}

/// The solution that is written for a row, without what is open.
fn written(subject: &dyn Subject, problem: &[u8], row: &[u64]) -> Result<Solution, String> {
    let mut out = [0; LARGEST_WRITTEN];
    let mut length = 0;
    let answer = subject.write(problem, row, &mut out, &mut length);
    same(problem, "writing a solution", answer, OK)?;
    let text = out
        .get(..length)
        .ok_or_else(|| differ(problem, "a text is longer than its buffer"))?;
    Problem::read(problem)
        .and_then(|read| read.check(text))
        .map_err(|refusal| differ(problem, &format!("a text is refused by {refusal}: {}", hex(text))))?;
    let pair = |entry| match entry {
        Entry::Value(m, value) => Some((m, Given::Value(Term::new(&value)))),
        Entry::Body(m, body) => Some((m, Given::Body(Term::new(&body)))),
        Entry::Open(_) => None,
    };
    Ok(tree::read_text(text).into_iter().filter_map(pair).collect())
}

/// What there is to find in the problem.
fn count(made: &Made, table: &Table, minimal: &[Solution], tally: &mut Tally) {
    tally.count("problems");
    tally.add("potential solutions", table.size());
    tally.add("solutions", minimal.len());
    match minimal.len() {
        0 => tally.count("no solution"),
        1 => tally.count("one solution"),
        _ => tally.count("several solutions"),
    }
    for (feature, has) in FEATURES {
        tally.add(feature, usize::from(has(made)));
    }
    let (letters, solved) = (table.letters(), !minimal.is_empty());
    let open = |solution: &Solution| solution.len() < letters;
    let some_open = minimal.iter().any(open);
    let cases = [
        ("no metavariables, and it holds", letters == 0 && solved),
        ("no metavariables, and nothing", letters == 0 && !solved),
        ("an open metavariable", some_open),
        ("open in some solutions only", some_open && !minimal.iter().all(open)),
        ("a binder", made.constraints.iter().any(|(p, e)| binds(p) || binds(e))),
    ];
    for (case, met) in cases {
        tally.add(case, usize::from(met));
    }
}

/// Whether a binder stands in the term.
fn binds(term: &Tree) -> bool {
    term.all().iter().any(|node| matches!(node, Tree::Bind(..)))
}
