//! Random problems, calls, bytes, texts and places: the proved matcher answers as the second implementation does, and lists
//! the solutions that a textbook's definitions ask for. Every kind of case comes up often enough to say something.

use compare::features::{BOTH_WAYS, FEATURES};
use compare::report::Tally;
use compare::subject::Proved;
use compare::{calls, damage, large, lists, places, textbook, texts};

/// The comparison holds, and met at least so many of each case.
fn met(compared: Result<Tally, String>, cases: &[(&str, usize)]) {
    let tally = compared.unwrap_or_else(|difference| panic!("{difference}"));
    for (case, least) in cases {
        tally.need(case, *least).unwrap_or_else(|few| panic!("{few}"));
    }
}

#[test]
fn whole_lists_agree() {
    let mut cases = vec![
        ("problems", 20_000),
        ("solutions", 50_000),
        ("no solution", 3_000),
        ("one solution", 3_000),
        ("several solutions", 3_000),
        ("shapes that disagree", 500),
        ("fits nothing", 2_000),
        ("an open metavariable", 3_000),
    ];
    cases.extend(FEATURES.iter().map(|(feature, _)| (*feature, 2_000)));
    met(lists::random(&Proved, 0..24_000), &cases);
}

#[test]
fn lists_of_calls_agree() {
    let cases = [
        ("lists", 3_000),
        ("found", 3_000),
        ("paused", 3_000),
        ("end", 3_000),
        ("refused 15", 1_000),
        ("refused 18", 1_000),
    ];
    met(calls::random(&Proved, 100_000..104_000), &cases);
}

#[test]
fn damaged_problems_agree() {
    let refusals = (1..=11).chain([13, 14, 25]);
    let mut cases: Vec<(String, usize)> = refusals.map(|refusal| (format!("refused {refusal}"), 50)).collect();
    cases.push(("problems".to_string(), 3_000));
    cases.push(("a face of 65 to 256 nodes".to_string(), 500));
    cases.push(("a large face beside a letter used both ways".to_string(), 50));
    let cases: Vec<(&str, usize)> = cases.iter().map(|(case, least)| (&case[..], *least)).collect();
    met(damage::random(&Proved, 200_000..230_000), &cases);
}

#[test]
fn checked_texts_agree() {
    let cases = [
        ("yes", 5_000),
        ("no", 5_000),
        ("refused 19", 50),
        ("refused 20", 1_000),
        ("refused 27", 4_000),
        ("equal numbers", 1_000),
        ("falling numbers", 1_000),
        ("malformed, and numbers that do not rise", 500),
        ("spelled too wide", 500),
        (BOTH_WAYS, 2_000),
    ];
    met(texts::random(&Proved, 300_000..305_000), &cases);
}

#[test]
fn places_and_rows_agree() {
    let cases = [
        ("place", 5_000),
        ("no place", 1_000),
        ("too few words", 500),
        ("more words", 500),
        ("written", 1_000),
        ("refused 16", 1_000),
        ("refused 17", 1_000),
        ("refused 18", 500),
    ];
    met(places::random(&Proved, 400_000..404_000), &cases);
}

/// T-10: each seed takes as long as some hundreds of the others.
#[test]
fn large_faces_agree() {
    let nodes: Vec<String> = [63, 64, 65, 128, 129, 192, 193, 255, 256, 257]
        .iter()
        .map(|n| format!("{n} nodes"))
        .collect();
    let words: Vec<String> = (0..4).map(|word| format!("copies in word {word}")).collect();
    let mut cases: Vec<(&str, usize)> = nodes.iter().map(|case| (&case[..], 8)).collect();
    cases.extend(words.iter().map(|case| (&case[..], 80)));
    cases.extend([
        ("copies in every word", 30),
        ("refused 14", 8),
        ("problems", 60),
        ("solutions", 2_000),
        ("lists", 60),
        ("found", 1_000),
        ("paused", 1_000),
        ("place", 200),
        ("no place", 50),
    ]);
    met(large::random(&Proved, 700_000..700_400), &cases);
}

#[test]
fn textbook_solutions_agree() {
    let cases = [
        ("problems", 20_000),
        ("potential solutions", 5_000_000),
        ("solutions", 20_000),
        ("no solution", 3_000),
        ("one solution", 3_000),
        ("several solutions", 3_000),
        ("no metavariables, and it holds", 1_000),
        ("no metavariables, and nothing", 300),
        ("an open metavariable", 3_000),
        ("open in some solutions only", 2_000),
        ("complete and not minimal", 3_000),
        ("a binder", 10_000),
        ("a binder over a face", 3_000),
        ("a name that shadows another", 2_000),
        ("several constraints", 5_000),
        ("several functions", 1_000),
        ("a function applied again", 5_000),
        ("a metavariable in several places", 3_000),
        (BOTH_WAYS, 1_000),
    ];
    met(textbook::random(&Proved, 600_000..625_000), &cases);
}
