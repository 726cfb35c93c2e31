//! A search that is suspended to bytes after every call and resumed by another process gives the same list.

use compare::generate;
use compare::hex::hex;
use compare::random::Random;
use compare::report::differ;
use compare::tree::{self, Tree};
use second::Problem;
use std::io::Write;
use std::process::{Command, Stdio};

/// Problems with more rows than this would start too many processes.
const MOST_ROWS: usize = 40;

/// One call in a process of its own: what it gave, and the search after it.
fn one_call(problem: &[u8], saved: &str, allowance: usize) -> (String, String) {
    let mut process = Command::new(env!("CARGO_BIN_EXE_one_call"))
        .stdin(Stdio::piped())
        .stdout(Stdio::piped())
        .spawn()
        .expect("the program starts");
    let input = format!("{}\n{saved}\n{allowance}\n", hex(problem));
    process
        .stdin
        .take()
        .expect("a pipe")
        .write_all(input.as_bytes())
        .expect("it reads its input");
    let output = process.wait_with_output().expect("it ends");
    assert!(output.status.success(), "a call of {} failed", hex(problem));
    let lines = String::from_utf8(output.stdout).expect("it prints text");
    let (answer, saved) = lines.trim_end().split_once('\n').expect("it prints two lines");
    (answer.to_string(), saved.to_string())
}

/// The texts that come out when every call is made by another process, and how many calls paused.
fn listed(problem: &[u8], random: &mut Random) -> (Vec<String>, usize) {
    let (mut texts, mut pauses, mut saved) = (Vec::new(), 0, String::new());
    loop {
        let allowance = random.below(4);
        let (answer, after) = one_call(problem, &saved, allowance);
        if allowance == 0 {
            assert!(answer.starts_with("refused 15:"), "{answer}");
            assert!(saved.is_empty() || after == saved, "a refused call moved the search");
        }
        match answer.split(' ').collect::<Vec<_>>()[..] {
            ["found", number, text] => {
                texts.push(text.to_string());
                assert_eq!(number, texts.len().to_string());
            }
            ["paused"] => pauses += 1,
            ["end"] => return (texts, pauses),
            _ => assert_eq!(allowance, 0, "{answer}"),
        }
        saved = after;
    }
}

#[test]
fn the_same_list_from_many_processes() {
    let (mut solutions, mut pauses) = (0, 0);
    for seed in 0..120 {
        let mut random = Random::new(seed);
        let problem = tree::problem(&generate::problem(&mut random).constraints);
        let Ok(read) = Problem::read(&problem) else { continue };
        if read.rows(MOST_ROWS).is_none() {
            continue;
        }
        let expected: Vec<String> = read
            .solutions(MOST_ROWS)
            .expect("no more than rows")
            .iter()
            .map(|s| hex(&s.text))
            .collect();
        let (texts, paused) = listed(&problem, &mut random);
        assert_eq!(texts, expected, "seed {seed}: {}", differ(&problem, "the list"));
        solutions += texts.len();
        pauses += paused;
    }
    assert!(
        solutions >= 100 && pauses >= 100,
        "only {solutions} solutions and {pauses} pauses"
    );
}

/// T-10: a face of 256 nodes, where symbol 1 stands in three words of its set.
#[test]
fn the_same_list_of_a_large_face() {
    let symbol = |node: u32| Tree::Symbol(if [63, 64, 255].contains(&node) { 1 } else { 1_000 + node });
    let face = Tree::Apply((1..256).map(symbol).collect());
    let problem = tree::problem(&[(Tree::Call(0, Box::new(Tree::Symbol(1))), face)]);
    let read = Problem::read(&problem).expect("it is accepted");
    let solutions = read.solutions(8).expect("one for each set of the three nodes");
    let expected: Vec<String> = solutions.iter().map(|s| hex(&s.text)).collect();
    let (texts, pauses) = listed(&problem, &mut Random::new(0));
    assert_eq!(texts, expected, "{}", differ(&problem, "the list"));
    assert!(texts.len() == 8 && pauses >= 50, "{} and {pauses}", texts.len());
}
