//! The C examples, compiled as their first lines say, print what the second implementation gives, and between them call every
//! function of the header; the header by itself is strict C and C++.

use compare::generate;
use compare::random::Random;
use compare::report::differ;
use compare::tree;
use compare::vectors;
use std::io::{ErrorKind, Write};
use std::path::{Path, PathBuf};
use std::process::{Command, Output, Stdio};

/// Lists of more rows than this take long to print.
const MOST_ROWS: usize = 500;

fn repository() -> PathBuf {
    Path::new(env!("CARGO_MANIFEST_DIR")).join("../..")
}

/// A compiler that finds the header and lets no warning pass: the one that the variable names, or else the usual one.
fn compiler(variable: &str, usual: &str) -> Command {
    let name = std::env::var_os(variable).unwrap_or_else(|| usual.into());
    let mut compiler = Command::new(name);
    compiler.args(["-Wall", "-Wextra", "-Werror", "-I"]);
    compiler.arg(repository().join("include"));
    compiler
}

fn no_warning(output: &Output) {
    assert!(output.status.success(), "{}", String::from_utf8_lossy(&output.stderr));
}

/// Compiles an example, into a file of this process.
fn compiled(example: &str) -> PathBuf {
    let to = std::env::temp_dir().join(format!("matcher_{example}_{}", std::process::id()));
    let output = compiler("CC", "cc")
        .args(["-std=c99", "-O1", "-o"])
        .arg(&to)
        .arg(repository().join("host/examples").join(example).with_extension("c"))
        .arg(env!("TIVAGYESZ_LIBRARY"))
        .output()
        .expect("a C compiler is there");
    no_warning(&output);
    to
}

/// Runs a program on this input.
fn fed(program: &mut Command, input: &[u8]) -> std::io::Result<Output> {
    let mut process = program
        .stdin(Stdio::piped())
        .stdout(Stdio::piped())
        .stderr(Stdio::piped())
        .spawn()?;
    process
        .stdin
        .take()
        .expect("a pipe")
        .write_all(input)
        .expect("it reads its input");
    process.wait_with_output()
}

/// What the example prints for a problem, and what it says besides.
fn listed(program: &Path, problem: &[u8]) -> (String, String) {
    let output = fed(&mut Command::new(program), problem).expect("the example runs");
    let text = |bytes| String::from_utf8(bytes).expect("it prints text");
    (text(output.stdout), text(output.stderr))
}

/// What it says of an answer of `readings`: a refusal in words.
fn said(answer: &str) -> String {
    let number = answer
        .strip_prefix("refused ")
        .and_then(|rest| rest.trim_end().parse().ok());
    let refusal = number.map(|number| matcher::Refusal::numbered(number).expect("a refusal"));
    refusal.map_or(String::new(), |refusal| format!("list: {}\n", refusal.meaning()))
}

#[test]
fn it_lists_as_the_second_implementation_does() {
    let program = compiled("list");
    let mut solutions = 0;
    for seed in 0..200 {
        let problem = tree::problem(&generate::problem(&mut Random::new(seed)).constraints);
        if second::Problem::read(&problem).is_ok_and(|read| read.rows(MOST_ROWS).is_none()) {
            continue;
        }
        let expected = vectors::readings(&problem);
        solutions += expected.matches("solution").count();
        assert_eq!(
            listed(&program, &problem),
            (expected.clone(), said(&expected)),
            "seed {seed}: {}",
            differ(&problem, "the C example")
        );
    }
    let (printed, words) = listed(&program, &[0; 4097]);
    assert_eq!((&printed[..], words), ("refused 1\n", said("refused 1\n")));
    let _ = std::fs::remove_file(&program);
    assert!(solutions >= 100, "only {solutions} solutions");
}

/// T-13: "It has 2^(n-1) + 1 solutions".
#[test]
fn it_counts_the_longest_lists() {
    let program = compiled("heaviest");
    let run = |nodes: &str| {
        let output = Command::new(&program).arg(nodes).output().expect("the example runs");
        let text = |bytes| String::from_utf8(bytes).expect("it prints text");
        (output.status.code(), text(output.stdout), text(output.stderr))
    };
    for nodes in 1..=8 {
        let solutions = format!("{} solutions\n", (1 << (nodes - 1)) + 1);
        assert_eq!(run(&nodes.to_string()), (Some(0), solutions, String::new()));
    }
    let outside = "heaviest: refused 28: the number of nodes is not from 1 to 256\n";
    for nodes in ["0", "257", "4294967295"] {
        assert_eq!(run(nodes), (Some(1), String::new(), outside.to_string()));
    }
    let usage = "usage: heaviest NODES, a number from 1 to 256\n";
    for nodes in ["", "many", "3x", "4294967296"] {
        assert_eq!(run(nodes), (Some(2), String::new(), usage.to_string()));
    }
    let _ = std::fs::remove_file(&program);
}

/// What a compiler says of a file that has the header and nothing else.
fn header_alone(mut compiler: Command, language: &[&str]) -> std::io::Result<Output> {
    compiler.args(language).args(["-pedantic", "-fsyntax-only", "-"]);
    fed(&mut compiler, b"#include \"matcher.h\"\n")
}

#[test]
fn the_header_is_strict_c() {
    let output = header_alone(compiler("CC", "cc"), &["-x", "c", "-std=c99"]);
    no_warning(&output.expect("a C compiler is there"));
}

#[test]
fn the_header_is_strict_cplusplus() {
    match header_alone(compiler("CXX", "c++"), &["-x", "c++", "-std=c++11"]) {
        Err(e) if e.kind() == ErrorKind::NotFound => println!("no C++ compiler: the header is not tried as C++"),
        output => no_warning(&output.expect("the C++ compiler runs")),
    }
}
