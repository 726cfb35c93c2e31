//! What the vectors' programs must print is, byte for byte, what the second implementation gives.

use compare::vectors;
use std::path::Path;

fn stored(file: &str) -> Vec<u8> {
    let path = Path::new(env!("CARGO_MANIFEST_DIR")).join("../../crates").join(file);
    std::fs::read(&path).unwrap_or_else(|e| panic!("{}: {e}", path.display()))
}

/// The first line that differs, so that a failure can be read.
fn same_lines(got: &str, expected: &[u8]) {
    let expected = std::str::from_utf8(expected).expect("the vectors are text");
    for (k, (got, expected)) in got.lines().zip(expected.lines()).enumerate() {
        assert_eq!(got, expected, "line {}", k + 1);
    }
    assert_eq!(got, expected);
}

#[test]
fn vectors() {
    let input = String::from_utf8(stored("vectors/stdin")).expect("the vectors are text");
    same_lines(&vectors::problems(&input), &stored("vectors/stdout"));
}

#[test]
fn vectors_texts() {
    let input = String::from_utf8(stored("vectors_texts/stdin")).expect("the vectors are text");
    same_lines(&vectors::texts(&input), &stored("vectors_texts/stdout"));
}

#[test]
fn vectors_calls() {
    let input = String::from_utf8(stored("vectors_calls/stdin")).expect("the vectors are text");
    same_lines(&vectors::calls(&input), &stored("vectors_calls/stdout"));
}

#[test]
fn readings() {
    same_lines(
        &vectors::readings(&stored("readings/stdin")),
        &stored("readings/stdout"),
    );
}
