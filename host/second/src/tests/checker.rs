//! The checker, on texts that no search wrote.

use super::notation::{problem, term};
use crate::term::Meta;
use crate::text::{write, Field};

/// The checker's answer for fields as `9 0 body`, `8 1 value` and `11 2`.
fn answer(text: &str, fields: &[&str]) -> Result<bool, u8> {
    let fields: Vec<Field> = fields.iter().map(|text| field(text)).collect();
    problem(text).check(&write(&fields))
}

/// The same for a text that is not refused.
fn says(text: &str, fields: &[&str]) -> bool {
    answer(text, fields).expect("a good text")
}

/// One field.
fn field(text: &str) -> Field {
    let mut parts = text.splitn(3, ' ');
    let mut next = || parts.next().expect("three parts");
    let tag = next();
    let meta = Meta(next().parse().expect("a number"));
    match tag {
        "8" => Field::Value(meta, term(next())),
        "9" => Field::Body(meta, term(next())),
        _ => Field::Open(meta),
    }
}

const READINGS: &str = "?0{?1} = s5";

#[test]
fn only_number_order_is_good() {
    assert!(says(READINGS, &["9 0 _", "8 1 s5"]));
    assert!(says(READINGS, &["9 0 s5", "11 1"]));
    assert_eq!(answer(READINGS, &["8 1 s5", "9 0 _"]), Err(27));
    assert_eq!(answer(READINGS, &["11 1", "9 0 s5"]), Err(27));
    // Of three fields, in any other order.
    let three = "(?0{?3} ?31) = (s5 s6)";
    let [zero, middle, last] = ["9 0 _", "8 3 s5", "8 31 s6"];
    assert_eq!(answer(three, &[zero, middle, last]), Ok(true));
    assert_eq!(answer(three, &[zero, last, middle]), Err(27));
    assert_eq!(answer(three, &[middle, zero, last]), Err(27));
    assert_eq!(answer(three, &[middle, last, zero]), Err(27));
    assert_eq!(answer(three, &[last, zero, middle]), Err(27));
    assert_eq!(answer(three, &[last, middle, zero]), Err(27));
}

#[test]
fn a_doubled_metavariable_is_no_longer_a_no() {
    assert_eq!(answer(READINGS, &["9 0 _", "8 1 s5", "8 1 s5"]), Err(27));
    assert_eq!(answer(READINGS, &["9 0 _", "9 0 _", "8 1 s5"]), Err(27));
    assert_eq!(answer(READINGS, &["9 0 _", "8 1 s5", "9 0 _"]), Err(27));
    assert_eq!(answer(READINGS, &["9 0 s5", "11 1", "11 1"]), Err(27));
    // With another content or another tag.
    assert_eq!(answer(READINGS, &["9 0 _", "9 0 s5", "8 1 s5"]), Err(27));
    assert_eq!(answer(READINGS, &["9 0 _", "8 1 s5", "11 1"]), Err(27));
    // Of one that doesn't occur.
    assert_eq!(answer(READINGS, &["9 0 _", "8 1 s5", "11 2", "11 2"]), Err(27));
}

#[test]
fn each_metavariable_comes() {
    assert!(!says(READINGS, &["9 0 _"]));
    assert!(!says(READINGS, &["9 0 s5"]));
    assert!(!says(READINGS, &["8 1 s5"]));
    assert!(!says(READINGS, &[]));
}

#[test]
fn no_other_metavariable_comes() {
    assert!(!says(READINGS, &["9 0 _", "8 1 s5", "11 2"]));
    assert!(!says(READINGS, &["9 0 _", "8 1 s5", "8 2 s5"]));
    assert!(!says(READINGS, &["9 0 _", "8 2 s5"]));
    assert!(!says("?1 = s5", &["11 0", "8 1 s5"]));
}

#[test]
fn each_metavariable_has_its_kind() {
    assert!(!says(READINGS, &["8 0 s5", "11 1"]));
    assert!(!says(READINGS, &["11 0", "11 1"]));
    assert!(!says(READINGS, &["9 0 s5", "9 1 s5"]));
    assert!(!says(READINGS, &["9 0 _", "9 1 s5"]));
    assert!(!says("?1 = s5", &["9 1 s5"]));
    assert!(says("?1 = s5", &["8 1 s5"]));
}

#[test]
fn open_just_where_no_hole_asks() {
    assert!(!says(READINGS, &["9 0 s5", "8 1 s5"]));
    assert!(!says(READINGS, &["9 0 _", "11 1"]));
    assert!(!says("?1 = s5", &["11 1"]));
    let twice = "(?0{?1} ?2{?1}) = (s5 s6)";
    assert!(says(twice, &["9 0 s5", "8 1 s6", "9 2 _"]));
    assert!(says(twice, &["9 0 s5", "11 1", "9 2 s6"]));
    assert!(!says(twice, &["9 0 s5", "8 1 s6", "9 2 s6"]));
    assert!(!says(twice, &["9 0 s5", "11 1", "9 2 _"]));
}

#[test]
fn nothing_fills_a_letter_used_both_ways() {
    let itself = "?0{?0} = s5";
    // Document 01's clauses would pass this one.
    assert!(!says(itself, &["9 0 s5"]));
    assert!(!says(itself, &["9 0 _"]));
    assert!(!says(itself, &["8 0 s5"]));
    assert!(!says(itself, &["11 0"]));
    assert!(!says(itself, &[]));
    assert!(!says(itself, &["8 1 s5"]));
    // One field for each way is refused before anything is filled.
    assert_eq!(answer(itself, &["9 0 _", "8 0 s5"]), Err(27));
    assert_eq!(answer(itself, &["8 0 s5", "9 0 _"]), Err(27));
    assert_eq!(answer(itself, &["9 0 s5", "11 0"]), Err(27));
}

#[test]
fn nothing_fills_a_letter_used_both_ways_far_apart() {
    // In a later constraint.
    let later = "?0{s5} = s5 ; ?0 = s5";
    assert!(!says(later, &["9 0 s5"]));
    assert!(!says(later, &["8 0 s5"]));
    assert!(!says(later, &[]));
    assert_eq!(answer(later, &["9 0 _", "8 0 s5"]), Err(27));
    // In another function's argument; document 01's clauses would pass the
    // first two.
    let argument = "?0{s5} = s5 ; ?1{?0} = s6";
    assert!(!says(argument, &["9 0 _", "9 1 s6"]));
    assert!(!says(argument, &["9 0 s5", "9 1 s6"]));
    assert!(!says(argument, &["11 0", "9 1 s6"]));
    assert_eq!(answer(argument, &["9 0 _", "8 0 s6", "9 1 _"]), Err(27));
    assert_eq!(answer(argument, &["9 1 s6", "9 0 _"]), Err(27));
    // The same with another letter.
    assert!(says("?0{s5} = s5 ; ?1{?2} = s6", &["9 0 _", "9 1 s6", "11 2"]));
}

#[test]
fn bound_names_are_free() {
    let text = "?0{?1} = [b0 v1 (s2 v1 s3)]";
    assert!(says(text, &["9 0 [b0 v8 (s2 v8 _)]", "8 1 s3"]));
    assert!(says(text, &["9 0 _", "8 1 [b0 v8 (s2 v8 s3)]"]));
    assert!(!says(text, &["9 0 [b0 v8 (s2 v1 _)]", "8 1 s3"]));
    assert!(!says(text, &["9 0 [b1 v8 (s2 v8 _)]", "8 1 s3"]));
}

#[test]
fn nothing_is_caught() {
    // By a binder of the body.
    let text = "?0{?1} = [b0 v1 (v1 v2)]";
    assert!(says(text, &["9 0 [b0 v2 (v2 _)]", "8 1 v2"]));
    assert!(!says(text, &["9 0 [b0 v1 (_ v2)]", "8 1 v1"]));
    // By a binder of the pattern, from a value and from a body.
    let text = "[b0 v1 (v1 ?0)] = [b0 v3 (v3 v1)]";
    assert!(says(text, &["8 0 v1"]));
    assert!(!says(text, &["8 0 v3"]));
    assert!(!says("[b0 v1 ?0] = [b0 v1 v1]", &["8 0 v1"]));
    assert!(!says("[b0 v1 ?0{s1}] = [b0 v1 v1]", &["9 0 v1"]));
    // An argument's bound variable, by a body's binder of the same name.
    let text = "[b0 v1 ?0{v1}] = [b0 v2 [b0 v3 (v2 v3)]]";
    assert!(says(text, &["9 0 [b0 v1 (_ v1)]"]));
    assert!(!says(text, &["9 0 [b0 v1 (v1 _)]"]));
}

#[test]
fn each_constraint_counts() {
    let text = "?0 = s1 ; ?1 = s2";
    assert!(says(text, &["8 0 s1", "8 1 s2"]));
    assert!(!says(text, &["8 0 s1", "8 1 s1"]));
    assert!(!says("s1 = s2", &[]));
    assert!(says("s1 = s1", &[]));
}

#[test]
fn symbols_differ_by_their_whole_number() {
    // 65,541 and 5 have the same low half.
    assert!(says("?1 = s65541", &["8 1 s65541"]));
    assert!(!says("?1 = s65541", &["8 1 s5"]));
    assert!(!says("?1 = s5", &["8 1 s65541"]));
    let text = "?0{?1} = (s65541 s5)";
    assert!(says(text, &["9 0 (_ s5)", "8 1 s65541"]));
    assert!(says(text, &["9 0 (s65541 _)", "8 1 s5"]));
    assert!(!says(text, &["9 0 (_ _)", "8 1 s5"]));
    assert!(!says(text, &["9 0 (_ _)", "8 1 s65541"]));
    assert!(!says(text, &["9 0 (s5 s65541)", "11 1"]));
}

#[test]
fn a_large_filling_gets_a_no() {
    // The filled pattern would have more than a million nodes.
    let holes = format!("({})", vec!["_"; 200].join(" "));
    let value = format!("({})", vec!["s1"; 1000].join(" "));
    let text = "?0{(?1 ?1 ?1 ?1 ?1 ?1 ?1 ?1)} = s1";
    assert!(!says(text, &[&format!("9 0 {holes}"), &format!("8 1 {value}")]));
}
