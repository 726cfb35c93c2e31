//! The examples of documents 01 and 001, and some with T-05's wide symbols and
//! T-09's letters used both ways.
//!
//! Symbols: 0 to 5 and 9 are the digits, 10 `+`, 11 `=`, 12 `∧`, 13 `≠`, 14 `<`,
//! 15 `→`, 16 `^`, 17 `-`, 18 the wrapper w, 19 `∨`, 20 `·`. Binder 0 is ∀ and
//! binder 1 is ∃.

use super::notation::{hex, problem, solutions};
use crate::{Choice, Problem, Row};

/// The rows of all solutions, as lists of nodes.
fn solution_rows(text: &str) -> Vec<Vec<Vec<usize>>> {
    let solutions = problem(text).solutions(usize::MAX).expect("no limit");
    let list = |row: Row| row.into_iter().map(|set| set.into_iter().collect());
    solutions.into_iter().map(|s| list(s.row).collect()).collect()
}

/// The texts of all solutions.
fn written(problem: &Problem) -> Vec<Vec<u8>> {
    let solutions = problem.solutions(usize::MAX).expect("no limit");
    solutions.into_iter().map(|s| s.text).collect()
}

#[test]
fn no_constraint() {
    let empty = Problem::read(&[]).unwrap();
    let solutions = empty.solutions(1).unwrap();
    assert_eq!(solutions.len(), 1);
    assert_eq!(solutions[0].row, Row::new());
    assert_eq!(solutions[0].text, Vec::<u8>::new());
    assert_eq!(empty.rows(1), Some(vec![Row::new()]));
    assert_eq!(empty.rows(0), None);
    assert_eq!(empty.solutions(0), None);
    assert_eq!(empty.write(&Row::new()), Ok(Vec::new()));
    assert_eq!(empty.check(&[]), Ok(true));
    assert_eq!(empty.to_string(), "");
}

#[test]
fn function_of_a_metavariable_at_a_symbol() {
    let input = hex("07000D06000500050001010100020005");
    let readings = Problem::read(&input).unwrap();
    assert_eq!(readings.to_string(), "?0{?1} = s5");
    let solutions = readings.solutions(2).unwrap();
    let texts = [
        hex("090004000A0000080006010100020005"),
        hex("0900060001000200050B000101"),
    ];
    let rows = [vec![Choice::from([0])], vec![Choice::new()]];
    assert_eq!(solutions.len(), 2);
    for (i, solution) in solutions.iter().enumerate() {
        assert_eq!(solution.text, texts[i]);
        assert_eq!(solution.row, rows[i]);
        assert_eq!(readings.write(&rows[i]), Ok(texts[i].clone()));
        assert_eq!(readings.check(&texts[i]), Ok(true));
    }
    assert_eq!(readings.rows(2), Some(rows.to_vec()));
    assert_eq!(readings.solutions(1), None);
    assert_eq!(readings.functions(), [0]);
    assert_eq!(readings.metavariables(), [0, 1]);
    assert_eq!((readings.pattern_nodes(), readings.expression_nodes()), (2, 1));
}

/// (P(X), s) as above, s now symbol 65,541 or 4,294,967,295.
#[test]
fn function_of_a_metavariable_at_a_wide_symbol() {
    for number in ["00010005", "FFFFFFFF"] {
        let in_place = |digits: &str| hex(&digits.replace("NUMBER", number));
        let input = in_place("07000F 06000500 05000101 010004NUMBER");
        let texts = [
            in_place("090004 00 0A0000 080008 01 010004NUMBER"),
            in_place("090008 00 010004NUMBER 0B0001 01"),
        ];
        let readings = Problem::read(&input).unwrap();
        assert_eq!(written(&readings), texts);
        assert!(texts.iter().all(|text| readings.check(text) == Ok(true)));
    }
}

/// (P(X), e), e an application of symbols 5, 65,541 and 5 again. The first two
/// have the same low half, but only the first and the last are equal.
#[test]
fn symbols_of_both_widths() {
    let input = hex("07001C 06000500 05000101 030011 0100020005 01000400010005 0100020005");
    let mixed = Problem::read(&input).unwrap();
    assert_eq!(mixed.to_string(), "?0{?1} = (s5 s65541 s5)");
    let rows: [&[usize]; 6] = [&[0], &[1, 3], &[1], &[2], &[3], &[]];
    let rows = rows.map(|nodes| vec![nodes.iter().copied().collect::<Choice>()]);
    assert_eq!(mixed.rows(6), Some(rows.to_vec()));
    let texts = [
        "090004 00 0A0000 080015 01 030011 0100020005 01000400010005 0100020005",
        "090011 00 03000D 0A0000 01000400010005 0A0000 080006 01 0100020005",
        "090013 00 03000F 0A0000 01000400010005 0100020005 080006 01 0100020005",
        "090011 00 03000D 0100020005 0A0000 0100020005 080008 01 01000400010005",
        "090013 00 03000F 0100020005 01000400010005 0A0000 080006 01 0100020005",
        "090015 00 030011 0100020005 01000400010005 0100020005 0B0001 01",
    ];
    let texts = texts.map(hex);
    assert_eq!(written(&mixed), texts);
    for (row, text) in rows.iter().zip(&texts) {
        assert_eq!(mixed.write(row), Ok(text.clone()));
        assert_eq!(mixed.check(text), Ok(true));
    }
}

#[test]
fn symbols_differ_by_their_whole_number() {
    // 65,541 and 131,077 have the low half 5, 65,536 and 65,541 the same high.
    for other in ["s5", "s131077", "s65536"] {
        assert!(!problem(&format!("s65541 = {other}")).has_rows());
        assert_eq!(solutions(&format!("(?0 ?0) = (s65541 {other})")), [""; 0]);
        let only_the_body = format!("?0: ({other} {other})");
        assert_eq!(solutions(&format!("?0{{s65541}} = ({other} {other})")), [only_the_body]);
    }
    assert!(problem("s65541 = s65541").has_rows());
    assert_eq!(solutions("(?0 ?0) = (s65541 s65541)"), ["?0: s65541"]);
    let below = "?0{s65541} = [b0 v1 (s5 s65541 v1)]";
    let expected = ["?0: [b0 v1 (s5 _ v1)]", "?0: [b0 v1 (s5 s65541 v1)]"];
    assert_eq!(solutions(below), expected);
}

#[test]
fn one_metavariable_at_two_symbols() {
    let text = "?0 = s1 ; ?0 = s2";
    assert_eq!(solutions(text), [""; 0]);
    assert_eq!(problem(text).rows(1), Some(vec![Row::new()]));
    assert_eq!(problem(text).write(&Row::new()), Err(17));
}

#[test]
fn one_plus_one() {
    let text = "?0{s1} = (s10 s1 s1)";
    let expected = ["?0: (s10 _ _)", "?0: (s10 _ s1)", "?0: (s10 s1 _)", "?0: (s10 s1 s1)"];
    assert_eq!(solutions(text), expected);
    let rows: [&[usize]; 6] = [&[0], &[1], &[2, 3], &[2], &[3], &[]];
    let rows = rows.map(|nodes| vec![nodes.iter().copied().collect::<Choice>()]);
    assert_eq!(problem(text).rows(6), Some(rows.to_vec()));
    assert_eq!(problem(text).rows(5), None);
    assert_eq!(problem(text).write(&rows[0]), Err(17));
    assert_eq!(problem(text).write(&vec![Choice::from([1, 2])]), Err(16));
    assert_eq!(problem(text).write(&vec![Choice::from([4])]), Err(16));
    assert_eq!(problem(text).write(&vec![]), Err(16));
}

#[test]
fn example_1_of_001() {
    let text = "(s12 ?0 ?1) = (s12 v0 (s19 v1 v2))";
    assert_eq!(solutions(text), ["?0: v0, ?1: (s19 v1 v2)"]);
}

#[test]
fn example_2_of_001() {
    let text = "(s20 (s10 ?0 ?1) (s17 ?0 ?1)) = (s20 (s10 s3 v0) (s17 s3 v1))";
    assert_eq!(solutions(text), [""; 0]);
    let mended = "(s20 (s10 ?0 ?1) (s17 ?0 ?1)) = (s20 (s10 s3 v0) (s17 s3 v0))";
    assert_eq!(solutions(mended), ["?0: s3, ?1: v0"]);
}

#[test]
fn example_3_of_001() {
    let text = "(s12 ?0{s1} ?0{s2}) = (s12 (s13 s0 s1) (s13 s0 s2))";
    assert_eq!(solutions(text), ["?0: (s13 s0 _)"]);
}

#[test]
fn bound_variables_stay_inside() {
    assert_eq!(solutions("[b0 v0 ?0] = [b0 v1 v1]"), [""; 0]);
    assert_eq!(solutions("[b0 v0 ?0{v0}] = [b0 v1 s7]"), ["?0: s7"]);
    // The choice that keeps the bound variable is a row, but no solution row.
    let kept = problem("[b0 v0 ?0{v0}] = [b0 v1 v1]");
    let rows = vec![vec![Choice::from([0])], vec![Choice::new()]];
    assert_eq!(kept.rows(9), Some(rows.clone()));
    assert_eq!(kept.write(&rows[0]), Ok(hex("090004 00 0A0000")));
    assert_eq!(kept.write(&rows[1]), Err(17));
}

#[test]
fn holes_beside_a_bound_variable() {
    let text = "?0{?1} = [b0 v1 (s11 v1 v2)]";
    let expected = [
        "?0: _, ?1: [b0 v1 (s11 v1 v2)]",
        "?0: [b0 v1 (_ v1 v2)], ?1: s11",
        "?0: [b0 v1 (s11 v1 _)], ?1: v2",
        "?0: [b0 v1 (s11 v1 v2)], ?1 open",
    ];
    assert_eq!(solutions(text), expected);
    let rows: [&[usize]; 4] = [&[0], &[2], &[4], &[]];
    let rows = rows.map(|nodes| vec![nodes.to_vec()]);
    assert_eq!(solution_rows(text), rows);
}

#[test]
fn nothing_is_caught() {
    let text = "?0{?1} = [b0 v1 (s11 v1 v2)] ; ?0{?2} = [b0 v3 (s11 v3 v1)]";
    let expected = [
        "?0: _, ?1: [b0 v1 (s11 v1 v2)], ?2: [b0 v3 (s11 v3 v1)]",
        "?0: [b0 v1 (s11 v1 _)], ?1: v2, ?2: v1",
    ];
    assert_eq!(solutions(text), expected);
    for solution in problem(text).solutions(9).unwrap() {
        assert_eq!(problem(text).check(&solution.text), Ok(true));
    }
}

#[test]
fn binders_inside_a_body_are_told_apart() {
    let first = "?0{s1} = [b0 v1 [b0 v2 (v1 v2)]]";
    let other = format!("{first} ; ?0{{s1}} = [b0 v1 [b0 v2 (v2 v2)]]");
    assert_eq!(solutions(&other), [""; 0]);
    let same = format!("{first} ; ?0{{s1}} = [b0 v5 [b0 v1 (v5 v1)]]");
    assert_eq!(solutions(&same), ["?0: [b0 v1 [b0 v2 (v1 v2)]]"]);
}

/// `r² + 1 > 0`, as `0 < r² + 1`.
fn positive(r: &str) -> String {
    format!("(s14 s0 (s10 (s16 {r} s2) s1))")
}

#[test]
fn table_of_001_first() {
    let [forall, nine] = ["v0", "(s17 s9)"].map(positive);
    let text = format!("(s18 [b0 v7 ?0{{v7}}] ?0{{?1}}) = (s18 [b0 v0 {forall}] {nine})");
    let expected = format!("?0: {}, ?1: (s17 s9)", positive("_"));
    assert_eq!(solutions(&text), [expected]);
}

#[test]
fn table_of_001_second() {
    let text = "(s18 (s18 ?1 ?0{?1}) [b0 v7 ?0{v7}]) = \
                (s18 (s18 v0 (s14 (s10 v0 s1) s5)) [b0 v3 (s14 (s10 v3 s1) s5)])";
    assert_eq!(solutions(text), ["?0: (s14 (s10 _ s1) s5), ?1: v0"]);
}

#[test]
fn table_of_001_third() {
    let pattern = "(s18 [b1 v0 ?0{v0}] [b0 v1 (s15 ?0{v1} ?1)] ?1)";
    let cube = "(s11 (s16 v0 s3) (s17 s1))";
    let below = "(s14 v0 s5)";
    let text = format!("{pattern} = (s18 [b1 v0 {cube}] [b0 v0 (s15 {cube} {below})] {below})");
    assert_eq!(solutions(&text), [""; 0]);
    let other = "(s14 v9 s5)";
    let mended = format!("{pattern} = (s18 [b1 v0 {cube}] [b0 v0 (s15 {cube} {other})] {other})");
    let expected = "?0: (s11 (s16 _ s3) (s17 s1)), ?1: (s14 v9 s5)";
    assert_eq!(solutions(&mended), [expected]);
}

#[test]
fn values_come_from_their_first_place() {
    // Outside arguments, though the argument comes earlier.
    let text = "(s1 ?0{?1} ?1) = (s1 [b0 v2 v2] [b0 v3 v3])";
    let expected = ["?0: _, ?1: [b0 v3 v3]", "?0: [b0 v2 v2], ?1: [b0 v3 v3]"];
    assert_eq!(solutions(text), expected);
    // The first of two applications.
    let text = "(s1 ?0{?1} ?0{?1}) = (s1 [b0 v2 v2] [b0 v3 v3])";
    let expected = ["?0: _, ?1: [b0 v2 v2]", "?0: [b0 v2 v2], ?1 open"];
    assert_eq!(solutions(text), expected);
    // An application whose function has a hole, here the second function's
    // second one; inside its argument the first place.
    let text = "(?0{?2} ?1{s4} ?1{(?2 ?2)}) = \
                (s3 (s5 s4) (s5 ([b0 v2 v2] [b0 v3 v3])))";
    let expected = ["?0: s3, ?1: (s5 _), ?2: [b0 v2 v2]"];
    assert_eq!(solutions(text), expected);
}

#[test]
fn the_lowest_hole_gives_the_value() {
    let text = "?0{?1} = ([b0 v2 v2] [b0 v3 v3])";
    let expected = [
        "?0: _, ?1: ([b0 v2 v2] [b0 v3 v3])",
        "?0: (_ _), ?1: [b0 v2 v2]",
        "?0: (_ [b0 v3 v3]), ?1: [b0 v2 v2]",
        "?0: ([b0 v2 v2] _), ?1: [b0 v3 v3]",
        "?0: ([b0 v2 v2] [b0 v3 v3]), ?1 open",
    ];
    assert_eq!(solutions(text), expected);
}

#[test]
fn disagreeing_shapes_have_no_rows() {
    let shapes = problem("(s1 ?0{s2}) = (s3 s2)");
    assert!(!shapes.has_rows());
    assert_eq!(shapes.rows(0), Some(vec![]));
    assert_eq!(shapes.solutions(0), Some(vec![]));
    assert!(!shapes.is_row(&vec![Choice::new()]));
    assert_eq!(shapes.write(&vec![Choice::new()]), Err(16));
    assert_eq!(shapes.functions(), [0]);
    let agree = |text| problem(text).has_rows();
    assert!(agree("[b0 v0 v0] = [b0 v1 v1]"));
    assert!(!agree("[b0 v0 v1] = [b0 v1 v1]"));
    assert!(!agree("[b0 v0 [b0 v1 v0]] = [b0 v0 [b0 v0 v0]]"));
    assert!(!agree("[b0 v0 v2] = [b0 v1 v3]"));
    assert!(!agree("[b0 v0 v2] = [b1 v0 v2]"));
    assert!(!agree("(s1 s2) = (s1 s2 s2)"));
}

/// T-09: "The example (P(P), a) prints `end 0`", so its list is empty.
#[test]
fn a_function_of_itself_has_the_empty_list() {
    let itself = Problem::read(&hex("07000D 06000500 05000100 0100020001")).unwrap();
    assert_eq!(itself.to_string(), "?0{?0} = s1");
    assert_eq!(itself.solutions(0), Some(vec![]));
    assert_eq!(itself.solutions(usize::MAX), Some(vec![]));
    assert_eq!(itself.functions(), [0]);
    assert_eq!(itself.metavariables(), [0]);
    assert_eq!((itself.pattern_nodes(), itself.expression_nodes()), (2, 1));
}

/// Wherever the letter X stands: there are solutions where X is another letter
/// than the function ?0, and none where it is ?0.
#[test]
fn a_letter_used_both_ways_fits_nothing() {
    let texts = [
        "?0{X} = s1",                                    // in its own argument
        "?0{[b0 v1 (v1 X)]} = [b0 v2 (v2 s1)]",          // deep in it
        "?0{s1} = s1 ; X = s1",                          // alone in a later constraint
        "X = s1 ; ?0{s1} = s1",                          // alone in an earlier one
        "(X ?0{s1}) = (s1 s1)",                          // beside it
        "[b0 v1 (?0{v1} X)] = [b0 v1 (v1 s1)]",          // below the same binder
        "?0{s2} = s1 ; ?1{X} = s1",                      // in another function's argument
        "?1{(s1 X)} = s1 ; ?0{s2} = s2",                 // in one that no body can use
        "?2 = s2 ; ?0{?2} = s2 ; s1 = s1 ; ?31{X} = s1", // far away
        "?0{s1} = s1 ; ?0{X} = s1",                      // in a later application's argument
    ];
    for text in texts {
        let [apart, both] = ["?9", "?0"].map(|letter| text.replace('X', letter));
        assert_ne!(solutions(&apart), [""; 0], "{apart}");
        assert_eq!(problem(&both).solutions(0), Some(vec![]), "{both}");
    }
    // Where shapes disagree there are none for either reason.
    assert_eq!(problem("(s1 ?0{?0}) = s2").solutions(0), Some(vec![]));
}

#[test]
fn a_problem_is_shown_in_full() {
    let text = "(?3 [b2 v3 ?0{(v3 s5)}]) = (s1 [b2 v4 v9]) ; ?3 = s1";
    assert_eq!(problem(text).to_string(), text);
    assert_eq!(problem(text).pattern_nodes(), 8);
    assert_eq!(problem(text).expression_nodes(), 5);
}
