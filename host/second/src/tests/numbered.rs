//! The numbers of all nodes, worked out by hand from T-08: for each node the
//! lowest one with an equal subexpression.

use super::notation::problem;
use super::random::{problem_bytes, Random};
use crate::Problem;

/// The numbers of the nodes of these expressions, one to a constraint.
fn numbers(expressions: &[&str]) -> Vec<usize> {
    let constraints: Vec<String> = expressions.iter().map(|text| format!("?0 = {text}")).collect();
    problem(&constraints.join(" ; ")).numbers()
}

#[test]
fn one_binder_around_both() {
    // 0 binder, 1 application, 2 v0, 3 binder, 4 v0: all v0 belong to 0.
    assert_eq!(numbers(&["[b0 v0 (v0 [b0 v1 v0])]"]), [0, 1, 2, 3, 2]);
    // Here 4 belongs to 3.
    assert_eq!(numbers(&["[b0 v0 (v0 [b0 v0 v0])]"]), [0, 1, 2, 3, 4]);
    // 0 binder, 1 application; 2 binder, 3 application, 4 of 2, 5 of 0;
    // 6 binder; 7 binder, 8 application, 9 of 7, 10 of 0.
    let depths = "[b0 v0 ([b0 v1 (v1 v0)] [b0 v2 [b0 v1 (v1 v0)]])]";
    assert_eq!(numbers(&[depths]), [0, 1, 2, 3, 4, 5, 6, 2, 8, 9, 5]);
    // If the binder at 6 takes the name, 10 belongs to it.
    let taken = "[b0 v0 ([b0 v1 (v1 v0)] [b0 v0 [b0 v1 (v1 v0)]])]";
    assert_eq!(numbers(&[taken]), [0, 1, 2, 3, 4, 5, 6, 7, 8, 9, 10]);
}

#[test]
fn binders_that_look_alike_are_two() {
    // 0 binder, 1 application, 2 s1, 3 of 0; 4 to 7 the same.
    let formula = "[b0 v0 (s1 v0)]";
    assert_eq!(numbers(&[formula, formula]), [0, 1, 2, 3, 0, 5, 2, 7]);
    // 0 application around them, so that all nodes come one later.
    let both = format!("({formula} {formula})");
    assert_eq!(numbers(&[&both]), [0, 1, 2, 3, 4, 1, 6, 3, 8]);
    // A body that uses no binder outside: 0 binder, 1 application, 2 s1, 3 v9.
    let unused = "[b0 v0 (s1 v9)]";
    assert_eq!(numbers(&[unused, unused]), [0, 1, 2, 3, 0, 1, 2, 3]);
}

#[test]
fn bound_names_are_not_looked_at() {
    assert_eq!(numbers(&["[b0 v0 v0]", "[b0 v1 v1]"]), [0, 1, 0, 3]);
    // Three times binder, binder, variable: of the inner, the outer, the inner.
    let three = ["[b0 v0 [b0 v0 v0]]", "[b0 v0 [b0 v1 v0]]", "[b0 v3 [b0 v4 v4]]"];
    assert_eq!(numbers(&three), [0, 1, 2, 3, 4, 5, 0, 1, 8]);
    // Binder numbers are.
    assert_eq!(numbers(&["[b0 v0 v0]", "[b1 v0 v0]"]), [0, 1, 2, 3]);
}

#[test]
fn free_variables_and_symbols_go_by_their_numbers() {
    // 0 binder, 1 bound v0; 2 free v0; 3 binder, 4 free v0.
    assert_eq!(numbers(&["[b0 v0 v0]", "v0", "[b0 v1 v0]"]), [0, 1, 2, 3, 2]);
    assert_eq!(numbers(&["(s5 v5 s5 v5)"]), [0, 1, 2, 1, 2]);
    // 65,541 and 131,077 have the low half 5.
    assert_eq!(numbers(&["(s65541 s5 s65541 s131077)"]), [0, 1, 2, 1, 4]);
}

#[test]
fn applications_go_by_all_their_children() {
    // 0 s7; 1 application, 2 s7, 3 s8; 4 application, 5 s8, 6 s7, 7 to 9 as 1.
    let several = ["s7", "(s7 s8)", "(s8 s7 (s7 s8))"];
    assert_eq!(numbers(&several), [0, 1, 0, 3, 4, 3, 0, 1, 0, 3]);
    // 0 application; 1 application, 2 s1; 3 s1; 4 application, 5, 6; 7, 8.
    assert_eq!(numbers(&["((s1) s1 (s1 s1) (s1))"]), [0, 1, 2, 2, 4, 2, 2, 1, 2]);
    // The same children in two orders, and in two shapes.
    assert_eq!(numbers(&["((s1 s2) (s2 s1))"]), [0, 1, 2, 3, 4, 3, 2]);
    // 0; 1 (2 (3 s1, 4 s2), 5 (6 s3)); 7 (8 (9 s1), 10 (11 s2, 12 s3)).
    let shapes = "(((s1 s2) (s3)) ((s1) (s2 s3)))";
    assert_eq!(numbers(&[shapes]), [0, 1, 2, 3, 4, 5, 6, 7, 8, 3, 10, 4, 6]);
}

#[test]
fn patterns_have_no_numbers() {
    assert_eq!(problem("").numbers(), [0; 0]);
    // 0 application, 1 s1, 2 s2; 3 s2; 4 s1.
    let three = "(?0 (s7 ?1)) = (s1 s2) ; ?2{s1} = s2 ; s1 = s1";
    assert_eq!(problem(three).numbers(), [0, 1, 2, 2, 1]);
}

/// How many pairs of nodes have two numbers, and how many have one; the
/// comparison must say the same of each.
fn pairs(problem: &Problem) -> [usize; 2] {
    let numbers = problem.numbers();
    assert_eq!(numbers.len(), problem.expression_nodes());
    let mut pairs = [0, 0];
    for b in 0..numbers.len() {
        for a in 0..b {
            let compared = problem.compare(a, b).expect("both are there");
            let same = numbers[a] == numbers[b];
            assert_eq!(compared.equal, same, "nodes {a} and {b} of {problem}");
            pairs[usize::from(same)] += 1;
        }
    }
    pairs
}

/// T-08: "T-02's comparison stays, and says yes exactly when the numbers are
/// the same."
#[test]
fn the_comparison_says_yes_just_where_numbers_are_the_same() {
    let mut random = Random(8);
    let problems: Vec<Vec<u8>> = (0..4000).map(|_| problem_bytes(&mut random)).collect();
    let read = problems.iter().filter_map(|bytes| Problem::read(bytes).ok());
    let [two, one] = read
        .map(|problem| pairs(&problem))
        .fold([0, 0], |[two, one], [t, o]| [two + t, one + o]);
    assert!(two > 10_000 && one > 2_000, "{two} and {one}");
}
