//! Two nodes compared, worked out by hand. In the comments `n/m` is the pair of
//! nodes n and m.

use super::notation::{bytes, hex, problem};
use crate::{Compared, Problem};

/// Yes after so many pairs.
fn yes(pairs: usize) -> Option<Compared> {
    Some(Compared { equal: true, pairs })
}

/// No at the last of so many pairs.
fn no(pairs: usize) -> Option<Compared> {
    Some(Compared { equal: false, pairs })
}

/// The answer for two nodes of a problem, the same whichever comes first.
fn answer(text: &str, a: usize, b: usize) -> Option<Compared> {
    let problem = problem(text);
    let answer = problem.compare(a, b);
    assert_eq!(problem.compare(b, a), answer, "{text}");
    answer
}

/// The answer for two nodes of one expression.
fn says(expression: &str, a: usize, b: usize) -> Option<Compared> {
    answer(&format!("?0 = {expression}"), a, b)
}

#[test]
fn a_variable_bound_inside_only_one_disagrees() {
    // 0 binder, 1 application, 2 v0, 3 binder, 4 application, 5 v0, 6 s3. All
    // v0 belong to node 0, which is inside 0 and outside 3: 0/3, 1/4, 2/5.
    assert_eq!(says("[b0 v0 (v0 [b0 v1 (v0 s3)])]", 0, 3), no(3));
    // Here 5 belongs to 3: 2/5 agrees, and 3/6 is a binder and a symbol.
    assert_eq!(says("[b0 v0 (v0 [b0 v1 (v1 s3)])]", 0, 3), no(4));
    assert_eq!(says("[b0 v0 (v0 [b0 v0 (v0 s3)])]", 0, 3), no(4));
    // Here 2 is free, and 5 too: 2/5 agrees; but 5 may belong to 3.
    assert_eq!(says("[b0 v0 (v7 [b0 v1 (v7 s3)])]", 0, 3), no(4));
    assert_eq!(says("[b0 v0 (v7 [b0 v7 (v7 s3)])]", 0, 3), no(3));
}

#[test]
fn one_binder_at_two_places_of_the_walk_disagrees() {
    // 0 binder, 1 application, 2 v0, 3 binder, 4 application, 5 v1, 6 binder,
    // 7 application, 8, 9 s3. Pairs: 0/3, 1/4, 2/5 (each by the first binder of
    // its side), 3/6, 4/7, 5/8, 6/9. Node 5 belongs to the second binder on its
    // side, which is node 3.
    let third = |name| format!("[b0 v0 (v0 [b0 v1 (v1 [b0 v2 ({name} s3)])])]");
    // Node 8 belongs to node 3 as well, the first binder on its side.
    assert_eq!(says(&third("v1"), 0, 3), no(6));
    // It belongs to node 6, the second on its side: 6/9 is the first to differ.
    assert_eq!(says(&third("v2"), 0, 3), no(7));
    // It belongs to node 0, outside its side.
    assert_eq!(says(&third("v0"), 0, 3), no(6));
}

#[test]
fn variables_of_two_binders_outside_disagree() {
    // 0 application, 1 binder, 2 its variable, 3 binder, 4 its variable.
    for expression in ["([b0 v0 v0] [b0 v1 v1])", "([b0 v0 v0] [b0 v0 v0])"] {
        assert_eq!(says(expression, 2, 4), no(1));
        assert_eq!(says(expression, 1, 3), yes(2));
    }
    // 0 application; 1 binder, 2 application, 3 s1, 4 v0; 5 to 8 the same. Node
    // 1 and node 5 have the same depth.
    let twice = "([b0 v0 (s1 v0)] [b0 v0 (s1 v0)])";
    assert_eq!(says(twice, 1, 5), yes(4));
    assert_eq!(says(twice, 2, 6), no(3));
    assert_eq!(says(twice, 3, 7), yes(1));
    assert_eq!(says(twice, 4, 8), no(1));
}

#[test]
fn each_variable_is_bound_by_the_nearest_around_it() {
    // 0 binder, 1 application, 2 v0, 3 binder, 4 v1: both variables are bound
    // directly above, by 0 and by 3.
    assert_eq!(says("[b0 v0 (v0 [b0 v1 v1])]", 2, 4), no(1));
    // The same nodes, and both belong to 0.
    assert_eq!(says("[b0 v0 (v0 [b0 v1 v0])]", 2, 4), yes(1));
    // 0 binder, 1 binder, 2 application, 3, 4: by the same or by two of these.
    assert_eq!(says("[b0 v0 [b0 v1 (v0 v0)]]", 3, 4), yes(1));
    assert_eq!(says("[b0 v0 [b0 v1 (v1 v1)]]", 3, 4), yes(1));
    assert_eq!(says("[b0 v0 [b0 v1 (v0 v1)]]", 3, 4), no(1));
    assert_eq!(says("[b0 v0 [b0 v0 (v0 v0)]]", 3, 4), yes(1));
    // 0 binder, 1 application, 2 binder, 3 of 2, 4 of 0 again.
    assert_eq!(says("[b0 v0 ([b0 v0 v0] v0)]", 3, 4), no(1));
}

#[test]
fn a_variable_bound_outside_both_by_one_binder_agrees() {
    // 0 binder, 1 application; 2 application, 3 v0, 4 s1; 5 application, 6 v0,
    // 7 s1; 8 application, 9 s1, 10 v0; 11 binder, 12 application, 13 v0, 14 s1.
    let around = "[b0 v0 ((v0 s1) (v0 s1) (s1 v0) [b0 v1 (v0 s1)])]";
    assert_eq!(says(around, 2, 5), yes(3));
    assert_eq!(says(around, 3, 10), yes(1));
    assert_eq!(says(around, 2, 8), no(2));
    // One binder more around it changes nothing.
    assert_eq!(says(around, 5, 12), yes(3));
    assert_eq!(says(around, 6, 13), yes(1));
    // If that binder takes the name, 6/13 and the second pair of 5/12 disagree.
    let taken = "[b0 v0 ((v0 s1) (v0 s1) (s1 v0) [b0 v0 (v0 s1)])]";
    assert_eq!(says(taken, 5, 12), no(2));
    assert_eq!(says(taken, 6, 13), no(1));
}

#[test]
fn a_node_is_equal_to_itself() {
    // 0 binder, 1 application, 2 v0, 3 binder, 4 application, 5 v0, 6 s3.
    let sizes = [7, 6, 1, 4, 3, 1, 1];
    for (node, size) in sizes.into_iter().enumerate() {
        assert_eq!(says("[b0 v0 (v0 [b0 v1 (v0 s3)])]", node, node), yes(size));
    }
}

#[test]
fn symbols_go_by_their_numbers() {
    assert_eq!(says("(s1 s2 s1)", 1, 2), no(1));
    assert_eq!(says("(s1 s2 s1)", 1, 3), yes(1));
    assert_eq!(says("(s1 s2 s1)", 2, 3), no(1));
    // 256 is 1 with its two bytes exchanged.
    assert_eq!(says("(s1 s256)", 1, 2), no(1));
}

#[test]
fn symbols_of_four_bytes_are_not_cut() {
    // 65,536 + n has the same low half as n, and 131,072 has that of 65,536.
    let wide = "(s0 s65536 s65537 s1 s65536 s131072 s65535 s4294967295 s4294967295)";
    assert_eq!(says(wide, 1, 2), no(1));
    assert_eq!(says(wide, 3, 4), no(1));
    assert_eq!(says(wide, 2, 3), no(1));
    assert_eq!(says(wide, 2, 5), yes(1));
    assert_eq!(says(wide, 2, 6), no(1));
    assert_eq!(says(wide, 7, 8), no(1));
    assert_eq!(says(wide, 8, 9), yes(1));
    // 0 application; 1 application, 2 s65536, 3 s2; 4 to 6; 7 to 9.
    let parts = "((s65536 s2) (s65536 s2) (s0 s2))";
    assert_eq!(says(parts, 1, 4), yes(3));
    assert_eq!(says(parts, 1, 7), no(2));
}

#[test]
fn child_counts_are_compared_before_the_children() {
    // 0 application; 1 application, 2 s1, 3 s2; 4 application, 5 s1, 6 s2,
    // 7 s3; 8 application, 9 s1, 10 s2; 11 application, 12 s1.
    let counts = "((s1 s2) (s1 s2 s3) (s1 s2) (s1))";
    assert_eq!(says(counts, 1, 4), no(1));
    assert_eq!(says(counts, 1, 8), yes(3));
    assert_eq!(says(counts, 1, 11), no(1));
    // 0 application; 1 application, 2 application, 3 s1, 4 s2; 5 application,
    // 6 application, 7 s1, 8 s2, with s2 one level further up: 1/5 differs.
    assert_eq!(says("(((s1 s2)) ((s1) s2))", 1, 5), no(1));
    // 0 application; 1 application, 2 (3 s1, 4 s2), 5 (6 s3); 7 application,
    // 8 (9 s1), 10 (11 s2, 12 s3): 1/7, then 2/8 with two children and one.
    assert_eq!(says("(((s1 s2) (s3)) ((s1) (s2 s3)))", 1, 7), no(2));
}

#[test]
fn free_variables_go_by_their_numbers() {
    assert_eq!(says("(v5 v5)", 1, 2), yes(1));
    assert_eq!(says("(v5 v6)", 1, 2), no(1));
    // 0 application, 1 v5, 2 binder, 3 v5: free in both places.
    assert_eq!(says("(v5 [b0 v6 v5])", 1, 3), yes(1));
    // 0 application; 1 binder, 2 v5; 3 binder, 4 v5: all free.
    assert_eq!(says("([b0 v6 v5] [b0 v7 v5])", 1, 3), yes(2));
    assert_eq!(says("([b0 v6 v5] [b0 v7 v5])", 2, 4), yes(1));
}

#[test]
fn a_free_variable_is_no_bound_one_of_its_number() {
    // 0 application, 1 binder, 2 v5 bound, 3 v5 free.
    assert_eq!(says("([b0 v5 v5] v5)", 2, 3), no(1));
    // 0 application; 1 binder, 2 v5 bound; 3 binder, 4 v5 free.
    assert_eq!(says("([b0 v5 v5] [b0 v6 v5])", 1, 3), no(2));
    assert_eq!(says("([b0 v5 v5] [b0 v6 v5])", 2, 4), no(1));
    // Nor is it bound if its number is that of a binder, of a binder's node or
    // of its place among the binders: 0 application, 1 v0, 2 v3, 3 binder, 4 v9,
    // 5 binder, 6 v9.
    for (free, bound) in [(1, 4), (1, 6), (2, 4), (2, 6)] {
        assert_eq!(says("(v0 v3 [b0 v9 v9] [b3 v9 v9])", free, bound), no(1));
    }
}

#[test]
fn names_may_be_shadowed() {
    // 0 application, then four times binder, binder, variable: 1 to 3, 4 to 6,
    // 7 to 9 and 10 to 12. The variable belongs to the inner binder in the
    // first two, and to the outer one in the last two.
    let shadowed = "([b0 v0 [b0 v0 v0]] [b0 v0 [b0 v1 v1]] [b0 v0 [b0 v1 v0]] [b0 v7 [b0 v0 v7]])";
    assert_eq!(says(shadowed, 1, 4), yes(3));
    assert_eq!(says(shadowed, 7, 10), yes(3));
    for (inner, outer) in [(1, 7), (1, 10), (4, 7), (4, 10)] {
        assert_eq!(says(shadowed, inner, outer), no(3));
    }
    assert_eq!(says(shadowed, 2, 5), yes(2));
    // Now 8's variable is bound outside, and so is 11's, by another binder.
    assert_eq!(says(shadowed, 2, 8), no(2));
    assert_eq!(says(shadowed, 8, 11), no(2));
    assert_eq!(says(shadowed, 9, 12), no(1));
}

#[test]
fn a_name_comes_back_where_its_shadow_ends() {
    // 0 application; 1 binder, 2 application, 3 binder, 4 v0 of 3, 5 v0 of 1;
    // 6 binder, 7 application, 8 binder, 9 of 8, 10 of 6.
    assert_eq!(says("([b0 v0 ([b0 v0 v0] v0)] [b0 v1 ([b0 v2 v2] v1)])", 1, 6), yes(5));
    // 10 is a free v2, since the binder at 8 is left: 1/6 to 5/10.
    assert_eq!(says("([b0 v0 ([b0 v0 v0] v0)] [b0 v1 ([b0 v2 v2] v2)])", 1, 6), no(5));
}

#[test]
fn binder_numbers_are_compared_and_bound_names_are_not() {
    assert_eq!(says("([b0 v0 v0] [b1 v0 v0])", 1, 3), no(1));
    assert_eq!(says("([b1 v0 s2] [b256 v0 s2])", 1, 3), no(1));
    assert_eq!(says("([b1 v0 s2] [b1 v9 s2])", 1, 3), yes(2));
    // 0 application, then three times binder, binder, application and three
    // variables: 1 to 6, 7 to 12, 13 to 18.
    let renamed = "([b2 v1 [b3 v2 (v1 v2 v9)]] [b2 v2 [b3 v1 (v2 v1 v9)]] [b2 v2 [b3 v1 (v1 v2 v9)]])";
    assert_eq!(says(renamed, 1, 7), yes(6));
    assert_eq!(says(renamed, 1, 13), no(4));
    assert_eq!(says(renamed, 7, 13), no(4));
    // The inner binder number: 0 application, 1 binder, 2 binder, 3 s1 and
    // 4 binder, 5 binder, 6 s1.
    assert_eq!(says("([b2 v1 [b3 v2 s1]] [b2 v1 [b2 v2 s1]])", 1, 4), no(2));
}

#[test]
fn a_bound_name_does_not_become_that_of_a_free_one() {
    // 0 application; 1 binder, 2 application, 3 bound, 4 free v8; 5 binder,
    // 6 application, 7 bound, 8 free v8 or bound v8.
    assert_eq!(says("([b0 v7 (v7 v8)] [b0 v6 (v6 v8)])", 1, 5), yes(4));
    assert_eq!(says("([b0 v7 (v7 v8)] [b0 v8 (v8 v8)])", 1, 5), no(4));
}

#[test]
fn one_node_inside_the_other() {
    // 0 application, 1 s1, 2 application, 3 s1, 4 s2: 0/2, 1/3, 2/4.
    assert_eq!(says("(s1 (s1 s2))", 0, 2), no(3));
    // 0 to 2 binders, 3 the variable: 0/1, 1/2, 2/3.
    assert_eq!(says("[b0 v0 [b0 v1 [b0 v2 v2]]]", 0, 1), no(3));
    assert_eq!(says("[b0 v0 [b0 v1 [b0 v2 v2]]]", 0, 2), no(2));
    assert_eq!(says("[b0 v0 [b0 v1 [b0 v2 v2]]]", 0, 3), no(1));
    // 0 application, 1 application, 2 s1: 0/1, 1/2.
    assert_eq!(says("((s1))", 0, 1), no(2));
}

#[test]
fn the_first_pair_disagrees() {
    // Kinds: 0 application, 1 s1, 2 application, 3 s1, 4 binder, 5 s1, 6 v1,
    // 7 binder, 8 v1 bound.
    let kinds = "(s1 (s1) [b1 v1 s1] v1 [b1 v1 v1])";
    for (a, b) in [(1, 2), (1, 4), (1, 6), (2, 4), (2, 6), (4, 6), (1, 8), (2, 8), (0, 8)] {
        assert_eq!(says(kinds, a, b), no(1), "{a} {b}");
    }
    assert_eq!(says(kinds, 4, 7), no(2));
    // However much comes after it: 0 application, 1 and 22 applications with 20
    // and 21 children.
    let long = format!("(({}) ({}))", ["s1"; 20].join(" "), ["s1"; 21].join(" "));
    assert_eq!(says(&long, 1, 22), no(1));
}

#[test]
fn the_last_pair_disagrees() {
    // 0 application; 1 application, 2 to 4; 5 application, 6 to 8.
    assert_eq!(says("((s1 s2 s3) (s1 s2 s4))", 1, 5), no(4));
    assert_eq!(says("((s1 s2 s3) (s1 s2 v3))", 1, 5), no(4));
    // 0 application; 1 application and 100 symbols; 102 application and 100.
    let symbols = |last: &str| format!("({} {last})", ["s1"; 99].join(" "));
    let long = format!("({} {})", symbols("s1"), symbols("s2"));
    assert_eq!(says(&long, 1, 102), no(101));
    let same = format!("({} {})", symbols("s2"), symbols("s2"));
    assert_eq!(says(&same, 1, 102), yes(101));
}

#[test]
fn no_pair_is_taken_after_the_first_disagreement() {
    // 0 application; 1 application, 2 (3 s1, 4 s2), 5 (6 s3, 7 s4); 8
    // application, 9 (10 s1, 11 s9), 12 (13 s3, 14 s4): 1/8, 2/9, 3/10, 4/11.
    assert_eq!(says("(((s1 s2) (s3 s4)) ((s1 s9) (s3 s4)))", 1, 8), no(4));
    // The same with a second disagreement at the end.
    assert_eq!(says("(((s1 s2) (s3 s4)) ((s1 s9) (s3 s9)))", 1, 8), no(4));
    // In the body of a binder: 1/7 binder, 2/8 binder, 3/9 application, 4/10.
    assert_eq!(
        says("([b0 v0 [b0 v1 (v0 s1 s1)]] [b0 v0 [b0 v1 (v1 s1 s1)]])", 1, 7),
        no(4)
    );
    // After a binder: 0 application; 1 application, 2 binder, 3 v0, 4 s1, 5 s1;
    // 6 application, 7 binder, 8 v3, 9 s1, 10 s1: 1/6, 2/7, 3/8.
    assert_eq!(says("(([b0 v0 v0] s1 s1) ([b0 v0 v3] s1 s1))", 1, 6), no(3));
}

#[test]
fn nodes_run_on_from_constraint_to_constraint() {
    // 0 binder, 1 application, 2 v0, 3 v3; 4 to 7 the same with other names.
    for second in ["[b0 v1 (v1 v3)]", "[b0 v0 (v0 v3)]"] {
        let two = format!("?0 = [b0 v0 (v0 v3)] ; ?1 = {second}");
        assert_eq!(answer(&two, 0, 4), yes(4));
        // The binders 0 and 4 now are outside, and they are two.
        assert_eq!(answer(&two, 1, 5), no(2));
        assert_eq!(answer(&two, 2, 6), no(1));
        assert_eq!(answer(&two, 3, 7), yes(1));
        assert_eq!(answer(&two, 3, 8), None);
    }
    // Nodes of patterns have no number: 0 application, 1 s1, 2 s2; 3 s2; 4 s1.
    let three = "(?0 (s7 ?1)) = (s1 s2) ; ?2{s1} = s2 ; s1 = s1";
    assert_eq!(answer(three, 2, 3), yes(1));
    assert_eq!(answer(three, 1, 4), yes(1));
    assert_eq!(answer(three, 3, 4), no(1));
    assert_eq!(answer(three, 4, 5), None);
}

#[test]
fn depth_32_is_walked_to_the_end() {
    // Nodes 0 to 30 are applications of one term, and node 31 is the symbol:
    // the 31st pair of 0 and 1 is 30/31.
    let nested = format!("{}s1{}", "(".repeat(31), ")".repeat(31));
    assert_eq!(says(&nested, 0, 0), yes(32));
    assert_eq!(says(&nested, 0, 1), no(31));
    // 31 binders of one name; the variable is that of the innermost, node 30.
    let bound = format!("{}v0{}", "[b0 v0 ".repeat(31), "]".repeat(31));
    assert_eq!(says(&bound, 0, 0), yes(32));
    assert_eq!(says(&bound, 0, 1), no(31));
    // In two constraints: 0 to 31 and 32 to 63.
    let two = format!("?0 = {bound} ; ?1 = {bound}");
    assert_eq!(answer(&two, 0, 32), yes(32));
    assert_eq!(answer(&two, 30, 62), yes(2));
    assert_eq!(answer(&two, 31, 63), no(1));
}

#[test]
fn all_accepted_problems_have_an_answer() {
    // No rows: shapes disagree, or a letter is used both ways. 0 application,
    // 1 s2, 2 s2.
    for text in ["s1 = (s2 s2)", "?0{?0} = (s2 s2)", "[b0 v0 ?0] = (s2 s2)"] {
        assert_eq!(answer(text, 1, 2), yes(1));
        assert_eq!(answer(text, 0, 2), no(1));
    }
    // A face of 256 nodes: 0 application, 1 to 255.
    let face = format!("?0{{s1}} = ({})", ["s1"; 255].join(" "));
    assert_eq!(answer(&face, 0, 0), yes(256));
    // A value may have more: 0 application, 1 to 700.
    let large = format!("?0 = ({})", ["s1"; 700].join(" "));
    assert_eq!(answer(&large, 0, 0), yes(701));
    assert_eq!(answer(&large, 1, 700), yes(1));
}

#[test]
fn a_node_that_is_not_there() {
    assert_eq!(answer("?0 = s1", 0, 0), yes(1));
    for node in [1, 2, 31, 4096, usize::MAX] {
        assert_eq!(answer("?0 = s1", 0, node), None);
        assert_eq!(answer("?0 = s1", node, node), None);
        assert_eq!(answer("", 0, node), None);
    }
    // Without a constraint there is no node 0.
    assert_eq!(answer("", 0, 0), None);
}

/// The answer for nodes 0 and 1 of these bytes.
fn of_bytes(bytes: &[u8]) -> Result<Option<Compared>, u8> {
    Problem::read(bytes).map(|problem| problem.compare(0, 1))
}

#[test]
fn a_refused_problem_has_no_answer() {
    // An accepted one, for comparison: 0 application, 1 s1, 2 s1.
    assert_eq!(
        of_bytes(&hex("070012 0100020005 03000A 0100020001 0100020001")),
        Ok(no(1))
    );
    assert_eq!(of_bytes(&[0; 4097]), Err(1));
    assert_eq!(of_bytes(&hex("0700")), Err(2));
    assert_eq!(of_bytes(&bytes("s1 = (s1 ?0)")), Err(8));
    assert_eq!(of_bytes(&hex("07000F 0100020005 030007 01000400000001")), Err(25));
    // After reading: nine functions, then a face of 257 nodes.
    let nine: Vec<String> = (0..9).map(|n| format!("?{n}{{s1}} = (s1 s1)")).collect();
    assert_eq!(of_bytes(&bytes(&nine.join(" ; "))), Err(13));
    let face = format!("?0{{s1}} = ({})", ["s1"; 256].join(" "));
    assert_eq!(of_bytes(&bytes(&face)), Err(14));
}
