//! Choices and rows.

use super::notation::problem;
use crate::{Choice, Row};

/// A row of one choice.
fn row(nodes: &[usize]) -> Row {
    vec![nodes.iter().copied().collect()]
}

#[test]
fn equal_up_to_bound_names_and_by_the_very_binder() {
    let kept = problem("[b0 v0 ?0{v0}] = [b0 v0 ([b0 v1 v0] [b0 v2 v0] [b0 v0 v0] v0)]");
    // In the face: 0 application, 1 binder, 2 v0, 3 binder, 4 v0, 5 binder,
    // 6 the inner v0, 7 v0.
    assert!(kept.is_row(&row(&[1, 3])));
    assert!(!kept.is_row(&row(&[1, 5])));
    assert!(kept.is_row(&row(&[2, 4, 7])));
    assert!(!kept.is_row(&row(&[6])));
    assert!(kept.is_row(&row(&[5])));
    assert!(kept.is_row(&row(&[0])));
    assert!(!kept.is_row(&row(&[8])));
    // {0}, {5}, the empty set, 3 subsets of {1, 3} and 7 of {2, 4, 7}.
    assert_eq!(kept.rows(99).unwrap().len(), 13);
}

#[test]
fn different_binders_of_one_name_differ() {
    // Around the face there are two binders of variable 0 or 1.
    let two = problem("[b0 v0 [b0 v1 ?0{v0}]] = [b0 v0 [b0 v1 (v0 v1 v0 v3)]]");
    assert!(two.is_row(&row(&[1, 3])));
    assert!(!two.is_row(&row(&[1, 2])));
    assert!(two.is_row(&row(&[4])));
}

#[test]
fn rows_of_two_functions() {
    let two = problem("(?1{s1} ?0{s1}) = (s1 (s1))");
    // Function 0 faces (s1), function 1 faces s1.
    let [zero, one, none]: [Choice; 3] = [Choice::from([0]), Choice::from([1]), Choice::new()];
    let expected: Vec<Row> = [&zero, &one, &none]
        .iter()
        .flat_map(|first| {
            [
                vec![(*first).clone(), zero.clone()],
                vec![(*first).clone(), none.clone()],
            ]
        })
        .collect();
    assert_eq!(two.rows(6), Some(expected));
    assert_eq!(two.rows(5), None);
}

#[test]
fn a_letter_used_both_ways_leaves_no_rows() {
    for text in ["?0{?0} = s1", "?0{s1} = s1 ; ?0 = s1", "?1{?0} = s1 ; ?0{s1} = s1"] {
        let both = problem(text);
        assert!(!both.has_rows());
        assert_eq!((both.rows(0), both.row_count()), (Some(vec![]), Some(0)));
        // No choice for a function, a choice without hole, and a hole at the root.
        let functions = both.functions().len();
        let choices = |choice| vec![choice; functions];
        for row in [Row::new(), choices(Choice::new()), choices(Choice::from([0]))] {
            assert!(!both.is_row(&row), "{text}");
            assert_eq!(both.write(&row), Err(16), "{text}");
        }
    }
}

#[test]
fn many_rows_are_only_counted() {
    let face = format!("({})", vec!["s1"; 63].join(" "));
    let functions: Vec<String> = (0..8).map(|i| format!("?{i}{{s1}} = {face}")).collect();
    let large = problem(&functions.join(" ; "));
    assert_eq!(large.rows(usize::MAX), None);
    assert_eq!(large.solutions(3), None);
    let full: Choice = (1..64).collect();
    let text = large.write(&vec![full; 8]).unwrap();
    assert_eq!(large.check(&text), Ok(true));
    assert_eq!(large.write(&vec![Choice::from([0]); 8]), Err(17));
}

/// T-10: a face of 256 nodes.
#[test]
fn more_rows_than_128_bits_count() {
    let large = problem(&format!("?0{{s1}} = ({})", vec!["s1"; 255].join(" ")));
    assert_eq!(large.face_nodes(), Some(vec![256]));
    assert_eq!((large.rows(usize::MAX), large.row_count()), (None, None));
    // The root is first, then come the choices with node 1, the full one first.
    assert_eq!(large.rank(&row(&[0])), Some(0));
    let full: Vec<usize> = (1..256).collect();
    assert_eq!(large.rank(&row(&full)), Some(1));
    assert_eq!(large.rank(&row(&full[..253])), Some(4));
    assert_eq!(large.rank(&row(&[])), None);
    assert!(large.write(&row(&full)).is_ok());
    assert_eq!(large.write(&row(&[256])), Err(16));
}

/// The s1 of an application stand at nodes 1, 64, 128 and 255, and every other
/// symbol comes once.
#[test]
fn rows_with_nodes_far_apart() {
    let far = [1, 64, 128, 255];
    let symbol = |node: usize| match far.contains(&node) {
        true => "s1".to_string(),
        false => format!("s{}", 1000 + node),
    };
    let symbols: Vec<String> = (1..256).map(symbol).collect();
    let large = problem(&format!("?0{{s1}} = ({})", symbols.join(" ")));
    // The empty set, the root, 251 symbols by themselves, 15 subsets of s1.
    let rows = large.rows(1_000).unwrap();
    assert_eq!(rows.len(), 268);
    let nodes = |row: &Row| row[0].iter().copied().collect::<Vec<usize>>();
    assert_eq!(nodes(&rows[0]), [0]);
    assert_eq!(nodes(&rows[1]), [1, 64, 128, 255]);
    assert_eq!(nodes(&rows[2]), [1, 64, 128]);
    assert_eq!(nodes(&rows[5]), [1, 128, 255]);
    assert_eq!(nodes(&rows[8]), [1]);
    assert_eq!(nodes(&rows[9]), [2]);
    let solutions = large.solutions(1_000).unwrap();
    assert_eq!(solutions.len(), 16);
    assert_eq!(nodes(&solutions[0].row), far);
    assert_eq!(nodes(&solutions[8].row), [64, 128, 255]);
    assert_eq!(nodes(&solutions[14].row), [255]);
    assert_eq!(nodes(&solutions[15].row), []);
}

#[test]
fn a_rank_is_the_place_in_the_list() {
    let texts = [
        "?0{s1} = (s1 s2 s1 (s2 s1) s1)",
        "[b0 v0 ?0{v0}] = [b0 v0 ([b0 v1 v0] [b0 v2 v0] [b0 v0 v0] v0)]",
        "(?1{s1} ?0{?2}) = ((s1 s1 s2) (s1 (s1) (s1)))",
        "?2 = s1",
    ];
    for problem in texts.map(problem) {
        let rows = problem.rows(1_000).unwrap();
        assert_eq!(problem.row_count(), Some(rows.len() as u128));
        for (k, row) in rows.iter().enumerate() {
            assert_eq!(problem.rank(row), Some(k as u128));
        }
    }
    assert_eq!(problem("s1 = s2").row_count(), Some(0));
}
