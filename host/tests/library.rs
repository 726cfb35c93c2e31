//! The library as a new user calls it.

use matcher::{text_of, Given, Problem, Refusal, ResumeError, Solution, Step, Term, Verdict, SAVED_BYTES};
use std::collections::HashSet;

/// (P(1), 1+1), a problem of four solutions: 1 is symbol 1, + is symbol 10.
const FOUR: [u8; 30] = [
    7, 0, 27, 6, 0, 6, 0, 1, 0, 2, 0, 1, 3, 0, 15, 1, 0, 2, 0, 10, 1, 0, 2, 0, 1, 1, 0, 2, 0, 1,
];

/// (P(X), s), document 01's first example.
const TWO: [u8; 16] = [7, 0, 13, 6, 0, 5, 0, 5, 0, 1, 1, 1, 0, 2, 0, 5];

#[test]
fn solutions_have_numbers_and_holes() {
    let problem = Problem::new(&FOUR).unwrap();
    let listed: Vec<(u64, Option<Vec<usize>>)> = problem.search().map(|s| (s.number(), s.holes(0))).collect();
    let holes = [vec![2, 3], vec![2], vec![3], vec![]].map(Some);
    assert_eq!(listed, (1..).zip(holes).collect::<Vec<_>>());
}

/// Functions 3 and 7, and metavariable 5 between them: (?7{s1} ?3{?5}) shall equal (s1 s2).
fn two_functions() -> Problem {
    let calls = [
        Term::function(7, Term::symbol(1)),
        Term::function(3, Term::metavariable(5)),
    ];
    let symbols = [Term::symbol(1), Term::symbol(2)];
    Problem::of([(Term::application(calls), Term::application(symbols))]).unwrap()
}

#[test]
fn a_metavariable_is_asked_for_by_its_number() {
    let problem = two_functions();
    let solution = problem.search().next().unwrap();
    let [hole, two] = [Term::hole(), Term::symbol(2)];
    let filling = [
        (3, Given::Body(hole.clone())),
        (5, Given::Value(two)),
        (7, Given::Body(hole)),
    ];
    assert_eq!(solution.filling(), filling);
    assert_eq!(text_of(filling.clone()), Ok(solution.text()));
    for (number, given) in filling {
        assert_eq!(solution.given(number), Some(given));
    }
    assert!([0, 4, 8, 32, 255]
        .iter()
        .all(|number| solution.given(*number).is_none()));
    let last = problem.search().last().unwrap();
    let given: Vec<String> = last
        .filling()
        .iter()
        .map(|(number, given)| format!("{number} {given}"))
        .collect();
    assert_eq!(given, ["3 s2", "5 open", "7 s1"]);
}

#[test]
fn holes_of_a_function_and_of_none() {
    let problem = two_functions();
    let holes: Vec<_> = problem
        .search()
        .map(|s| [3, 7].map(|number| s.holes(number).unwrap()))
        .collect();
    let (is_hole, none) = (vec![0], vec![]);
    let both = [
        [&is_hole, &is_hole],
        [&is_hole, &none],
        [&none, &is_hole],
        [&none, &none],
    ];
    assert_eq!(holes, both.map(|pair| pair.map(Vec::clone)));
    let solution = problem.search().next().unwrap();
    assert!([0, 1, 5, 8, 31, 255]
        .iter()
        .all(|number| solution.holes(*number).is_none()));
}

#[test]
fn debug_is_short() {
    let problem = Problem::new(&FOUR).unwrap();
    let mut search = problem.search();
    assert_eq!(format!("{search:?}"), "Search { found: 0, place: [8000000000000000] }");
    let solution = search.next().unwrap();
    assert_eq!(
        format!("{solution:?}"),
        "Solution { number: 1, row: [3000000000000000] }"
    );
    assert_eq!(
        format!("{:?}", search.by_ref().last().unwrap()),
        "Solution { number: 4, row: [] }"
    );
    assert_eq!(format!("{search:?}"), "Search { found: 4, place: past the last }");
    let digits = "07000D06000500050001010100020005";
    let of = |times: usize| format!("{:?}", Problem::new(&TWO.repeat(times)).unwrap());
    assert_eq!(of(1), format!("Problem({digits})"));
    assert_eq!(of(2), format!("Problem({digits}{digits})"));
    assert_eq!(of(3), format!("Problem({digits}{digits}.. 48 bytes)"));
}

#[test]
fn solutions_are_kept_in_sets() {
    let problem = Problem::new(&FOUR).unwrap();
    let set: HashSet<Solution> = problem.search().chain(problem.search()).collect();
    assert_eq!(set.len(), 4);
}

#[test]
fn a_search_goes_on_where_it_was_suspended() {
    let problem = Problem::new(&FOUR).unwrap();
    let whole: Vec<Vec<u8>> = problem.search().map(|s| s.text()).collect();
    assert_eq!(whole.len(), 4);
    for stop in 0..=whole.len() {
        let mut search = problem.search();
        let mut texts: Vec<Vec<u8>> = search.by_ref().take(stop).map(|s| s.text()).collect();
        let mut resumed = problem.resume(&search.suspend()).unwrap();
        assert_eq!(resumed.found(), stop as u64);
        texts.extend(resumed.by_ref().map(|s| s.text()));
        assert_eq!(texts, whole, "stopped after {stop}");
        assert_eq!(resumed.call(1), Ok(Step::End));
        assert_eq!(resumed.found(), whole.len() as u64);
    }
}

#[test]
fn an_allowance_of_0_is_refused_and_moves_nothing() {
    let problem = Problem::new(&FOUR).unwrap();
    let mut search = problem.search();
    let before = search.suspend();
    assert_eq!(search.call(0), Err(Refusal::NoAllowance));
    assert_eq!(search.suspend(), before);
    assert_eq!(search.count(), 4);
}

#[test]
fn bytes_that_are_no_suspended_search_are_told() {
    let problem = Problem::new(&FOUR).unwrap();
    let saved = problem.search().suspend();
    for length in [0, SAVED_BYTES - 1] {
        assert_eq!(problem.resume(&saved[..length]).unwrap_err(), ResumeError::Length);
    }
    for at in 0..SAVED_BYTES {
        let mut damaged = saved;
        damaged[at] ^= 1;
        assert_eq!(problem.resume(&damaged).unwrap_err(), ResumeError::Damaged, "byte {at}");
    }
    let other = Problem::new(&TWO).unwrap();
    assert_eq!(other.resume(&saved).unwrap_err(), ResumeError::OtherProblem);
    assert_eq!(problem.resume(&saved).unwrap().count(), 4);
}

/// Searches of [`FOUR`] that this crate suspended before T-10, when places had nine words: at the start, after the first
/// solution, and at the end. They are what `Search::suspend` of commit c4b30b8 gave.
const EARLIER: [&str; 3] = [
    "54565331EB62A82492F3AF1000000000000000008000000000000000\
     000000000000000000000000000000000000000000000000000000000000000000000000\
     0000000000000000000000000000000000000000000000000000000032551852A87E1182",
    "54565331EB62A82492F3AF1000000000000000012000000000000000\
     000000000000000000000000000000000000000000000000000000000000000000000000\
     000000000000000000000000000000000000000000000000000000003E7055A44F3186F5",
    "54565331EB62A82492F3AF1000000000000000040000000000000000\
     000000000000000000000000000000000000000000000000000000000000000000000000\
     0000000000000000000000000000000000000000000000000000000134F356030A067F69",
];

fn bytes(digits: &str) -> Vec<u8> {
    let byte = |pair: &[u8]| {
        std::str::from_utf8(pair)
            .ok()
            .and_then(|pair| u8::from_str_radix(pair, 16).ok())
    };
    let pairs = digits.as_bytes().chunks(2);
    pairs.map(|pair| byte(pair).expect("two digits")).collect()
}

#[test]
fn a_search_that_an_earlier_version_suspended_is_told() {
    let problem = Problem::new(&FOUR).unwrap();
    for saved in EARLIER.map(bytes) {
        let error = problem.resume(&saved).unwrap_err();
        assert_eq!(error, ResumeError::EarlierVersion);
        assert_eq!(
            error.to_string(),
            "the search was suspended by an earlier version, whose places had 9 words and not 33"
        );
        // cut off or made longer, it is no search of any version
        for length in [4, saved.len() - 1, SAVED_BYTES] {
            let mut other = saved.clone();
            other.resize(length, 0);
            let told = if length == SAVED_BYTES {
                ResumeError::Damaged
            } else {
                ResumeError::Length
            };
            assert_eq!(problem.resume(&other).unwrap_err(), told);
        }
    }
}

/// Symbols that are all different but for symbol 1, at these nodes of the application.
fn ones_at(nodes: &[usize]) -> Term {
    let symbol = |node| if nodes.contains(&node) { 1 } else { 1000 + node as u32 };
    Term::application((1..=255).map(|node| Term::symbol(symbol(node))))
}

/// T-10: the face has 256 nodes, and a hole in each of its set's four words.
#[test]
fn holes_in_every_word() {
    let nodes = [63, 64, 128, 255];
    let problem = Problem::of([(Term::function(0, Term::symbol(1)), ones_at(&nodes))]).unwrap();
    let mut search = problem.search();
    let first = search.next().unwrap();
    assert_eq!(first.holes(0), Some(nodes.to_vec()));
    assert_eq!(
        format!("{first:?}"),
        "Solution { number: 1, row: [0000000000000001800000000000000080000000000000000000000000000001] }"
    );
    let saved = search.suspend();
    let rest: Vec<_> = search.map(|solution| solution.holes(0).unwrap()).collect();
    let resumed: Vec<_> = problem
        .resume(&saved)
        .unwrap()
        .map(|solution| solution.holes(0).unwrap())
        .collect();
    assert_eq!(resumed, rest);
    assert_eq!(rest.len(), 15);
    assert_eq!(rest[0], [63, 64, 128]);
    assert_eq!(rest[14], []);
}

#[test]
fn texts_are_checked() {
    let problem = Problem::new(&TWO).unwrap();
    let texts: Vec<Vec<u8>> = problem.search().map(|s| s.text()).collect();
    for text in &texts {
        assert_eq!(problem.check(text), Ok(Verdict::Yes));
        assert_eq!(problem.check(&text[1..]), Err(Refusal::TextMalformed));
    }
    assert_eq!(problem.check(&[]), Ok(Verdict::No));
    assert_eq!(problem.check(&[0; 8193]), Err(Refusal::TextTooLong));
}

#[test]
fn a_refusal_says_what_it_means() {
    assert_eq!(Problem::new(&FOUR).map(|problem| problem.search().count()), Ok(4));
    let refusal = Problem::new(&FOUR[..29]).unwrap_err();
    assert_eq!(refusal, Refusal::LengthPastEnd);
    assert_eq!(
        refusal.to_string(),
        "refused 3: a field's length goes past the enclosing end"
    );
}

/// T-13's problem for three nodes, by hand: ?0{?1} shall equal (s0 s0).
const THREE: [u8; 24] = [7, 0, 21, 6, 0, 5, 0, 5, 0, 1, 1, 3, 0, 10, 1, 0, 2, 0, 0, 1, 0, 2, 0, 0];

#[test]
fn the_longest_list_for_a_number_of_nodes() {
    assert_eq!(Problem::longest(3).unwrap().bytes(), THREE);
    for nodes in 1..=12 {
        let problem = Problem::longest(nodes).unwrap();
        assert_eq!(problem.search().count(), (1 << (nodes - 1)) + 1, "{nodes} nodes");
    }
    let texts: Vec<String> = Problem::longest(3)
        .unwrap()
        .search()
        .map(|solution| [0, 1].map(|m| solution.given(m).unwrap().to_string()).join(", "))
        .collect();
    let expected = ["_, (s0 s0)", "(_ _), s0", "(_ s0), s0", "(s0 _), s0", "(s0 s0), open"];
    assert_eq!(texts, expected);
}

#[test]
fn every_number_of_nodes_from_1_to_256_has_a_problem() {
    for nodes in 1..=256 {
        let problem = Problem::longest(nodes).unwrap();
        let first = problem.search().next().unwrap();
        assert_eq!(first.holes(0), Some(vec![0]), "{nodes} nodes");
    }
    for nodes in [0, 257, 65_537, u32::MAX] {
        assert_eq!(Problem::longest(nodes), Err(Refusal::NodesOutOfRange));
    }
}
