//! T-13: the proved writer of the longest problem agrees with the second implementation, and the lists of what it writes are
//! as long as T-13 says.

use compare::lists;
use compare::longest::agree;
use compare::report::Tally;
use compare::subject::Proved;
use compare::wrong_longest::WrongLongest;
use matcher::raw::{self, LARGEST_PROBLEM, OK};

#[test]
fn every_number_of_nodes_and_buffer_agrees() {
    let tally = agree(&raw::longest).unwrap_or_else(|difference| panic!("{difference}"));
    for (case, least) in [("written", 700), ("refused 28", 90), ("refused 29", 700)] {
        tally.need(case, least).unwrap_or_else(|few| panic!("{few}"));
    }
}

#[test]
fn every_wrong_writer_is_caught() {
    for wrong in WrongLongest::ALL {
        let writes = move |nodes: u32, out: &mut [u8], written: &mut usize| wrong.write(nodes, out, written);
        assert!(agree(&writes).is_err(), "nothing catches {wrong:?}");
    }
}

/// "It has 2^(n-1) + 1 solutions": the whole lists, row by row and text by text, are the second implementation's.
#[test]
fn whole_lists_agree() {
    for nodes in 1..=10 {
        let (mut out, mut length) = ([0; LARGEST_PROBLEM], 0);
        assert_eq!(raw::longest(nodes, &mut out, &mut length), OK);
        let mut tally = Tally::default();
        lists::whole(&Proved, &out[..length], &mut tally).unwrap_or_else(|difference| panic!("{difference}"));
        assert_eq!(tally.of("solutions"), (1 << (nodes - 1)) + 1, "{nodes} nodes");
    }
}
