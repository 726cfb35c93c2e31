//! Random pairs of nodes: the proved code, through the program `vectors_texts`, compares them as the second implementation
//! does, every kind of pair comes up often enough to say something, and every wrong comparer is caught.

mod program;

use compare::pairs;
use compare::wrong_pairs::{self, WrongPairs};
use std::ops::Range;

/// Seeds for the wrong ones.
const SEEDS: Range<u64> = 700_000..701_000;

#[test]
fn pairs_agree() {
    let program = program::proved();
    let compared = pairs::random(&|input| program::run(&program, input), 600_000..606_000);
    let tally = compared.unwrap_or_else(|difference| panic!("{difference}"));
    let cases = [
        ("pairs", 40_000),
        ("yes of one node", 2_000),
        ("yes of 2 to 4 nodes", 2_000),
        ("yes of 5 nodes and more", 500),
        ("no at the first pair", 5_000),
        ("no at the last pair of the smaller one", 3_000),
        ("no in between", 3_000),
        ("variables of two binders at one depth", 500),
        ("variables of two binders at one depth, further in", 100),
        ("a variable bound inside one and outside the other", 100),
        ("a node inside the other", 5_000),
        ("a node and itself", 1_000),
        ("no such node", 500),
        ("refused problem", 200),
    ];
    for (case, least) in cases {
        tally.need(case, least).unwrap_or_else(|few| panic!("{few}"));
    }
}

#[test]
fn every_wrong_comparer_is_caught() {
    pairs::random(&wrong_pairs::right, SEEDS).unwrap_or_else(|difference| panic!("{difference}"));
    for wrong in WrongPairs::ALL {
        let compared = pairs::random(&|input| wrong.prints(input), SEEDS);
        assert!(compared.is_err(), "{wrong:?} passes");
    }
}
