//! The numbers of all nodes of random problems: the proved code, through the program `vectors_texts`, gives equal ones just
//! where the second implementation does, every kind of node comes up often enough to say something, and every wrong numbering
//! is caught.

mod program;

use compare::numbers;
use compare::wrong_numbers::{self, WrongNumbers};
use std::ops::Range;

/// Seeds for the wrong ones.
const SEEDS: Range<u64> = 900_000..901_000;

#[test]
fn numbers_agree() {
    let program = program::proved();
    let compared = numbers::random(&|input| program::run(&program, input), 800_000..820_000);
    let tally = compared.unwrap_or_else(|difference| panic!("{difference}"));
    let cases = [
        ("accepted problem", 18_000),
        ("refused problem", 500),
        ("nodes", 400_000),
        ("equal, of one node", 50_000),
        ("equal, of 2 to 4 nodes", 20_000),
        ("equal, of 5 nodes and more", 5_000),
        ("equal, with other names", 5_000),
        ("equal, with a binder outside", 2_000),
        ("equal, with a binder outside, at two depths", 1_000),
        ("not equal, variables of binders at one depth", 5_000),
        ("not equal, variables of binders at one distance", 5_000),
        ("not equal, variables of one name", 5_000),
    ];
    for (case, least) in cases {
        tally.need(case, least).unwrap_or_else(|few| panic!("{few}"));
    }
}

#[test]
fn every_wrong_numbering_is_caught() {
    numbers::random(&wrong_numbers::right, SEEDS).unwrap_or_else(|difference| panic!("{difference}"));
    for wrong in WrongNumbers::ALL {
        let compared = numbers::random(&|input| wrong.prints(input), SEEDS);
        assert!(compared.is_err(), "{wrong:?} passes");
    }
}
