//! No comparison would pass a useless matcher, and every wrong one is caught by some comparison.

use compare::subject::Proved;
use compare::wrong::Wrong;
use compare::wrong_sets::WrongSets;
use compare::{large, COMPARISONS};
use std::ops::Range;

const SEEDS: Range<u64> = 500_000..501_000;

/// For large faces.
const FEW_SEEDS: Range<u64> = 500_000..500_150;

/// The proved matcher passes here: what is caught below is the fault and nothing else.
fn the_proved_one_passes() {
    for (name, comparison) in COMPARISONS {
        comparison(&Proved, SEEDS).unwrap_or_else(|difference| panic!("{name}: {difference}"));
    }
}

#[test]
fn every_comparison_catches_the_useless_matchers() {
    the_proved_one_passes();
    for wrong in [Wrong::Refuses, Wrong::Ends] {
        for (name, comparison) in COMPARISONS {
            assert!(comparison(&wrong, SEEDS).is_err(), "{name} passes {wrong:?}");
        }
    }
}

#[test]
fn every_wrong_matcher_is_caught() {
    the_proved_one_passes();
    for wrong in Wrong::ALL {
        let caught = COMPARISONS
            .iter()
            .any(|(_, comparison)| comparison(&wrong, SEEDS).is_err());
        assert!(caught, "nothing catches {wrong:?}");
    }
}

#[test]
fn every_wrong_set_of_nodes_is_caught() {
    large::random(&Proved, FEW_SEEDS).unwrap_or_else(|difference| panic!("{difference}"));
    for wrong in [Wrong::Refuses, Wrong::Ends] {
        assert!(large::random(&wrong, FEW_SEEDS).is_err(), "it passes {wrong:?}");
    }
    for wrong in WrongSets::ALL {
        assert!(large::random(&wrong, FEW_SEEDS).is_err(), "it passes {wrong:?}");
    }
}
