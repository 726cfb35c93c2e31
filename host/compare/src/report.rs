//! What a comparison tells: where two implementations differ, and what it has met.

use crate::hex::hex;
use crate::outline::outline;
use crate::random::Random;
use second::Problem;
use std::collections::BTreeMap;
use std::ops::Range;

/// A difference, in words, with the problem in hexadecimal and in readable notation.
pub fn differ(problem: &[u8], what: &str) -> String {
    let readable = match Problem::read(problem) {
        Ok(read) => read.to_string(),
        Err(refusal) => format!("refused {refusal}: {}", outline(problem)),
    };
    format!("{what}\nproblem {}\nthat is {readable}", hex(problem))
}

/// A difference where two answers are not equal.
pub fn same<T: PartialEq + std::fmt::Debug>(problem: &[u8], what: &str, got: T, expected: T) -> Result<(), String> {
    if got == expected {
        Ok(())
    } else {
        Err(differ(problem, &format!("{what}: got {got:?}, expected {expected:?}")))
    }
}

/// Makes a comparison with the generator of each seed, and names the seed where it fails.
pub fn each_seed(
    seeds: Range<u64>,
    compare: impl Fn(&mut Random, &mut Tally) -> Result<(), String>,
) -> Result<Tally, String> {
    let mut tally = Tally::default();
    for seed in seeds {
        compare(&mut Random::new(seed), &mut tally).map_err(|difference| format!("seed {seed}: {difference}"))?;
    }
    Ok(tally)
}

/// How often a comparison met each case. A case that is never met is not compared.
#[derive(Debug, Default)]
pub struct Tally(BTreeMap<String, usize>);

impl Tally {
    /// One more of them.
    pub fn count(&mut self, case: impl Into<String>) {
        self.add(case, 1);
    }

    /// So many more of them.
    pub fn add(&mut self, case: impl Into<String>, n: usize) {
        *self.0.entry(case.into()).or_default() += n;
    }

    /// How many there were.
    pub fn of(&self, case: &str) -> usize {
        self.0.get(case).copied().unwrap_or(0)
    }

    /// An error where there were fewer than `least`: the comparison says too little then.
    pub fn need(&self, case: &str, least: usize) -> Result<(), String> {
        let met = self.of(case);
        if met < least {
            return Err(format!(
                "only {met} cases of '{case}', {least} are needed; met: {self:?}"
            ));
        }
        Ok(())
    }
}
