//! Whole lists, from the problem's bytes to the last text.

use crate::clock::{head, line, nanoseconds};
use crate::problems;
use compare::hex::hex;
use compare::tree;
use matcher::Problem;

/// The texts of the whole list by the proved matcher.
pub fn by_the_proved(problem: &[u8]) -> Vec<Vec<u8>> {
    let problem = Problem::new(problem).expect("the problem is accepted");
    problem.search().map(|solution| solution.text()).collect()
}

fn by_the_second(problem: &[u8]) -> Vec<Vec<u8>> {
    let problem = second::Problem::read(problem).expect("the problem is accepted");
    let solutions = problem.solutions(usize::MAX).expect("no list is longer");
    solutions.into_iter().map(|solution| solution.text).collect()
}

pub fn table() {
    head("whole lists with their texts, from the problem's bytes on", "solutions");
    for (name, constraints) in problems::listed() {
        let problem = tree::problem(&constraints);
        let texts = by_the_proved(&problem);
        assert_eq!(texts, by_the_second(&problem), "the two differ on {}", hex(&problem));
        let proved = nanoseconds(|| by_the_proved(&problem));
        let second = nanoseconds(|| by_the_second(&problem));
        line(name, &texts.len().to_string(), proved, second);
    }
    println!();
}
