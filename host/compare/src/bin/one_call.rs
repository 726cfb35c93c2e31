//! One search call in a process of its own. Standard input has three lines: a problem in hexadecimal digits, a suspended
//! search likewise or nothing for the start, and an allowance. It prints what the call gave and, on a second line, the
//! search as it stands then.

use compare::hex::{bytes, hex};
use matcher::{Problem, Step};
use std::error::Error;

fn main() -> Result<(), Box<dyn Error>> {
    let input = std::io::read_to_string(std::io::stdin())?;
    let [problem, saved, allowance] = input.lines().collect::<Vec<_>>()[..] else {
        return Err("three lines are wanted".into());
    };
    let problem = Problem::new(&bytes(problem).ok_or("the problem is not in digits")?)?;
    let saved = bytes(saved).ok_or("the suspended search is not in digits")?;
    let mut search = if saved.is_empty() {
        problem.search()
    } else {
        problem.resume(&saved)?
    };
    match search.call(allowance.parse()?) {
        Ok(Step::Found(solution)) => println!("found {} {}", solution.number(), hex(&solution.text())),
        Ok(Step::Paused) => println!("paused"),
        Ok(Step::End) => println!("end"),
        Err(refusal) => println!("{refusal}"),
    }
    println!("{}", hex(&search.suspend()));
    Ok(())
}
