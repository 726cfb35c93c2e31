//! Makes the random comparisons on more seeds than the tests do, and prints what they met:
//!
//!     cargo run --release --bin hunt -- FROM COUNT
//!
//! It ends at the first difference, with the problem in hexadecimal and in readable notation.

use compare::large;
use compare::subject::Proved;

/// A problem with a large face takes as long as so many others.
const LARGE: u64 = 100;

fn main() {
    if let Err(error) = hunt() {
        eprintln!("hunt: {error}");
        std::process::exit(1);
    }
}

fn hunt() -> Result<(), String> {
    let arguments: Vec<String> = std::env::args().skip(1).collect();
    let [from, count] = &arguments[..] else {
        return Err("usage: hunt FROM COUNT".to_string());
    };
    let number = |word: &String| {
        word.parse::<u64>()
            .map_err(|_| format!("a number is wanted, not '{word}'"))
    };
    let from = number(from)?;
    let to = from.checked_add(number(count)?).ok_or("there are no such seeds")?;
    for (name, comparison) in compare::COMPARISONS {
        println!("{name}: {:?}", comparison(&Proved, from..to)?);
    }
    let few = from..from + (to - from).div_ceil(LARGE);
    println!("large faces: {:?}", large::random(&Proved, few)?);
    Ok(())
}
