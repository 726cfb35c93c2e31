//! Writes the bytes of the problem with the longest list for a number of nodes to standard output.
//!
//!     cargo run --example longest -- NODES > PROBLEM
//!
//! NODES is from 1 to 256. The problem has 2^(NODES-1) + 1 solutions: `stop_and_resume` lists them, `readings` the first
//! thousand.

use matcher::Problem;
use std::error::Error;
use std::io::Write;

fn main() {
    if let Err(error) = run() {
        eprintln!("longest: {error}");
        std::process::exit(1);
    }
}

fn run() -> Result<(), Box<dyn Error>> {
    let arguments: Vec<String> = std::env::args().skip(1).collect();
    let [nodes] = &arguments[..] else {
        return Err("usage: longest NODES".into());
    };
    let nodes = nodes
        .parse()
        .map_err(|_| format!("NODES is a number from 1 to 256, not '{nodes}'"))?;
    let problem = Problem::longest(nodes)?;
    let mut out = std::io::stdout().lock();
    out.write_all(problem.bytes())?;
    Ok(out.flush()?)
}
