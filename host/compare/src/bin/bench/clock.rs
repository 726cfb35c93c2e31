//! How long something takes.

use std::hint::black_box;
use std::time::{Duration, Instant};

/// A measurement goes on for so long, so that it is not one of the clock.
const LEAST: Duration = Duration::from_millis(20);

/// The best of this many is taken.
const TIMES: usize = 5;

/// Nanoseconds that one run takes.
pub fn nanoseconds<T>(run: impl Fn() -> T) -> f64 {
    (0..TIMES).map(|_| one_measurement(&run)).fold(f64::INFINITY, f64::min)
}

fn one_measurement<T>(run: &impl Fn() -> T) -> f64 {
    let (from, mut runs) = (Instant::now(), 0u32);
    while from.elapsed() < LEAST {
        black_box(run());
        runs += 1;
    }
    from.elapsed().as_nanos() as f64 / f64::from(runs)
}

/// A time in the unit that suits it.
pub fn shown(nanoseconds: f64) -> String {
    match nanoseconds {
        n if n < 1e3 => format!("{n:.0} ns"),
        n if n < 1e6 => format!("{:.1} µs", n / 1e3),
        n => format!("{:.1} ms", n / 1e6),
    }
}

/// A line of a table that sets the two implementations beside each other; the ratio is how many times longer the second takes.
pub fn line(name: &str, count: &str, proved: f64, second: f64) {
    let (ratio, proved, second) = (second / proved, shown(proved), shown(second));
    println!("{name:<46} {count:>9} {proved:>10} {second:>10} {ratio:>8.3}");
}

/// The head of such a table.
pub fn head(title: &str, count: &str) {
    println!("{title}; the ratio is how many times longer the second takes\n");
    println!("{:<46} {count:>9} {:>10} {:>10} {:>8}", "", "proved", "second", "ratio");
}
