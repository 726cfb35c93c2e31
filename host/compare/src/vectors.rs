//! What the vectors' programs and `readings` print, from the second implementation.
//!
//! Only the form of the lines is theirs: `src/main.rt` of `crates/vectors`, `crates/vectors_texts` and `crates/vectors_calls` and the
//! modules that they name describe it.

use crate::calls::Rows;
use crate::hex::{bytes, hex};
use crate::subject::{named, Words, PAST};
use matcher::raw::{LARGEST_TEXT, PLACE_WORDS};
use second::{Compared, Kind, Problem};

/// The allowance of `readings`, and the most solutions that it prints.
const ALLOWANCE: u128 = 1_000_000;
const MOST: usize = 1_000;

/// No example has more solutions than this.
const LISTED: usize = 2_000;

/// What `readings` prints for a problem.
pub fn readings(problem: &[u8]) -> String {
    let read = match Problem::read(problem) {
        Err(refusal) => return format!("refused {refusal}\n"),
        Ok(read) => read,
    };
    let solutions = read.solutions(LISTED).expect("no longer list is asked for");
    let mut lines = String::new();
    // how many rows come before the place
    let mut passed = 0;
    for (k, solution) in solutions.iter().enumerate() {
        let at = read.rank(&solution.row).expect("no more rows are asked for");
        if at - passed >= ALLOWANCE {
            return lines + &format!("paused {k}\n");
        }
        if k == MOST {
            return lines + &format!("more {MOST}\n");
        }
        lines += &format!("solution {}:{}\n", k + 1, hex(&solution.text));
        passed = at + 1;
    }
    let pauses = read.row_count().is_none_or(|rows| rows - passed > ALLOWANCE);
    let last = if pauses { "paused" } else { "end" };
    lines + &format!("{last} {}\n", solutions.len())
}

/// What the program `vectors` prints for its input.
pub fn problems(input: &str) -> String {
    input.lines().map(|line| problem_line(line) + "\n").collect()
}

fn problem_line(line: &str) -> String {
    let Some((kind, rest)) = letter(line) else {
        return bad(line);
    };
    let Some((input, label)) = part(rest) else {
        return bad(line);
    };
    match kind {
        'P' => format!("{label}: {}", problem_verdict(&input)),
        'T' => format!("{label}: {}", term_verdict(Kind::Pattern, &input)),
        'E' => format!("{label}: {}", term_verdict(Kind::Expression, &input)),
        'B' => format!("{label}: {}", term_verdict(Kind::Body, &input)),
        _ => bad(label),
    }
}

fn problem_verdict(input: &[u8]) -> String {
    match Problem::read(input) {
        Err(refusal) => format!("refused {refusal}"),
        Ok(read) => {
            let rows = if read.has_rows() { "rows" } else { "no rows" };
            format!(
                "accepted, nodes {} and {}, {rows}",
                read.pattern_nodes(),
                read.expression_nodes()
            )
        }
    }
}

fn term_verdict(kind: Kind, input: &[u8]) -> String {
    match second::read_term(kind, input) {
        Err(refusal) => format!("refused {refusal}"),
        Ok((bytes, nodes)) => format!("read, bytes {bytes}, nodes {nodes}"),
    }
}

/// What the program `vectors_texts` prints for its input.
pub fn texts(input: &str) -> String {
    texts_with(input, compared)
}

/// The same, where something else says how two nodes compare.
pub fn texts_with(input: &str, says: impl Fn(&[u8], usize, usize) -> Said) -> String {
    input.lines().map(|line| text_line(line, &says, numbered)).collect()
}

/// The same, where something else numbers nodes.
pub fn texts_numbered(input: &str, numbers: impl Fn(&[u8]) -> Numbers) -> String {
    input.lines().map(|line| text_line(line, compared, &numbers)).collect()
}

fn text_line(line: &str, says: impl Fn(&[u8], usize, usize) -> Said, numbers: impl Fn(&[u8]) -> Numbers) -> String {
    match parts(line) {
        Some(('S', problem, text, label)) if text.is_empty() => format!("{label}\n{}", readings(&problem)),
        Some(('C', problem, text, label)) => format!("{label}: {}\n", verdict(&problem, &text)),
        Some(('N', problem, asked, label)) => match nodes(&asked) {
            Some((a, b)) => format!("{label}: {}\n", pair(says(&problem, a, b))),
            None => bad(label) + "\n",
        },
        Some(('A', problem, text, label)) if text.is_empty() => format!("{label}: {}\n", lowest(numbers(&problem))),
        Some((_, _, _, label)) => bad(label) + "\n",
        None => bad(line) + "\n",
    }
}

/// What the program `vectors_calls` prints for its input.
pub fn calls(input: &str) -> String {
    input.lines().map(call_line).collect()
}

fn call_line(line: &str) -> String {
    match parts(line) {
        Some(('W', problem, asked, label)) => match Asked::of(&asked) {
            Some(asked) => format!("{label}: {}\n", written(&problem, &asked)),
            None => bad(label) + "\n",
        },
        Some(('L' | 'H', problem, calls, label)) if calls.len() % 5 == 0 => {
            format!("{label}\n{}", held(&problem, &calls))
        }
        Some(('R', problem, calls, label)) if calls.len() % 4 == 0 && calls.len() <= 4 * CALLS => {
            format!("{label}\n{}", list(&problem, &calls))
        }
        Some((_, _, _, label)) => bad(label) + "\n",
        None => bad(line) + "\n",
    }
}

/// The calls of a list that is made by one function: those that are not asked for have an allowance of 0.
const CALLS: usize = 32;

/// What a call answers.
enum Answer {
    Found(usize),
    Paused,
    End,
    Refused(u8),
}

/// A call at a row, which pauses as early as it may, and the row that it leaves.
fn call(rows: &Rows, at: usize, n: usize) -> (Answer, usize) {
    let end = rows.end();
    match rows.next_solution(at) {
        _ if n == 0 => (Answer::Refused(15), at),
        Some(next) if next - at < n => (Answer::Found(next), next + 1),
        None if end - at <= n => (Answer::End, end),
        _ => (Answer::Paused, at + n),
    }
}

/// An allowance, of 4 bytes.
fn allowance(bytes: &[u8]) -> usize {
    bytes.iter().fold(0, |n, byte| n << 8 | usize::from(*byte))
}

/// What is printed of a problem by calls on its rows, or its refusal.
fn on_rows(problem: &[u8], print: impl Fn(&Rows) -> String) -> String {
    match Problem::read(problem) {
        Err(refusal) => format!("refused {refusal}\n"),
        Ok(read) => print(&Rows::of(&read).expect("the examples have few rows")),
    }
}

/// Calls on an open search, each of 5 bytes, with what it holds before the first and after each.
fn held(problem: &[u8], calls: &[u8]) -> String {
    on_rows(problem, |rows| {
        let mut at = 0;
        let mut lines = format!("{}\n", holds(&rows.places[at]));
        for asked in calls.chunks(5) {
            let (answer, next) = match asked[0] {
                0 => call(rows, at, allowance(&asked[1..])),
                _ => (Answer::Refused(2), at),
            };
            at = next;
            lines += &format!("{}, {}\n", answered(rows, answer), holds(&rows.places[at]));
        }
        lines
    })
}

fn answered(rows: &Rows, answer: Answer) -> String {
    match answer {
        Answer::Found(row) => format!("found {}", sets(&rows.places[row])),
        Answer::Paused => "paused".to_string(),
        Answer::End => "end".to_string(),
        Answer::Refused(refusal) => format!("refused {refusal}"),
    }
}

fn holds(place: &Words) -> String {
    if *place == PAST {
        return "holds past the last".to_string();
    }
    format!("holds {}", sets(place))
}

/// The sets of a row, each as its words.
fn sets(place: &Words) -> String {
    let words = place[..PLACE_WORDS - 1].iter().map(u64::to_string);
    words.collect::<Vec<_>>().join(" ")
}

/// A list of calls, each of 4 bytes: how many Founds, whether there is an End, and the rows of the Founds.
fn list(problem: &[u8], calls: &[u8]) -> String {
    on_rows(problem, |rows| {
        let (mut at, mut found, mut ended) = (0, Vec::new(), false);
        for asked in calls.chunks(4) {
            let (answer, next) = call(rows, at, allowance(asked));
            at = next;
            match answer {
                Answer::Found(row) => found.push(sets(&rows.places[row]) + "\n"),
                Answer::End => ended = true,
                Answer::Paused | Answer::Refused(_) => (),
            }
        }
        let not = if ended { "" } else { "not " };
        format!("found {}, {not}ended\n{}", found.len(), found.concat())
    })
}

fn verdict(problem: &[u8], text: &[u8]) -> String {
    match Problem::read(problem).and_then(|read| read.check(text)) {
        Ok(true) => "yes".to_string(),
        Ok(false) => "no".to_string(),
        Err(refusal) => format!("refused {refusal}"),
    }
}

/// A row to be written, and how long the buffer is.
struct Asked {
    place: Words,
    room: usize,
}

impl Asked {
    /// The words of a place, of 8 bytes each but for the last, which has one and is 1 past the last and else 0; a length of 2 bytes.
    fn of(bytes: &[u8]) -> Option<Asked> {
        const PAST: usize = 8 * (PLACE_WORDS - 1);
        if bytes.len() != PAST + 3 || bytes[PAST] > 1 {
            return None;
        }
        let number = |part: &[u8]| part.iter().fold(0, |n, byte| n << 8 | u64::from(*byte));
        let mut place = [0; PLACE_WORDS];
        for (word, part) in place.iter_mut().zip(bytes[..PAST].chunks(8)) {
            *word = number(part);
        }
        place[PLACE_WORDS - 1] = u64::from(bytes[PAST]);
        let room = number(&bytes[PAST + 1..]) as usize;
        (room <= LARGEST_TEXT).then_some(Asked { place, room })
    }
}

/// The text and two bytes after it, of as many as there are, all 170 before; or the refusal.
fn written(problem: &[u8], asked: &Asked) -> String {
    let text = Problem::read(problem).and_then(|read| match named(&read, &asked.place).flatten() {
        None => Err(16),
        Some(row) => read.write(&row),
    });
    match text {
        Err(refusal) => format!("refused {refusal}"),
        Ok(text) if asked.room < text.len() => "refused 18".to_string(),
        Ok(text) => {
            let after = (asked.room - text.len()).min(2);
            format!("wrote {}, {}{}", text.len(), hex(&text), "AA".repeat(after))
        }
    }
}

/// The numbers of two nodes, of 2 bytes each.
fn nodes(bytes: &[u8]) -> Option<(usize, usize)> {
    let [a, a_low, b, b_low] = *bytes else {
        return None;
    };
    let number = |high, low| usize::from(u16::from_be_bytes([high, low]));
    Some((number(a, a_low), number(b, b_low)))
}

/// What is said of two nodes of a problem: its refusal, or nothing where one of them is not there, or the two compared.
pub type Said = Result<Option<Compared>, u8>;

/// What the second implementation says of them.
pub fn compared(problem: &[u8], a: usize, b: usize) -> Said {
    Problem::read(problem).map(|read| read.compare(a, b))
}

/// The same in the words of the program.
fn pair(said: Said) -> String {
    match said {
        Err(refusal) => format!("refused {refusal}"),
        Ok(None) => "no such node".to_string(),
        Ok(Some(Compared { equal: true, pairs })) => format!("yes {pairs}"),
        Ok(Some(Compared { equal: false, pairs })) => format!("no {pairs}"),
    }
}

/// What is said of all nodes of a problem: its refusal, or for each the lowest node with the same number.
pub type Numbers = Result<Vec<usize>, u8>;

/// What the second implementation says of them.
pub fn numbered(problem: &[u8]) -> Numbers {
    Problem::read(problem).map(|read| read.numbers())
}

/// The same in the words of the program.
fn lowest(numbers: Numbers) -> String {
    match numbers {
        Err(refusal) => format!("refused {refusal}"),
        Ok(nodes) if nodes.is_empty() => "none".to_string(),
        Ok(nodes) => nodes.iter().map(usize::to_string).collect::<Vec<_>>().join(" "),
    }
}

/// A line's kind, problem, text and label.
fn parts(line: &str) -> Option<(char, Vec<u8>, Vec<u8>, &str)> {
    let (kind, rest) = letter(line)?;
    let (problem, rest) = part(rest)?;
    let (text, label) = part(rest)?;
    Some((kind, problem, text, label))
}

/// The letter that a line begins with, and what stands after the space behind it.
fn letter(line: &str) -> Option<(char, &str)> {
    let (kind, rest) = line.split_at_checked(1)?;
    Some((kind.chars().next()?, rest.strip_prefix(' ')?))
}

/// The bytes whose digits stand up to the next space, and what stands after it.
fn part(rest: &str) -> Option<(Vec<u8>, &str)> {
    let (digits, after) = rest.split_once(' ')?;
    Some((bytes(digits)?, after))
}

fn bad(line: &str) -> String {
    format!("bad line: {line}")
}
