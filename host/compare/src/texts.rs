//! Texts: the checker says yes, no or refused as the second implementation does.

use crate::features::{self, BOTH_WAYS};
use crate::generate::{self, Made};
use crate::lists::MOST_ROWS;
use crate::random::Random;
use crate::report::{differ, each_seed, Tally};
use crate::subject::Subject;
use crate::tree::{self, Entry, Tree};
use matcher::raw::{LARGEST_TEXT, NO, YES};
use second::Problem;
use std::ops::Range;

/// Texts to each problem.
const TEXTS: usize = 8;

/// Checks random texts on each seed's problem.
pub fn random(subject: &dyn Subject, seeds: Range<u64>) -> Result<Tally, String> {
    each_seed(seeds, |random, tally| {
        let made = generate::problem(random);
        let problem = tree::problem(&made.constraints);
        let Ok(read) = Problem::read(&problem) else {
            return Ok(());
        };
        if features::has(&made, BOTH_WAYS) {
            tally.add(BOTH_WAYS, TEXTS);
        }
        let fillings = fillings(random, &made, listed(&problem, &read));
        fillings.into_iter().try_for_each(|mut filling| {
            change_up_to_twice(random, &mut filling);
            put_in_order(random, &mut filling);
            let text = damaged(random, tree::text(&filling), tally);
            let expected = compare(subject, &problem, &read, &text, tally)?;
            count_order(&filling, expected, tally);
            Ok(())
        })
    })
}

/// What both answer.
fn compare(
    subject: &dyn Subject,
    problem: &[u8],
    read: &Problem,
    text: &[u8],
    tally: &mut Tally,
) -> Result<u32, String> {
    let expected = match read.check(text) {
        Ok(true) => YES,
        Ok(false) => NO,
        Err(refusal) => u32::from(refusal),
    };
    tally.count(match expected {
        YES => "yes".to_string(),
        NO => "no".to_string(),
        refusal => format!("refused {refusal}"),
    });
    let got = subject.check(problem, text);
    if got != expected {
        let shown = if text.len() > LARGEST_TEXT {
            "(long)".to_string()
        } else {
            crate::hex::hex(text)
        };
        return Err(differ(
            problem,
            &format!("checking: got {got}, expected {expected}\ntext {shown}"),
        ));
    }
    Ok(expected)
}

/// Numbers that do not rise, by how they fail to, and whether another fault of the text comes first.
fn count_order(entries: &[Entry], expected: u32, tally: &mut Tally) {
    let rise = entries.is_sorted_by(|before, entry| before.number() < entry.number());
    match expected {
        27 if entries.is_sorted_by_key(Entry::number) => tally.count("equal numbers"),
        27 => tally.count("falling numbers"),
        20 if !rise => tally.count("malformed, and numbers that do not rise"),
        _ => (),
    }
}

/// The solutions of the problem; of one that uses a letter both ways, what would be solutions if the letter that stands
/// alone were another one: such a letter has a body and a value there.
fn listed(problem: &[u8], read: &Problem) -> Vec<Vec<Entry>> {
    let letters = tree::both_ways(problem);
    if letters.is_empty() {
        return solutions(read);
    }
    let mut fillings = Problem::read(&tree::apart(problem, &letters)).map_or(vec![], |apart| solutions(&apart));
    for number in fillings.iter_mut().flatten().map(Entry::number_mut) {
        if let Some((m, _)) = letters.iter().find(|(_, other)| other == number) {
            *number = *m;
        }
    }
    fillings
}

fn solutions(read: &Problem) -> Vec<Vec<Entry>> {
    let listed = read.rows(MOST_ROWS).and_then(|_| read.solutions(MOST_ROWS));
    let texts = listed.unwrap_or_default().into_iter().map(|solution| solution.text);
    texts.map(|text| tree::read_text(&text)).collect()
}

/// Fillings that are solutions, or were meant to be one.
fn fillings(random: &mut Random, made: &Made, listed: Vec<Vec<Entry>>) -> Vec<Vec<Entry>> {
    (0..TEXTS)
        .map(|_| {
            if listed.is_empty() || random.once_in(4) {
                made.filling.clone()
            } else {
                random.pick(&listed).clone()
            }
        })
        .collect()
}

fn change_up_to_twice(random: &mut Random, entries: &mut Vec<Entry>) {
    for _ in 0..random.between(0, 2) {
        change(random, entries);
    }
}

/// Most fillings in number order, and most of these with one field for each number: in all others 27 hides what else may
/// be wrong.
fn put_in_order(random: &mut Random, entries: &mut Vec<Entry>) {
    if random.once_in(4) {
        return;
    }
    entries.sort_by_key(Entry::number);
    if !random.once_in(4) {
        entries.dedup_by_key(|entry| entry.number());
    }
}

/// The bytes of a text, some of them damaged.
fn damaged(random: &mut Random, mut bytes: Vec<u8>, tally: &mut Tally) -> Vec<u8> {
    match random.below(12) {
        0 if !bytes.is_empty() => {
            let at = random.below(bytes.len());
            bytes[at] = bytes[at].wrapping_add(random.between(1, 4) as u8);
        }
        1 => bytes.truncate(random.below(bytes.len() + 1)),
        2 if random.once_in(4) => bytes.resize(LARGEST_TEXT + random.below(2), 0),
        3 => tally.add("spelled too wide", usize::from(tree::spell_wide(random, &mut bytes))),
        _ => (),
    }
    bytes
}

/// One change of a filling: its fields in another order, one more or less, another number or kind, other names or nodes.
fn change(random: &mut Random, entries: &mut Vec<Entry>) {
    if entries.is_empty() {
        return entries.push(Entry::Open(random.between(0, 33) as u8));
    }
    let k = random.below(entries.len());
    match random.below(7) {
        0 => entries.rotate_left(k),
        1 => drop(entries.remove(k)),
        2 => entries.insert(k, entries[k].clone()),
        3 => *entries[k].number_mut() = random.between(0, 33) as u8,
        4 => entries[k] = another_kind(random, &entries[k]),
        5 => {
            if let Some(term) = term(&mut entries[k]) {
                rename(random, term);
            }
        }
        _ => {
            if let Some(term) = term(&mut entries[k]) {
                replace_node(random, term);
            }
        }
    }
}

fn term(entry: &mut Entry) -> Option<&mut Tree> {
    match entry {
        Entry::Value(_, term) | Entry::Body(_, term) => Some(term),
        Entry::Open(_) => None,
    }
}

fn another_kind(random: &mut Random, entry: &Entry) -> Entry {
    let term = match entry {
        Entry::Value(_, term) | Entry::Body(_, term) => term.clone(),
        Entry::Open(_) => Tree::Symbol(0),
    };
    let m = *entry.clone().number_mut();
    match random.below(3) {
        0 => Entry::Value(m, term),
        1 => Entry::Body(m, term),
        _ => Entry::Open(m),
    }
}

/// Gives a binder and what it binds another name, which may catch or be caught.
pub fn rename(random: &mut Random, term: &mut Tree) {
    let k = random.below(term.nodes());
    let to = random.below(6) as u16;
    if let Tree::Bind(_, v, body) = term.node_mut(k) {
        let from = std::mem::replace(v, to);
        rename_free(body, from, to);
    }
}

fn rename_free(term: &mut Tree, from: u16, to: u16) {
    match term {
        Tree::Variable(v) if *v == from => *v = to,
        Tree::Bind(_, v, _) if *v == from => (),
        _ => term
            .inner_mut()
            .into_iter()
            .for_each(|inner| rename_free(inner, from, to)),
    }
}

fn replace_node(random: &mut Random, term: &mut Tree) {
    let from = random.below(term.nodes());
    let copy = term.node_mut(from).clone();
    let to = random.below(term.nodes());
    *term.node_mut(to) = match (random.below(4), copy) {
        (0, _) => Tree::Hole,
        (1, _) => Tree::Variable(random.below(3) as u16),
        // another number with the same low half, of either width
        (2, Tree::Symbol(s)) => Tree::Symbol(s ^ 65_536),
        (_, copy) => copy,
    };
}
