//! Damaged problems: every entry point gives the refusal that the second implementation gives, and changes nothing.

use crate::features::{self, BOTH_WAYS};
use crate::generate::{self, Made};
use crate::lists;
use crate::random::Random;
use crate::report::{each_seed, same, Tally};
use crate::subject::{Subject, UNTOUCHED};
use crate::tree::{self, field, Tree};
use matcher::raw::{MAX_FACE_NODES, PLACE_WORDS};
use second::Problem;
use std::ops::Range;

/// Damages each seed's problem in some way and compares what is made of it.
pub fn random(subject: &dyn Subject, seeds: Range<u64>) -> Result<Tally, String> {
    each_seed(seeds, |random, tally| {
        let made = generate::problem(random);
        let bytes = damaged(random, made, tally);
        compare(subject, &bytes, tally)
    })
}

fn compare(subject: &dyn Subject, problem: &[u8], tally: &mut Tally) -> Result<(), String> {
    match Problem::read(problem) {
        Ok(_) => lists::whole(subject, problem, tally),
        Err(refusal) => {
            tally.count(format!("refused {refusal}"));
            everywhere(subject, problem, u32::from(refusal))
        }
    }
}

/// Every entry point gives the refusal, whatever else it is given, and changes no buffer.
pub(crate) fn everywhere(subject: &dyn Subject, problem: &[u8], refusal: u32) -> Result<(), String> {
    let (mut place, mut row, mut out, mut written) = (UNTOUCHED, UNTOUCHED, [0xA5; 64], 77);
    same(problem, "a start", subject.start(problem, &mut place), refusal)?;
    same(
        problem,
        "a start with no words",
        subject.start(problem, &mut []),
        refusal,
    )?;
    for n in [0, 1] {
        same(
            problem,
            "a search call",
            subject.search(problem, &mut place, &mut row, n),
            refusal,
        )?;
    }
    same(
        problem,
        "writing",
        subject.write(problem, &[0; PLACE_WORDS], &mut out, &mut written),
        refusal,
    )?;
    same(problem, "checking no text", subject.check(problem, &[]), refusal)?;
    same(
        problem,
        "checking a long text",
        subject.check(problem, &[0; 8193]),
        refusal,
    )?;
    same(
        problem,
        "the buffers of refused calls",
        (place, row, written),
        (UNTOUCHED, UNTOUCHED, 77),
    )?;
    same(
        problem,
        "the output of a refused call",
        out.iter().all(|byte| *byte == 0xA5),
        true,
    )
}

/// The bytes of the problem with one fault or more, most often.
pub fn damaged(random: &mut Random, mut made: Made, tally: &mut Tally) -> Vec<u8> {
    match random.below(5) {
        0 => {
            misplace(random, &mut made);
            tree::problem(&made.constraints)
        }
        1 => {
            crowd(random, &mut made, tally);
            tree::problem(&made.constraints)
        }
        2 => bend(random, tree::problem(&made.constraints)),
        3 => {
            let mut bytes = tree::problem(&made.constraints);
            tree::spell_wide(random, &mut bytes);
            bytes
        }
        _ => scatter(random, tree::problem(&made.constraints)),
    }
}

/// Puts a term where it may not stand (8, 9), too deep (5), or with a number that it may not have (10); or uses a letter
/// both ways, which is no fault.
fn misplace(random: &mut Random, made: &mut Made) {
    let k = random.below(made.constraints.len());
    let (pattern, expression) = &mut made.constraints[k];
    let side = if random.once_in(2) { pattern } else { expression };
    let node = random.below(side.nodes());
    let node = side.node_mut(node);
    let number = random.between(0, 40) as u8;
    let old = node.clone();
    *node = match random.below(5) {
        0 => Tree::Meta(number),
        1 => Tree::Call(number, Box::new(old)),
        2 => Tree::Call(number, Box::new(Tree::Meta(number))),
        3 => Tree::Hole,
        _ => (0..random.between(20, 33)).fold(old, |inner, _| Tree::Apply(vec![inner])),
    };
}

/// Makes too many constraints (11), too long a problem (1), too many functions (13) or too large a face (14), which is no
/// fault beside a letter used both ways.
fn crowd(random: &mut Random, made: &mut Made, tally: &mut Tally) {
    let symbol = || Tree::Symbol(1);
    match random.below(4) {
        0 => {
            let n = random.between(14, 18);
            made.constraints.resize(n, (symbol(), symbol()));
        }
        1 => {
            let n = random.between(800, 830);
            made.constraints.push((symbol(), Tree::Apply(vec![symbol(); n])));
        }
        2 => {
            let n = random.between(7, 10) as u8;
            let calls = (0..n).map(|m| Tree::Call(m, Box::new(symbol()))).collect();
            made.constraints
                .push((Tree::Apply(calls), Tree::Apply(vec![symbol(); usize::from(n)])));
        }
        _ => {
            let near = *random.pick(&[64, MAX_FACE_NODES, MAX_FACE_NODES]);
            let n = random.between(near - 4, near + 2);
            let call = Tree::Call(random.below(32) as u8, Box::new(Tree::Symbol(9)));
            let many = (0..n).map(|k| Tree::Symbol(k as u32)).collect();
            made.constraints.insert(0, (call, Tree::Apply(many)));
            tally.add("a face of 65 to 256 nodes", usize::from((64..256).contains(&n)));
            if n >= MAX_FACE_NODES && features::has(made, BOTH_WAYS) {
                tally.count("a large face beside a letter used both ways");
            }
        }
    }
}

/// Changes the head of a field, puts in a whole one with the lengths around it left as they are, or adds bytes at the end.
fn bend(random: &mut Random, mut bytes: Vec<u8>) -> Vec<u8> {
    let heads = tree::heads(&bytes);
    let at = *random.pick(&heads);
    match random.below(5) {
        0 => bytes[at] = *random.pick(&[0, 1, 2, 3, 4, 5, 6, 7, 8, 9, 10, 11, 99, 255]),
        1 => bytes[at + 2] = bytes[at + 2].wrapping_add(random.between(1, 3) as u8),
        2 => bytes[at + 2] = bytes[at + 2].wrapping_sub(random.between(1, 3) as u8),
        3 => {
            let content = vec![0; random.below(4)];
            bytes.splice(at..at, field(random.between(1, 6) as u8, &content));
        }
        _ => bytes.extend(vec![random.below(8) as u8; random.between(1, 3)]),
    }
    bytes
}

/// Changes single bytes, or cuts the end off.
fn scatter(random: &mut Random, mut bytes: Vec<u8>) -> Vec<u8> {
    for _ in 0..random.between(0, 3) {
        if bytes.is_empty() {
            return bytes;
        }
        let at = random.below(bytes.len());
        match random.below(3) {
            0 => bytes[at] = random.word() as u8,
            1 => bytes[at] ^= 1 << random.below(8),
            _ => bytes.truncate(at),
        }
    }
    bytes
}
