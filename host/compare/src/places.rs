//! Places and rows of any words: those that begin with one are taken, all others are refused (16), and writing gives 17 and 18
//! where they are due. Buffers of any number of words: a place is put at the front of one that has room for it.

use crate::generate;
use crate::hex::hex;
use crate::lists::MOST_ROWS;
use crate::random::Random;
use crate::report::{each_seed, same, Tally};
use crate::subject::{named, place, with_front, words, Subject, Words, PAST, UNTOUCHED, WORD_NODES};
use crate::tree;
use matcher::raw::{END, FOUND, LARGEST_TEXT, OK, PLACE_WORDS, SET_WORDS};
use second::{Problem, Row, Solution};
use std::ops::Range;

/// Places to each problem.
const PLACES: usize = 8;

/// Hands random words to each seed's problem.
pub fn random(subject: &dyn Subject, seeds: Range<u64>) -> Result<Tally, String> {
    each_seed(seeds, |random, tally| {
        let problem = tree::problem(&generate::problem(random).constraints);
        some_places(subject, &problem, random, tally)
    })
}

/// Hands random words to a problem.
pub(crate) fn some_places(
    subject: &dyn Subject,
    problem: &[u8],
    random: &mut Random,
    tally: &mut Tally,
) -> Result<(), String> {
    let Some(known) = Known::of(problem) else {
        return Ok(());
    };
    for _ in 0..PLACES {
        let place = known.some_place(random);
        known.started(subject, &place, tally)?;
        known.searched(subject, &place, random, tally)?;
        known.written(subject, &place, random, tally)?;
    }
    Ok(())
}

/// Changes some of the places: any bit, one of the first nodes of a function, a word, or two words of a set for each other.
fn bend(random: &mut Random, place: &mut Words) {
    match random.below(8) {
        0 => place[random.below(PLACE_WORDS)] ^= 1 << random.below(WORD_NODES),
        1 => place[SET_WORDS * random.below(4)] ^= 1 << random.between(52, 63),
        2 => place[random.below(PLACE_WORDS)] = random.word(),
        3 => {
            let set = SET_WORDS * random.below(2);
            place.swap(set + random.below(SET_WORDS), set + random.below(SET_WORDS));
        }
        _ => (),
    }
}

/// A problem with its rows and its list.
struct Known<'a> {
    problem: &'a [u8],
    read: Problem,
    rows: Vec<Row>,
    solutions: Vec<Solution>,
}

impl Known<'_> {
    fn of(problem: &[u8]) -> Option<Known<'_>> {
        let read = Problem::read(problem).ok()?;
        let rows = read.rows(MOST_ROWS)?;
        let solutions = read.solutions(MOST_ROWS)?;
        Some(Known {
            problem,
            read,
            rows,
            solutions,
        })
    }

    /// A place of the problem, or words that are near one, or none at all.
    fn some_place(&self, random: &mut Random) -> Vec<u64> {
        let mut place = PAST;
        if !self.rows.is_empty() && !random.once_in(8) {
            place = words(random.pick(&self.rows));
        }
        if self.rows.is_empty() && random.once_in(2) {
            // no holes: a row of every problem that has rows
            place = [0; PLACE_WORDS];
        }
        if !self.solutions.is_empty() && random.once_in(3) {
            place = words(&random.pick(&self.solutions).row);
        }
        bend(random, &mut place);
        let mut place = place.to_vec();
        if random.once_in(8) {
            // 9 words were a place before T-10
            let lengths = [0, 9, PLACE_WORDS - 1, PLACE_WORDS + 1, PLACE_WORDS + 3];
            place.resize(*random.pick(&lengths), random.word());
        }
        place
    }

    /// The start, into a buffer of as many words.
    fn started(&self, subject: &dyn Subject, buffer: &[u64], tally: &mut Tally) -> Result<(), String> {
        let mut at = buffer.to_vec();
        let answer = subject.start(self.problem, &mut at);
        let what = format!("the start into {} words", buffer.len());
        if buffer.len() < PLACE_WORDS {
            tally.count("too few words");
            return same(self.problem, &what, (answer, &at[..]), (18, buffer));
        }
        if buffer.len() > PLACE_WORDS {
            tally.count("more words");
        }
        let first = place(self.rows.first());
        same(self.problem, &what, (answer, at), (OK, with_front(&first, buffer)))
    }

    /// A search call at the place, with every row allowed, into a row buffer that may have more words.
    fn searched(
        &self,
        subject: &dyn Subject,
        from: &[u64],
        random: &mut Random,
        tally: &mut Tally,
    ) -> Result<(), String> {
        let mut untouched = UNTOUCHED.to_vec();
        untouched.resize(PLACE_WORDS + random.below(3), random.word());
        let (mut at, mut row) = (from.to_vec(), untouched.clone());
        let answer = subject.search(self.problem, &mut at, &mut row, u32::MAX);
        let what = format!("a search at {from:x?}");
        let Some(named) = named(&self.read, from) else {
            tally.count("no place");
            return same(self.problem, &what, (answer, &at[..], row), (16, from, untouched));
        };
        tally.count("place");
        let end = self.rows.len();
        let index = |row: &Row| self.rows.iter().position(|r| r == row).unwrap_or(end);
        let first = named.as_ref().map_or(end, index);
        let (expected, next, given) = match self.solutions.iter().find(|s| self.rows[first..].contains(&s.row)) {
            None => (END, PAST, untouched),
            Some(solution) => (
                FOUND,
                place(self.rows.get(index(&solution.row) + 1)),
                with_front(&words(&solution.row), &untouched),
            ),
        };
        let expected = (expected, with_front(&next, from), given);
        same(self.problem, &what, (answer, at, row), expected)
    }

    /// Writing at the place, into a buffer that may be too short.
    fn written(
        &self,
        subject: &dyn Subject,
        place: &[u64],
        random: &mut Random,
        tally: &mut Tally,
    ) -> Result<(), String> {
        let expected = match named(&self.read, place).flatten() {
            None => Err(16),
            Some(row) => self.read.write(&row).map_err(u32::from),
        };
        let room = match &expected {
            Ok(text) => (text.len() + 3).saturating_sub(random.below(6)),
            Err(_) => random.below(LARGEST_TEXT),
        };
        let mut out = vec![0xA5; room];
        let mut length = 77;
        let answer = subject.write(self.problem, place, &mut out, &mut length);
        let what = format!("writing {place:x?} into {room} bytes");
        match expected {
            Ok(text) if text.len() <= room => {
                tally.count("written");
                let whole = [&text[..], &vec![0xA5; room - text.len()]].concat();
                same(
                    self.problem,
                    &what,
                    (answer, length, hex(&out)),
                    (OK, text.len(), hex(&whole)),
                )
            }
            refused => {
                let refusal = refused.err().unwrap_or(18);
                tally.count(format!("refused {refusal}"));
                same(
                    self.problem,
                    &what,
                    (answer, length, hex(&out)),
                    (refusal, 77, hex(&vec![0xA5; room])),
                )
            }
        }
    }
}
