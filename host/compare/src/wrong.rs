//! Wrong matchers, document 01's useless ones among them: a comparison that lets one pass says nothing about it.

use crate::subject::{Proved, Subject, PAST, UNTOUCHED};
use crate::tree::{self, Entry, Tree};
use matcher::raw::{self, END, FOUND, NO, OK, PAUSED, PLACE_WORDS, YES};

/// A way to be wrong.
#[derive(Clone, Copy, Debug, PartialEq, Eq)]
pub enum Wrong {
    /// Refuses everything.
    Refuses,
    /// Has no solutions, whatever the problem.
    Ends,
    /// Ends on the first call.
    EndsAtOnce,
    /// Never pauses.
    NeverPauses,
    /// Pauses where it stands.
    PausesInPlace,
    /// Passes fewer rows than allowed before it pauses.
    PausesEarly,
    /// Goes on one row late after a Found.
    ResumesLate,
    /// Gives a solution twice.
    Repeats,
    /// Moves the place of a refused call.
    MovesWhenRefused,
    /// Refuses a place that has more words after it.
    TakesJustItsWords,
    /// Clears the words after a place.
    ClearsLaterWords,
    /// Refuses too few words for the start by 16.
    StartsWithSixteen,
    /// Writes one text, whatever the row.
    WritesOneText,
    /// Writes nothing and makes up a length.
    WritesNothing,
    /// Changes the byte after the text.
    WritesTooFar,
    /// Changes the buffer although the text is too long for it.
    WritesWhenRefused,
    /// Takes every row for a solution row.
    WritesAnyRow,
    /// Passes every text.
    PassesAll,
    /// Passes no text.
    PassesNone,
    /// Takes every text for well-formed.
    ReadsAnyText,
    /// Gives one refusal in place of another.
    RefusesOtherwise,
    /// Takes four bytes for a symbol's number that two can say.
    TakesAnyWidth,
    /// Compares symbols of four bytes by their low half.
    ComparesLowHalves,
    /// Writes every symbol in two bytes.
    WritesLowHalves,
    /// Refuses a problem that uses a letter both ways, by 12.
    RefusesBothWays,
    /// Lists what such a problem would have if the letter that stands alone were another one.
    ListsBothWays,
    /// Looks for 14 in such a problem.
    LooksForFourteen,
    /// Passes a text in which such a letter has a body, where its standing alone needs no value.
    PassesBothWays,
    /// Takes a text's fields in any order, and says no to a doubled one.
    TakesAnyOrder,
    /// Lets a number through that is equal to the one before it.
    TakesEqualNumbers,
    /// Looks for 27 before 20.
    LooksFor27First,
    /// Says no where a letter is used both ways before it looks for 27.
    SaysNoBefore27,
}

impl Wrong {
    /// All of them.
    pub const ALL: [Wrong; 32] = [
        Wrong::Refuses,
        Wrong::Ends,
        Wrong::EndsAtOnce,
        Wrong::NeverPauses,
        Wrong::PausesInPlace,
        Wrong::PausesEarly,
        Wrong::ResumesLate,
        Wrong::Repeats,
        Wrong::MovesWhenRefused,
        Wrong::TakesJustItsWords,
        Wrong::ClearsLaterWords,
        Wrong::StartsWithSixteen,
        Wrong::WritesOneText,
        Wrong::WritesNothing,
        Wrong::WritesTooFar,
        Wrong::WritesWhenRefused,
        Wrong::WritesAnyRow,
        Wrong::PassesAll,
        Wrong::PassesNone,
        Wrong::ReadsAnyText,
        Wrong::RefusesOtherwise,
        Wrong::TakesAnyWidth,
        Wrong::ComparesLowHalves,
        Wrong::WritesLowHalves,
        Wrong::RefusesBothWays,
        Wrong::ListsBothWays,
        Wrong::LooksForFourteen,
        Wrong::PassesBothWays,
        Wrong::TakesAnyOrder,
        Wrong::TakesEqualNumbers,
        Wrong::LooksFor27First,
        Wrong::SaysNoBefore27,
    ];
}

/// Whether the answer is a refusal.
fn refuses(answer: u32) -> bool {
    (1..256).contains(&answer)
}

/// An accepted problem with one high half for all symbols of four bytes; any other bytes as they are.
fn low_halves(problem: &[u8]) -> Vec<u8> {
    let mut bytes = problem.to_vec();
    if Proved.start(problem, &mut [0; PLACE_WORDS]) == OK {
        for at in tree::high_halves(problem) {
            bytes[at..at + 2].copy_from_slice(&[0, 1]);
        }
    }
    bytes
}

/// The letters that an accepted problem uses both ways, each with another one; of any other bytes none.
fn both_ways(problem: &[u8]) -> Vec<(u8, u8)> {
    if Proved.start(problem, &mut [0; PLACE_WORDS]) == OK {
        tree::both_ways(problem)
    } else {
        vec![]
    }
}

/// The problem as if such a letter, where it stands alone, were another one; any other bytes as they are.
fn apart(problem: &[u8]) -> Vec<u8> {
    match &both_ways(problem)[..] {
        [] => problem.to_vec(),
        letters => tree::apart(problem, letters),
    }
}

/// Whether 14 would be met then.
fn faces_too_much(problem: &[u8]) -> bool {
    Proved.start(&apart(problem), &mut [0; PLACE_WORDS]) == 14
}

/// Whether a well-formed text would pass then, the other letters being open.
fn passes_apart(problem: &[u8], text: &[u8]) -> bool {
    let mut entries = tree::read_text(text);
    entries.extend(both_ways(problem).iter().map(|(_, other)| Entry::Open(*other)));
    raw::check(&apart(problem), &ordered(entries)) == YES
}

/// The text of these fields in number order.
fn ordered(mut entries: Vec<Entry>) -> Vec<u8> {
    entries.sort_by_key(Entry::number);
    tree::text(&entries)
}

/// What the checker would say to a well-formed text if fields came in any order and a doubled one were a no.
fn in_any_order(problem: &[u8], text: &[u8]) -> u32 {
    match raw::check(problem, &ordered(tree::read_text(text))) {
        27 => NO,
        answer => answer,
    }
}

/// The numbers of a text's fields, up to the first that has none.
fn numbers(text: &[u8]) -> Vec<u8> {
    tree::fields(text)
        .map_while(|(_, content)| content.first().copied())
        .collect()
}

/// Whether each number is above the one before it.
fn rise(numbers: &[u8]) -> bool {
    numbers.is_sorted_by(|before, number| before < number)
}

/// A written text with the low half of every symbol, in two bytes.
fn narrowed(text: &[u8]) -> Vec<u8> {
    let mut entries = tree::read_text(text);
    for entry in &mut entries {
        if let Entry::Value(_, term) | Entry::Body(_, term) = entry {
            narrow(term);
        }
    }
    tree::text(&entries)
}

fn narrow(term: &mut Tree) {
    if let Tree::Symbol(s) = term {
        *s %= 65_536;
    }
    term.inner_mut().into_iter().for_each(narrow);
}

impl Subject for Wrong {
    fn start(&self, problem: &[u8], place: &mut [u64]) -> u32 {
        let answer = match self {
            Wrong::ListsBothWays => Proved.start(&apart(problem), place),
            _ => Proved.start(problem, place),
        };
        match self {
            Wrong::Refuses => 4,
            Wrong::RefusesBothWays if !both_ways(problem).is_empty() => 12,
            Wrong::LooksForFourteen if faces_too_much(problem) => 14,
            Wrong::Ends if answer == OK => {
                place[..PLACE_WORDS].copy_from_slice(&PAST);
                OK
            }
            Wrong::ClearsLaterWords if answer == OK => {
                place[PLACE_WORDS..].fill(0);
                OK
            }
            Wrong::StartsWithSixteen if answer == 18 => 16,
            Wrong::RefusesOtherwise if answer == 9 => 4,
            Wrong::TakesAnyWidth if answer == 25 => OK,
            _ => answer,
        }
    }

    fn search(&self, problem: &[u8], place: &mut [u64], row: &mut [u64], n: u32) -> u32 {
        let before = place.to_vec();
        let allowed = match self {
            Wrong::NeverPauses if n > 0 => u32::MAX,
            Wrong::PausesEarly => n.min(2),
            _ => n,
        };
        let answer = match self {
            Wrong::ComparesLowHalves => Proved.search(&low_halves(problem), place, row, allowed),
            Wrong::ListsBothWays => Proved.search(&apart(problem), place, row, allowed),
            _ => Proved.search(problem, place, row, allowed),
        };
        match self {
            Wrong::Refuses => 4,
            Wrong::Ends | Wrong::EndsAtOnce if answer == FOUND || answer == PAUSED => {
                row[..PLACE_WORDS].copy_from_slice(&UNTOUCHED);
                place[..PLACE_WORDS].copy_from_slice(&PAST);
                END
            }
            Wrong::PausesInPlace if answer == PAUSED => {
                place.copy_from_slice(&before);
                PAUSED
            }
            Wrong::ResumesLate if answer == FOUND => {
                Proved.search(problem, place, &mut [0; PLACE_WORDS], 1);
                FOUND
            }
            Wrong::Repeats if answer == FOUND => {
                place.copy_from_slice(&before);
                FOUND
            }
            Wrong::MovesWhenRefused if refuses(answer) && place.len() >= PLACE_WORDS => {
                place[..PLACE_WORDS].copy_from_slice(&PAST);
                answer
            }
            Wrong::TakesJustItsWords if place.len() > PLACE_WORDS => {
                place.copy_from_slice(&before);
                16
            }
            Wrong::RefusesOtherwise if answer == 16 => 15,
            _ => answer,
        }
    }

    fn write(&self, problem: &[u8], row: &[u64], out: &mut [u8], written: &mut usize) -> u32 {
        let before = out.to_vec();
        let answer = match self {
            Wrong::ListsBothWays => Proved.write(&apart(problem), row, out, written),
            _ => Proved.write(problem, row, out, written),
        };
        let length = *written;
        match self {
            Wrong::Refuses => 4,
            Wrong::Ends if answer == OK => {
                out.copy_from_slice(&before);
                16
            }
            Wrong::WritesOneText if answer == OK => {
                out[..length].fill(8);
                OK
            }
            Wrong::WritesNothing if answer == OK => {
                out.copy_from_slice(&before);
                OK
            }
            Wrong::WritesTooFar if answer == OK && length < out.len() => {
                out[length] = 0;
                OK
            }
            Wrong::WritesWhenRefused if answer == 18 && !out.is_empty() => {
                out[0] = 8;
                18
            }
            Wrong::WritesLowHalves if answer == OK => {
                let text = narrowed(&out[..length]);
                out.copy_from_slice(&before);
                out[..text.len()].copy_from_slice(&text);
                *written = text.len();
                OK
            }
            Wrong::WritesAnyRow if answer == 17 => {
                *written = 0;
                OK
            }
            _ => answer,
        }
    }

    fn check(&self, problem: &[u8], text: &[u8]) -> u32 {
        let answer = raw::check(problem, text);
        match self {
            Wrong::Refuses => 4,
            Wrong::Ends | Wrong::PassesNone if answer == YES => NO,
            Wrong::PassesAll if answer == NO => YES,
            Wrong::ReadsAnyText if answer == 20 => NO,
            Wrong::PassesBothWays if answer == NO && passes_apart(problem, text) => YES,
            Wrong::TakesAnyOrder if answer == 27 => in_any_order(problem, text),
            Wrong::TakesEqualNumbers if answer == 27 && numbers(text).is_sorted() => NO,
            Wrong::LooksFor27First if answer == 20 && !rise(&numbers(text)) => 27,
            Wrong::SaysNoBefore27 if answer == 27 && !both_ways(problem).is_empty() => NO,
            _ => answer,
        }
    }
}
