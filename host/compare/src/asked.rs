//! What the program `vectors_texts` is asked beside what a host can call: a function from an input of that program to what it
//! prints is compared with what the second implementation gives. The lines of many problems are put together into one input.

use crate::report::differ;
use crate::vectors;

/// What is tested: the program, or something wrong in its place.
pub type Prints<'p> = &'p dyn Fn(&str) -> String;

/// The longest input that the program takes.
const LONGEST_INPUT: usize = 262_143;

/// A line that has an answer of one line.
pub struct Question {
    /// What the problem was made with.
    pub seed: u64,
    /// The problem that is asked about.
    pub problem: Vec<u8>,
    /// The line, to its end.
    pub line: String,
}

/// Compares the answers to all questions.
pub fn compare(prints: Prints, questions: impl Iterator<Item = Question>) -> Result<(), String> {
    let mut input = Input::default();
    for question in questions {
        if input.lines.len() + question.line.len() > LONGEST_INPUT {
            std::mem::take(&mut input).compare(prints)?;
        }
        input.lines += &question.line;
        input.questions.push(question);
    }
    input.compare(prints)
}

/// Questions that are asked together, and their lines.
#[derive(Default)]
struct Input {
    questions: Vec<Question>,
    lines: String,
}

impl Input {
    fn compare(self, prints: Prints) -> Result<(), String> {
        let (got, expected) = (prints(&self.lines), vectors::texts(&self.lines));
        let mut answers = got.lines();
        for (question, expected) in self.questions.iter().zip(expected.lines()) {
            let answer = answers.next().unwrap_or("nothing");
            if answer != expected {
                let what = format!(
                    "got '{answer}', expected '{expected}'\nline {}",
                    question.line.trim_end()
                );
                return Err(format!("seed {}: {}", question.seed, differ(&question.problem, &what)));
            }
        }
        if got != expected {
            return Err(format!("after the last answer: {:?}", answers.next()));
        }
        Ok(())
    }
}
