//! The program's answers as it writes them.

use crate::codes;
use crate::digits::{read_words, DIGITS};
use crate::literals::VARIABLES;
use crate::stream::Line;

/// Code, detail, and after an accepted SAT at most all variables; one byte more tells that a line is longer.
pub const LONGEST: usize = (2 + VARIABLES as usize) * DIGITS + 1;

/// A frame is answered with a code below this one.
const CODES: u32 = 14;

#[derive(Clone, Debug, PartialEq, Eq)]
pub struct Answer {
    pub code: u32,
    pub detail: u32,
    /// The true variables that an accepted SAT hands out.
    pub model: Vec<i32>,
}

impl Answer {
    /// Reads a line that the program wrote; none where it is no answer.
    pub fn read(line: &Line) -> Option<Answer> {
        let mut words = Vec::new();
        if !line.closed || line.is_cut() {
            return None;
        }
        read_words(&line.bytes, &mut words)?;
        let [code, detail, model @ ..] = words.as_slice() else {
            return None;
        };
        let (code, detail) = (*code as u32, *detail as u32);
        if code >= CODES || (code != 0 && !model.is_empty()) {
            return None;
        }
        Some(Answer {
            code,
            detail,
            model: model.to_vec(),
        })
    }

    pub fn is_accepted(&self) -> bool {
        self.code == 0
    }

    /// What its code says by itself.
    pub fn meaning(&self) -> &'static str {
        codes::meaning(self.code)
    }
}

#[cfg(test)]
mod tests {
    use super::*;

    fn read(text: &str, closed: bool) -> Option<Answer> {
        Answer::read(&Line {
            bytes: text.as_bytes().to_vec(),
            length: text.len() as u64,
            closed,
        })
    }

    #[test]
    fn an_answer_is_two_words_and_perhaps_a_model() {
        let answer = read("000000000000000100000001", true).expect("an answer");
        assert_eq!((answer.code, answer.detail), (0, 1));
        assert_eq!(answer.model, [1]);
        assert!(read("0000000500000001", true).is_some());
        for wrong in [
            "",
            "00000000",
            "000000000000000",
            "0000000e00000000",
            "000000050000000100000001",
            "hello",
        ] {
            assert_eq!(read(wrong, true), None, "{wrong}");
        }
        assert_eq!(read("0000000500000001", false), None);
    }
}
