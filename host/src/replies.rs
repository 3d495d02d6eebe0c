//! Lines of words: frames written as lines, and the answers to lines read back.

use crate::{Answer, Variable};
use std::fmt;

/// Eight lowercase hexadecimal digits a word, most significant first.
const DIGITS: usize = 8;

/// An answer as a line has it: after an accepted SAT with the true variables, rising; else with
/// none.
#[derive(Clone, Debug, PartialEq, Eq)]
pub struct Reply {
    pub answer: Answer,
    pub model: Vec<Variable>,
}

impl Reply {
    /// Reads an answer line, without the byte that closes it. Any other line is none.
    pub fn read(line: &[u8]) -> Option<Reply> {
        let all = line.chunks_exact(DIGITS);
        if !all.remainder().is_empty() {
            return None;
        }
        let mut words = all.map(read_word);
        let answer = Answer {
            code: words.next()??.into(),
            detail: words.next()??.into(),
        };
        let model = words.map(|word| Variable::new(word?).ok());
        Some(Reply {
            answer,
            model: model.collect::<Option<_>>()?,
        })
    }

    /// Reads the answers to lines, each of them closed; or none, where one is no answer.
    pub fn read_all(answers: &[u8]) -> Option<Vec<Reply>> {
        let lines = answers.split_inclusive(|&byte| byte == b'\n');
        lines
            .map(|line| Reply::read(line.strip_suffix(b"\n")?))
            .collect()
    }
}

impl fmt::Display for Reply {
    fn fmt(&self, out: &mut fmt::Formatter<'_>) -> fmt::Result {
        write!(out, "{}", self.answer)?;
        if !self.model.is_empty() {
            out.write_str(", true")?;
        }
        self.model.iter().try_for_each(|v| write!(out, " {v}"))
    }
}

fn read_word(digits: &[u8]) -> Option<u32> {
    digits.iter().try_fold(0, |word, &digit| {
        let value = match digit {
            b'0'..=b'9' => digit - b'0',
            b'a'..=b'f' => digit - b'a' + 10,
            _ => return None,
        };
        Some(word << 4 | u32::from(value))
    })
}

/// Writes words as a closed line.
pub(crate) fn write_line(words: &[i32], line: &mut Vec<u8>) {
    for &word in words {
        for place in (0..DIGITS).rev() {
            let value = word >> (4 * place) & 0xf;
            line.push(b"0123456789abcdef"[value as usize]);
        }
    }
    line.push(b'\n');
}
