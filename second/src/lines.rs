//! The hexadecimal line program.
//!
//! Bytes come in parts of any length; an unfinished line is held back, never more of it than
//! is needed to know that it is too long.

use crate::answer::{Answer, Refusal};
use crate::checker::{Checker, Checks};
use crate::terms::{LONGEST_FRAME, MOST_ENTRIES, MOST_VARIABLES, MOST_WORDS};
use std::io::{self, BufWriter, Read, Write};

/// "eight lowercase hexadecimal digits a word"
pub const DIGITS: usize = 8;
/// "over 32,768 digits ... is refused"
pub const MOST_DIGITS: usize = LONGEST_FRAME * DIGITS;
/// Code, detail and the closing 0A.
pub const SHORTEST_ANSWER: usize = 2 * DIGITS + 1;
/// An accepted SAT has the true variables between them: at most all.
pub const LONGEST_ANSWER: usize = SHORTEST_ANSWER + MOST_VARIABLES as usize * DIGITS;
/// How much the program reads at once.
const PART: usize = 64 * 1024;

/// "The program opens V = 2,048, 1,024 entries and 8,192 words."
pub fn opened() -> Checker {
    Checker::open(MOST_VARIABLES, MOST_ENTRIES, MOST_WORDS)
        .expect("the program's sizes are within the bounds of opening")
}

/// Answers all of the input. Answers are written out before more is read.
pub fn run(mut input: impl Read, output: impl Write) -> io::Result<()> {
    let mut output = BufWriter::new(output);
    let mut lines = Lines::new(opened());
    let mut part = vec![0; PART];
    loop {
        match input.read(&mut part) {
            Ok(0) => break,
            Ok(length) => lines.push(&part[..length], &mut output)?,
            Err(error) if error.kind() == io::ErrorKind::Interrupted => continue,
            Err(error) => return Err(error),
        }
        output.flush()?;
    }
    lines.end(&mut output)?;
    output.flush()
}

/// The answers to a whole input.
pub fn answers(input: &[u8]) -> Vec<u8> {
    let mut output = Vec::new();
    run(input, &mut output).expect("a vector takes every byte");
    output
}

/// A checker that is spoken to in lines.
pub struct Lines<C> {
    checker: C,
    /// The unfinished line, cut one byte past the most a line may have.
    line: Vec<u8>,
    /// The words of the line just closed.
    frame: Vec<i32>,
    /// The answer being written.
    answer: Vec<u8>,
}

impl<C: Checks> Lines<C> {
    pub fn new(checker: C) -> Lines<C> {
        Lines::within(checker, Vec::new())
    }

    /// Goes on within a line, which has begun and is not closed yet.
    pub fn within(checker: C, line: Vec<u8>) -> Lines<C> {
        Lines {
            checker,
            line,
            frame: Vec::new(),
            answer: Vec::new(),
        }
    }

    pub fn checker(&self) -> &C {
        &self.checker
    }

    /// What is held of the line that is not closed yet.
    pub fn unclosed(&self) -> &[u8] {
        &self.line
    }

    /// Takes the next part of the input and answers each line that it closes.
    pub fn push(&mut self, part: &[u8], output: &mut impl Write) -> io::Result<()> {
        for piece in part.split_inclusive(|&byte| byte == b'\n') {
            match piece.strip_suffix(b"\n") {
                Some(rest) => {
                    self.hold(rest);
                    self.close(output)?;
                }
                None => self.hold(piece),
            }
        }
        Ok(())
    }

    /// The input has ended: a line "unclosed at the end, is refused 2".
    pub fn end(&mut self, output: &mut impl Write) -> io::Result<()> {
        if self.line.is_empty() {
            return Ok(());
        }
        self.line.clear();
        self.write(&Refusal::Counts.into(), output)
    }

    /// Once a line is too long, what follows in it changes nothing.
    fn hold(&mut self, piece: &[u8]) {
        let room = MOST_DIGITS + 1 - self.line.len();
        let kept = piece.len().min(room);
        self.line.extend_from_slice(&piece[..kept]);
    }

    fn close(&mut self, output: &mut impl Write) -> io::Result<()> {
        let answer = match read_words(&self.line, &mut self.frame) {
            Some(()) => self.checker.step(&self.frame),
            None => Refusal::Counts.into(),
        };
        self.line.clear();
        self.write(&answer, output)
    }

    fn write(&mut self, answer: &Answer, output: &mut impl Write) -> io::Result<()> {
        self.answer.clear();
        write_answer(answer, &mut self.answer);
        output.write_all(&self.answer)
    }
}

/// "it writes code and detail in the same form; after an accepted SAT the true variables
/// follow, rising"
pub fn write_answer(answer: &Answer, line: &mut Vec<u8>) {
    write_word(answer.code, line);
    write_word(answer.detail, line);
    for &variable in answer.model.iter().flatten() {
        write_word(variable as u32, line);
    }
    line.push(b'\n');
}

/// Reads a line without its 0A into words, unless it has "any other byte, a length not a
/// multiple of eight" or "over 32,768 digits".
pub fn read_words(line: &[u8], words: &mut Vec<i32>) -> Option<()> {
    words.clear();
    let all_digits = line.chunks_exact(DIGITS);
    if line.len() > MOST_DIGITS || !all_digits.remainder().is_empty() {
        return None;
    }
    for digits in all_digits {
        words.push(read_word(digits)?);
    }
    Some(())
}

/// "most significant first"
fn read_word(digits: &[u8]) -> Option<i32> {
    let mut word = 0u32;
    for &digit in digits {
        word = word << 4 | u32::from(digit_value(digit)?);
    }
    // "each 32 bits, two's complement"
    Some(word as i32)
}

/// What a lowercase digit counts; any other byte is none.
pub fn digit_value(byte: u8) -> Option<u8> {
    match byte {
        b'0'..=b'9' => Some(byte - b'0'),
        b'a'..=b'f' => Some(byte - b'a' + 10),
        _ => None,
    }
}

/// Writes a frame as a closed line.
pub fn write_frame(frame: &[i32], line: &mut Vec<u8>) {
    for &word in frame {
        write_word(word as u32, line);
    }
    line.push(b'\n');
}

/// Writes a word as eight digits.
pub fn write_word(word: u32, line: &mut Vec<u8>) {
    let mut digits = [0; DIGITS];
    for (place, digit) in digits.iter_mut().rev().enumerate() {
        let value = word >> (4 * place) & 0xf;
        *digit = b"0123456789abcdef"[value as usize];
    }
    line.extend_from_slice(&digits);
}
