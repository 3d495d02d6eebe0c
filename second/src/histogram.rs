//! How often each operation got each code.

use crate::lines::{answers, read_words};
use std::collections::BTreeMap;
use std::fmt;

/// The codes of document 01.
pub const CODES: std::ops::RangeInclusive<u32> = 0..=13;

/// What a line asks for, by its first word.
#[derive(Clone, Copy, Debug, PartialEq, Eq, PartialOrd, Ord)]
pub enum Asked {
    /// One of the nine operations.
    Operation(i32),
    /// A frame that is empty or whose first word is no operation.
    Unknown,
    /// No frame at all.
    BadLine,
}

/// The rows of the table of nine frames, and two more for lines that are none of them.
pub const ROWS: [Asked; 11] = [
    Asked::Operation(1),
    Asked::Operation(2),
    Asked::Operation(3),
    Asked::Operation(4),
    Asked::Operation(5),
    Asked::Operation(6),
    Asked::Operation(7),
    Asked::Operation(8),
    Asked::Operation(9),
    Asked::Unknown,
    Asked::BadLine,
];

impl Asked {
    /// What a closed line, given without its 0A, asks for.
    pub fn by(line: &[u8]) -> Asked {
        let mut words = Vec::new();
        match read_words(line, &mut words) {
            None => Asked::BadLine,
            Some(()) => Asked::of(&words),
        }
    }

    /// What a frame asks for.
    pub fn of(frame: &[i32]) -> Asked {
        match frame.first() {
            Some(&operation @ 1..=9) => Asked::Operation(operation),
            _ => Asked::Unknown,
        }
    }
}

impl fmt::Display for Asked {
    fn fmt(&self, out: &mut fmt::Formatter<'_>) -> fmt::Result {
        let name = match self {
            Asked::Operation(operation) => crate::words::operation_name(*operation),
            Asked::Unknown => "unknown",
            Asked::BadLine => "bad line",
        };
        out.pad(name)
    }
}

/// The lines of an input: each without its 0A, and whether it was closed by one.
pub fn lines_of(input: &[u8]) -> impl Iterator<Item = (&[u8], bool)> {
    let lines = input.split_inclusive(|&byte| byte == b'\n');
    lines.map(|line| match line.strip_suffix(b"\n") {
        Some(closed) => (closed, true),
        None => (line, false),
    })
}

#[derive(Clone, Debug, Default)]
pub struct Histogram {
    times: BTreeMap<(Asked, u32), u64>,
}

impl Histogram {
    /// Counts the lines of a trace by the answers of the line program.
    pub fn count_trace(&mut self, trace: &[u8]) {
        self.count_answers(trace, &answers(trace));
    }

    /// Counts the lines of a trace by given answers.
    pub fn count_answers(&mut self, trace: &[u8], answers: &[u8]) {
        for ((line, closed), (answer, _)) in lines_of(trace).zip(lines_of(answers)) {
            let asked = if closed {
                Asked::by(line)
            } else {
                Asked::BadLine
            };
            let mut words = Vec::new();
            if read_words(answer, &mut words).is_some() && !words.is_empty() {
                self.count(asked, words[0] as u32);
            }
        }
    }

    /// Counts one answer.
    pub fn count(&mut self, asked: Asked, code: u32) {
        *self.times.entry((asked, code)).or_default() += 1;
    }

    pub fn times(&self, asked: Asked, code: u32) -> u64 {
        self.times.get(&(asked, code)).copied().unwrap_or(0)
    }

    pub fn lines(&self) -> u64 {
        self.times.values().sum()
    }
}

impl fmt::Display for Histogram {
    fn fmt(&self, out: &mut fmt::Formatter<'_>) -> fmt::Result {
        write!(out, "{:8}", "")?;
        for code in CODES {
            write!(out, " {code:>7}")?;
        }
        writeln!(out)?;
        for asked in ROWS {
            write!(out, "{asked:8}")?;
            for code in CODES {
                match self.times(asked, code) {
                    0 => write!(out, " {:>7}", ".")?,
                    times => write!(out, " {times:>7}")?,
                }
            }
            writeln!(out)?;
        }
        Ok(())
    }
}
