//! What a run has tried.

use crate::histogram::{Asked, Histogram};
use crate::lent::expected::Expected;
use crate::lent::giving::Fed;
use crate::lines::LONGEST_ANSWER;
use std::collections::BTreeMap;
use std::fmt;

/// What parts of the line input come to.
pub const OUTCOMES: [&str; 7] = [
    "parts with an accepted change",
    "parts without an accepted change",
    "parts of no byte",
    "parts that close several lines",
    "parts that leave a line begun",
    "parts not wholly taken",
    "parts with an answer of 16,401 bytes",
];

/// How often, by name.
type Times<Name> = BTreeMap<Name, u64>;

#[derive(Clone, Debug, Default)]
pub struct Tally {
    pub calls: u64,
    /// Operation by code, of frames.
    pub frames: Histogram,
    /// Operation by code, of lines.
    pub lines: Histogram,
    /// Each call.
    pub made: Times<&'static str>,
    /// Each outcome of parts of the line input.
    pub outcomes: Times<&'static str>,
    /// Each kind of wrong tables and buffers, by the call that they were handed to.
    pub wrong: Times<(&'static str, &'static str)>,
}

impl fmt::Display for Tally {
    fn fmt(&self, out: &mut fmt::Formatter<'_>) -> fmt::Result {
        write!(out, "frames\n{}lines\n{}", self.frames, self.lines)?;
        for ((call, name), times) in &self.wrong {
            writeln!(out, "{times:>8} {call}: {name}")?;
        }
        for (name, times) in self.outcomes.iter().chain(&self.made) {
            writeln!(out, "{times:>8} {name}")?;
        }
        writeln!(out, "{} calls", self.calls)
    }
}

impl Tally {
    /// Counts a call.
    pub(super) fn made(&mut self, call: &'static str) {
        self.calls += 1;
        *self.made.entry(call).or_default() += 1;
    }

    pub(super) fn said(&mut self, frame: &[i32], expected: &Expected) {
        self.made("step");
        self.frames.count(Asked::of(frame), expected.code);
    }

    pub(super) fn given(&mut self, part: &[u8], fed: &Fed) {
        self.made("give");
        for &(asked, code) in &fed.closed {
            self.lines.count(asked, code);
        }
        if fed.code != 0 {
            return;
        }
        let mut answers = fed.answers.split_inclusive(|&byte| byte == b'\n');
        let came_to = [
            fed.state.is_some(),
            fed.state.is_none(),
            part.is_empty(),
            fed.closed.len() > 1,
            fed.line.as_ref().is_some_and(|line| !line.is_empty()),
            fed.taken < part.len(),
            answers.any(|answer| answer.len() == LONGEST_ANSWER),
        ];
        for (name, so) in OUTCOMES.into_iter().zip(came_to) {
            *self.outcomes.entry(name).or_default() += u64::from(so);
        }
    }

    pub(super) fn wrong(&mut self, call: &'static str, name: &'static str) {
        *self.wrong.entry((call, name)).or_default() += 1;
    }
}
