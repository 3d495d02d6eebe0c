//! Who writes a trace: says frames to a checker, so as to know the state, and keeps the lines.

use crate::answer::Answer;
use crate::checker::Checks;
use crate::lines::write_frame;
use crate::random::Random;
use crate::state::State;

pub struct Author<'c> {
    checker: &'c mut dyn Checks,
    pub random: Random,
    lines: Vec<u8>,
}

impl<'c> Author<'c> {
    pub fn new(checker: &'c mut dyn Checks, seed: u64) -> Author<'c> {
        Author {
            checker,
            random: Random::new(seed),
            lines: Vec::new(),
        }
    }

    /// Writes the frame as a line and steps.
    pub fn say(&mut self, frame: &[i32]) -> Answer {
        write_frame(frame, &mut self.lines);
        self.checker.step(frame)
    }

    /// Writes bytes that are no frame.
    pub fn write_raw(&mut self, bytes: &[u8]) {
        self.lines.extend_from_slice(bytes);
    }

    pub fn state(&self) -> &State {
        self.checker.state()
    }

    /// The state to look at and the random numbers to draw from, side by side.
    pub fn desk(&mut self) -> (&State, &mut Random) {
        (self.checker.state(), &mut self.random)
    }

    /// An id that is new as long as any is left.
    pub fn new_id(&mut self) -> i32 {
        let (state, random) = self.desk();
        new_id(state, random)
    }

    /// Literals of distinct variables.
    pub fn literals(&mut self, length: usize) -> Vec<i32> {
        let (state, random) = self.desk();
        random.literals(state.vars, length)
    }

    pub fn into_lines(self) -> Vec<u8> {
        self.lines
    }
}

/// Mostly the next id, sometimes with a gap.
pub fn new_id(state: &State, random: &mut Random) -> i32 {
    let gap = if random.one_in(8) { random.below(9) } else { 0 };
    state.highest.saturating_add(1 + gap as i32)
}
