//! Bytes that come in: lines of frames, and lines that are none, cut anywhere.

use super::asks::Asker;
use crate::checker::{Checker, Checks};
use crate::lines::{write_frame, MOST_DIGITS};
use crate::random::Random;
use crate::state::State;
use crate::traces::bad_lines::bad_line;

/// What is not taken yet.
#[derive(Default)]
pub struct Input {
    bytes: Vec<u8>,
}

impl Input {
    /// Writes some lines, each said in the state that those before it lead to; nothing as long as
    /// there is something left.
    pub fn refill(&mut self, state: &State, asker: &mut Asker, random: &mut Random) {
        if !self.bytes.is_empty() {
            return;
        }
        let mut checker = Checker::with_state(state.clone());
        for _ in 0..random.between(1, 6) {
            match random.below(24) {
                0 | 1 => self.write_bad_line(random),
                2 => self.write_any_bytes(random),
                3 | 4 => write_frame(&all_true(state.vars), &mut self.bytes),
                _ => {
                    let frame = asker.next_frame(checker.state(), random);
                    checker.step(&frame);
                    write_frame(&frame, &mut self.bytes);
                }
            }
        }
    }

    fn write_bad_line(&mut self, random: &mut Random) {
        self.bytes.extend(bad_line(random));
        self.bytes.push(b'\n');
    }

    /// Digits, ends of lines and other bytes in any order.
    fn write_any_bytes(&mut self, random: &mut Random) {
        for _ in 0..random.between(1, 60) {
            let byte = match random.below(6) {
                0 => b'\n',
                1 => random.draw() as u8,
                _ => any_digit(random),
            };
            self.bytes.push(byte);
        }
    }

    /// What comes next: all that is left, nothing, or it is cut anywhere.
    pub fn next_part(&self, random: &mut Random) -> &[u8] {
        let left = self.bytes.len();
        let length = match random.below(6) {
            0 => random.below(2),
            1 => random.below(20),
            2 => random.below(left + 1),
            _ => left,
        };
        &self.bytes[..length.min(left)]
    }

    pub fn take(&mut self, bytes: usize) {
        self.bytes.drain(..bytes);
    }
}

/// SAT with every variable true: the longest answer, where it is accepted and V is 2,048.
fn all_true(vars: i32) -> Vec<i32> {
    [8, 0].into_iter().chain(1..=vars).collect()
}

/// A closed line of the most digits, or of some more or fewer: UNSAT by opposite assumptions, with
/// hints that nobody reads.
pub fn long_line(random: &mut Random) -> Vec<u8> {
    let digits = match random.below(2) {
        0 => MOST_DIGITS,
        _ => MOST_DIGITS - 8 + random.below(17),
    };
    let mut line = b"000000090000000200000001ffffffff".to_vec();
    line.resize_with(digits, || any_digit(random));
    line.push(b'\n');
    line
}

fn any_digit(random: &mut Random) -> u8 {
    b"0123456789abcdef"[random.below(16)]
}
