//! A clause written word by word.

use super::layout::Mark;
use super::words::{any_malformed, any_past, any_second_line};
use crate::dimacs::Kind;
use crate::random::Random;
use crate::terms::MOST_LITERALS;

/// A clause written word by word: literals of new variables until a fault is asked for.
pub struct Pen<'r> {
    vars: i32,
    random: &'r mut Random,
    /// Variables that it does not have.
    unused: Vec<i32>,
    used: Vec<i32>,
    literals: usize,
    marks: Vec<Mark>,
}

impl<'r> Pen<'r> {
    pub fn new(vars: i32, random: &'r mut Random) -> Pen<'r> {
        let mut unused: Vec<i32> = (1..=vars).collect();
        random.shuffle(&mut unused);
        Pen {
            vars,
            random,
            unused,
            used: Vec::new(),
            literals: 0,
            marks: Vec::new(),
        }
    }

    /// A literal of a variable that it does not have yet, if there is one left.
    pub fn literal(&mut self) {
        if let Some(variable) = self.unused.pop() {
            self.used.push(variable);
            let literal = self.random.signed(variable);
            self.word(literal.to_string());
        }
    }

    /// Some of them, and never the 257th.
    pub fn literals(&mut self, most: usize) {
        for _ in 0..self.random.between(0, most) {
            if self.literals < MOST_LITERALS {
                self.literal();
            }
        }
    }

    /// As many as a clause may have.
    pub fn fill(&mut self) {
        while self.literals < MOST_LITERALS && !self.unused.is_empty() {
            self.literal();
        }
    }

    fn word(&mut self, word: impl AsRef<[u8]>) {
        self.literals += 1;
        self.marks.push(Mark::word(word));
    }

    /// A word with a fault that a word of a clause can have.
    pub fn fault(&mut self, kind: Kind) {
        match kind {
            Kind::SecondProblemLine => self.marks.push(any_second_line(self.random)),
            Kind::Malformed => self.marks.push(any_malformed(self.random)),
            Kind::PastCount => {
                let word = any_past(self.vars, self.random);
                self.word(word);
            }
            Kind::VariableTwice => self.repeat(),
            _ => {
                self.fill();
                self.literal();
            }
        }
    }

    /// A literal of a variable that it has, with either sign.
    fn repeat(&mut self) {
        if self.used.is_empty() {
            self.literal();
        }
        let place = self.random.below(self.used.len());
        let literal = self.random.signed(self.used[place]);
        self.word(literal.to_string());
    }

    pub fn close(mut self) -> Vec<Mark> {
        self.marks.push(Mark::word("0"));
        self.marks
    }

    pub fn leave_open(self) -> Vec<Mark> {
        self.marks
    }
}
