//! The nine faults of a text.

use std::fmt;

/// What is wrong, in the order of request 1's list: "at one place this list's order decides".
#[derive(Clone, Copy, Debug, PartialEq, Eq, PartialOrd, Ord)]
pub enum Kind {
    /// 21: "a missing .. problem line"
    MissingProblemLine,
    /// 22: "or second problem line"
    SecondProblemLine,
    /// 23: "any other malformed word"
    Malformed,
    /// 24: "a literal past the declared count"
    PastCount,
    /// 25: "a variable twice in a clause"
    VariableTwice,
    /// 26: "a clause over 256 literals"
    TooLong,
    /// 27: "a declared variable count outside 1 to 2,048"
    VariableCount,
    /// 28: "an unclosed clause"
    Unclosed,
    /// 29: "a wrong clause count"
    ClauseCount,
}

impl Kind {
    /// All of them, by rising number.
    pub const ALL: [Kind; 9] = [
        Kind::MissingProblemLine,
        Kind::SecondProblemLine,
        Kind::Malformed,
        Kind::PastCount,
        Kind::VariableTwice,
        Kind::TooLong,
        Kind::VariableCount,
        Kind::Unclosed,
        Kind::ClauseCount,
    ];

    /// "each under its own number"
    pub fn number(self) -> u32 {
        21 + self as u32
    }

    /// The fault of a number.
    pub fn of(number: u32) -> Option<Kind> {
        Kind::ALL.into_iter().find(|kind| kind.number() == number)
    }

    /// This fault at a place.
    pub fn at(self, position: usize) -> Fault {
        Fault {
            kind: self,
            position,
        }
    }

    fn meaning(self) -> &'static str {
        match self {
            Kind::MissingProblemLine => "the problem line is missing",
            Kind::SecondProblemLine => "a second problem line",
            Kind::Malformed => "a malformed word",
            Kind::PastCount => "a literal past the declared count",
            Kind::VariableTwice => "a variable twice in a clause",
            Kind::TooLong => "a clause over 256 literals",
            Kind::VariableCount => "a declared variable count outside 1 to 2,048",
            Kind::Unclosed => "an unclosed clause",
            Kind::ClauseCount => "a wrong clause count",
        }
    }
}

impl fmt::Display for Kind {
    fn fmt(&self, out: &mut fmt::Formatter<'_>) -> fmt::Result {
        write!(out, "{} ({})", self.number(), self.meaning())
    }
}

/// The first fault of a text.
#[derive(Clone, Copy, Debug, PartialEq, Eq)]
pub struct Fault {
    pub kind: Kind,
    /// "the byte position where the first faulty word starts", or the text's length; from 0.
    pub position: usize,
}

impl fmt::Display for Fault {
    fn fmt(&self, out: &mut fmt::Formatter<'_>) -> fmt::Result {
        write!(out, "{} at byte {}", self.kind, self.position)
    }
}
