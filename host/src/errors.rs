//! Why there is no such frame, and a refusal as an error.

use crate::{Answer, ClauseId, Variable};
use crate::{LONGEST_FRAME, MOST_LITERALS, MOST_VARIABLES};
use std::error::Error;
use std::fmt;

/// What the checker would refuse whatever it holds, and is not said to it.
#[derive(Clone, Copy, Debug, PartialEq, Eq)]
pub enum FrameError {
    NoVariable(u32),
    NoLiteral(i32),
    NoId(u32),
    /// A clause, a witness or a list of assumptions of so many literals.
    TooMany(usize),
    /// It is twice in a clause or witness.
    Twice(Variable),
    /// It comes behind one that is not smaller.
    NotRising(Variable),
    /// A witness has a literal.
    NoWitness,
    /// Groups are of other clauses, by rising id.
    WrongGroup(ClauseId),
    /// A frame of so many words.
    TooLong(usize),
}

impl fmt::Display for FrameError {
    fn fmt(&self, out: &mut fmt::Formatter<'_>) -> fmt::Result {
        match self {
            FrameError::NoVariable(number) => {
                write!(out, "{number} is no variable: 1 to {MOST_VARIABLES}")
            }
            FrameError::NoLiteral(word) => {
                write!(
                    out,
                    "{word} is no literal: 1 to {MOST_VARIABLES}, or -1 to -{MOST_VARIABLES}"
                )
            }
            FrameError::NoId(number) => write!(out, "{number} is no id: 1 to {}", i32::MAX),
            FrameError::TooMany(count) => {
                write!(out, "{count} literals: a list has at most {MOST_LITERALS}")
            }
            FrameError::Twice(variable) => write!(out, "variable {variable} is there twice"),
            FrameError::NotRising(variable) => {
                write!(
                    out,
                    "true variable {variable} is not greater than the one before it"
                )
            }
            FrameError::NoWitness => write!(out, "the witness has no literal"),
            FrameError::WrongGroup(id) => {
                write!(
                    out,
                    "the group of clause {id} is of the clause itself, or does not rise"
                )
            }
            FrameError::TooLong(words) => {
                write!(out, "{words} words: a frame has at most {LONGEST_FRAME}")
            }
        }
    }
}

impl Error for FrameError {}

/// An answer that is no acceptance.
#[derive(Clone, Copy, Debug, PartialEq, Eq)]
pub struct Refused(pub Answer);

impl fmt::Display for Refused {
    fn fmt(&self, out: &mut fmt::Formatter<'_>) -> fmt::Result {
        self.0.fmt(out)
    }
}

impl Error for Refused {}
