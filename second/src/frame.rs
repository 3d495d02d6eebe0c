//! The nine frames: what the words of a frame are, and the faults 2 and 3 that can be judged
//! without looking at any clause.

use crate::answer::Refusal;
use crate::terms::{is_literal, LONGEST_FRAME, MOST_LITERALS};
use crate::values::Values;

/// A run of words of a frame that knows where in the frame it starts, for details that are
/// word indices.
#[derive(Clone, Copy, Debug, PartialEq, Eq)]
pub struct Part<'f> {
    pub start: usize,
    pub words: &'f [i32],
}

impl<'f> Part<'f> {
    /// The words from `start` to the end of the frame.
    fn rest(frame: &'f [i32], start: usize) -> Part<'f> {
        Part {
            start,
            words: &frame[start..],
        }
    }

    /// The first `length` words of this part and the words behind them.
    pub fn split(self, length: usize) -> Option<(Part<'f>, Part<'f>)> {
        let (head, tail) = self.words.split_at_checked(length)?;
        let behind = Part {
            start: self.start + length,
            words: tail,
        };
        Some((
            Part {
                words: head,
                ..self
            },
            behind,
        ))
    }

    /// The words with their indices in the frame.
    pub fn indexed(self) -> impl Iterator<Item = (usize, i32)> + 'f {
        (self.start..).zip(self.words.iter().copied())
    }
}

/// A frame whose counts and lengths are right.
#[derive(Clone, Copy, Debug, PartialEq, Eq)]
pub enum Frame<'f> {
    Add {
        id: i32,
        clause: Part<'f>,
    },
    Learn {
        id: i32,
        clause: Part<'f>,
        hints: Part<'f>,
    },
    Forget {
        id: i32,
    },
    Promote {
        id: i32,
    },
    Drop {
        id: i32,
        hints: Part<'f>,
    },
    Weaken {
        id: i32,
        witness: Part<'f>,
        groups: Part<'f>,
    },
    Restore {
        id: i32,
    },
    Sat {
        assumptions: Part<'f>,
        true_variables: Part<'f>,
    },
    Unsat {
        assumptions: Part<'f>,
        hints: Part<'f>,
    },
}

/// "The least word counts are 2, 3, 2, 2, 2, 3, 2, 2, 2"
const LEAST_WORDS: [usize; 9] = [2, 3, 2, 2, 2, 3, 2, 2, 2];

impl<'f> Frame<'f> {
    /// Code 2: "empty or too long, unknown op, word or list count wrong, in ops 1 to 7 word 1
    /// not positive".
    pub fn read(words: &'f [i32]) -> Result<Frame<'f>, Refusal> {
        Frame::counted(words).ok_or(Refusal::Counts)
    }

    fn counted(words: &'f [i32]) -> Option<Frame<'f>> {
        let operation = *words.first()?;
        let row = usize::try_from(operation).ok()?.checked_sub(1)?;
        let least = *LEAST_WORDS.get(row)?;
        if words.len() < least || words.len() > LONGEST_FRAME {
            return None;
        }
        if operation >= 8 {
            return Frame::question(operation, words);
        }
        let id = words[1];
        if id <= 0 {
            return None;
        }
        match operation {
            1 | 2 | 5 | 6 => Frame::with_lists(operation, id, words),
            // "FORGET, PROMOTE and RESTORE have exactly 2."
            _ if words.len() != 2 => None,
            3 => Some(Frame::Forget { id }),
            4 => Some(Frame::Promote { id }),
            _ => Some(Frame::Restore { id }),
        }
    }

    /// ADD, LEARN, DROP and WEAKEN.
    fn with_lists(operation: i32, id: i32, words: &'f [i32]) -> Option<Frame<'f>> {
        let rest = Part::rest(words, 2);
        match operation {
            1 if rest.words.len() > MOST_LITERALS => None,
            1 => Some(Frame::Add { id, clause: rest }),
            2 => {
                let (clause, hints) = list(rest, 0)?;
                Some(Frame::Learn { id, clause, hints })
            }
            5 => Some(Frame::Drop { id, hints: rest }),
            _ => {
                let (witness, groups) = list(rest, 1)?;
                Some(Frame::Weaken {
                    id,
                    witness,
                    groups,
                })
            }
        }
    }

    /// SAT and UNSAT.
    fn question(operation: i32, words: &'f [i32]) -> Option<Frame<'f>> {
        let (assumptions, rest) = list(Part::rest(words, 1), 0)?;
        Some(match operation {
            8 => Frame::Sat {
                assumptions,
                true_variables: rest,
            },
            _ => Frame::Unsat {
                assumptions,
                hints: rest,
            },
        })
    }

    /// Code 3. Hints and groups are no literals, so they are not looked at.
    pub fn judge_literals(&self, vars: i32, seen: &mut Values) -> Result<(), Refusal> {
        match self {
            Frame::Add { clause, .. } | Frame::Learn { clause, .. } => {
                judge_distinct(*clause, vars, seen)
            }
            Frame::Weaken { witness, .. } => judge_distinct(*witness, vars, seen),
            Frame::Sat {
                assumptions,
                true_variables,
            } => {
                judge_range(*assumptions, vars)?;
                judge_rising(*true_variables, vars)
            }
            Frame::Unsat { assumptions, .. } => judge_range(*assumptions, vars),
            Frame::Forget { .. }
            | Frame::Promote { .. }
            | Frame::Drop { .. }
            | Frame::Restore { .. } => Ok(()),
        }
    }
}

/// A count word, `least` to 256, and as many words behind it; then what is left.
fn list(part: Part<'_>, least: usize) -> Option<(Part<'_>, Part<'_>)> {
    let (count, behind) = part.split(1)?;
    let count = usize::try_from(count.words[0]).ok()?;
    if count < least || count > MOST_LITERALS {
        return None;
    }
    behind.split(count)
}

/// "Assumptions may repeat or oppose each other", so only their range is judged.
fn judge_range(literals: Part<'_>, vars: i32) -> Result<(), Refusal> {
    refuse_first(literals, |word| !is_literal(word, vars))
}

/// "no variable occurs twice, with either sign"; of a repeated variable the later word is the
/// fault.
fn judge_distinct(literals: Part<'_>, vars: i32, seen: &mut Values) -> Result<(), Refusal> {
    seen.clear();
    refuse_first(literals, |word| {
        let fault = !is_literal(word, vars) || !seen.is_open(word);
        if !fault {
            seen.make_true(word);
        }
        fault
    })
}

/// "true variables not in 1 to V and rising"
fn judge_rising(variables: Part<'_>, vars: i32) -> Result<(), Refusal> {
    let mut last = 0;
    refuse_first(variables, |word| {
        let fault = word <= last || word > vars;
        last = word;
        fault
    })
}

/// "index of first such word"
fn refuse_first(part: Part<'_>, mut fault: impl FnMut(i32) -> bool) -> Result<(), Refusal> {
    match part.indexed().find(|&(_, word)| fault(word)) {
        Some((word, _)) => Err(Refusal::Literal { word }),
        None => Ok(()),
    }
}
