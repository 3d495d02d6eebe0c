//! The nine frames, each by a function of its parts. `docs/FORMAT.md` says what they ask.

use crate::{ClauseId, FrameError, Literal, Variable};
use crate::{LONGEST_FRAME, MODEL_WORDS, MOST_LITERALS};

/// What a frame asks for: its word 0.
#[derive(Clone, Copy, Debug, PartialEq, Eq, PartialOrd, Ord, Hash)]
#[repr(i32)]
pub enum Operation {
    Add = 1,
    Learn = 2,
    Forget = 3,
    Promote = 4,
    Drop = 5,
    Weaken = 6,
    Restore = 7,
    Sat = 8,
    Unsat = 9,
}

/// A frame whose counts, lists and length are right. Whether it is accepted, the checker says.
#[derive(Clone, Debug, PartialEq, Eq, Hash)]
pub struct Frame {
    operation: Operation,
    words: Vec<i32>,
}

impl Frame {
    /// A rule.
    pub fn add(id: ClauseId, clause: &[Literal]) -> Result<Frame, FrameError> {
        let clause = distinct(clause)?;
        Frame::new(Operation::Add, &[&[id.word()], &clause])
    }

    /// A clause that follows, by its hints.
    pub fn learn(
        id: ClauseId,
        clause: &[Literal],
        hints: &[ClauseId],
    ) -> Result<Frame, FrameError> {
        let clause = distinct(clause)?;
        let head = [id.word(), clause.len() as i32];
        Frame::new(Operation::Learn, &[&head, &clause, &id_words(hints)])
    }

    /// A learned clause goes.
    pub fn forget(id: ClauseId) -> Frame {
        Frame::of_id(Operation::Forget, id)
    }

    /// A learned clause becomes irredundant.
    pub fn promote(id: ClauseId) -> Frame {
        Frame::of_id(Operation::Promote, id)
    }

    /// An irredundant clause goes, which the others prove by these hints.
    pub fn drop_clause(id: ClauseId, hints: &[ClauseId]) -> Result<Frame, FrameError> {
        Frame::new(Operation::Drop, &[&[id.word()], &id_words(hints)])
    }

    /// An irredundant clause goes to the stack. Its groups come behind it, one by one.
    pub fn weaken(id: ClauseId, witness: &[Literal]) -> Weaken {
        Weaken::new(id, witness)
    }

    /// A stacked clause becomes irredundant again.
    pub fn restore(id: ClauseId) -> Frame {
        Frame::of_id(Operation::Restore, id)
    }

    /// A model, as its true variables, rising.
    pub fn sat(assumptions: &[Literal], true_variables: &[Variable]) -> Result<Frame, FrameError> {
        if let Some(pair) = true_variables.windows(2).find(|pair| pair[0] >= pair[1]) {
            return Err(FrameError::NotRising(pair[1]));
        }
        let assumptions = counted(assumptions)?;
        let head = [assumptions.len() as i32];
        let trues: Vec<i32> = true_variables.iter().map(|v| v.positive().word()).collect();
        Frame::new(Operation::Sat, &[&head, &assumptions, &trues])
    }

    /// That there is no model, by these hints.
    pub fn unsat(assumptions: &[Literal], hints: &[ClauseId]) -> Result<Frame, FrameError> {
        let assumptions = counted(assumptions)?;
        let head = [assumptions.len() as i32];
        Frame::new(Operation::Unsat, &[&head, &assumptions, &id_words(hints)])
    }

    pub fn operation(&self) -> Operation {
        self.operation
    }

    pub fn words(&self) -> &[i32] {
        &self.words
    }

    /// The frame as a line of hexadecimal digits, closed.
    pub fn line(&self) -> String {
        let mut line = Vec::new();
        crate::replies::write_line(&self.words, &mut line);
        line.into_iter().map(char::from).collect()
    }

    /// The ADD that a text yields, which is right.
    pub(crate) fn of_clause(words: &[i32]) -> Frame {
        Frame {
            operation: Operation::Add,
            words: words.to_vec(),
        }
    }

    fn of_id(operation: Operation, id: ClauseId) -> Frame {
        Frame {
            operation,
            words: vec![operation as i32, id.word()],
        }
    }

    fn new(operation: Operation, parts: &[&[i32]]) -> Result<Frame, FrameError> {
        let length = 1 + parts.iter().map(|part| part.len()).sum::<usize>();
        if length > LONGEST_FRAME {
            return Err(FrameError::TooLong(length));
        }
        let mut words = Vec::with_capacity(length);
        words.push(operation as i32);
        parts.iter().for_each(|part| words.extend_from_slice(part));
        Ok(Frame { operation, words })
    }
}

impl AsRef<[i32]> for Frame {
    fn as_ref(&self) -> &[i32] {
        &self.words
    }
}

/// A WEAKEN that is begun. What is wrong with it is said when it is made a frame, so that groups
/// are put behind each other without a look at each.
#[derive(Clone, Debug, PartialEq, Eq)]
#[must_use = "a WEAKEN that is begun is made a frame by `frame`"]
pub struct Weaken {
    id: ClauseId,
    last: Option<ClauseId>,
    made: Result<Frame, FrameError>,
}

impl Weaken {
    fn new(id: ClauseId, witness: &[Literal]) -> Weaken {
        let made = distinct(witness).and_then(|witness| {
            if witness.is_empty() {
                return Err(FrameError::NoWitness);
            }
            let head = [id.word(), witness.len() as i32];
            Frame::new(Operation::Weaken, &[&head, &witness])
        });
        Weaken {
            id,
            last: None,
            made,
        }
    }

    /// The group of another clause, which holds the opposite of a witness literal and no witness
    /// literal: the hints that prove it. Groups come by rising id.
    pub fn group(mut self, other: ClauseId, hints: &[ClauseId]) -> Weaken {
        self.made = self.made.and_then(|mut frame| {
            if other == self.id || self.last.is_some_and(|last| last >= other) {
                return Err(FrameError::WrongGroup(other));
            }
            let length = frame.words.len() + 2 + hints.len();
            if length > LONGEST_FRAME {
                return Err(FrameError::TooLong(length));
            }
            frame.words.extend([other.word(), hints.len() as i32]);
            frame.words.extend(id_words(hints));
            Ok(frame)
        });
        self.last = Some(other);
        self
    }

    pub fn frame(self) -> Result<Frame, FrameError> {
        self.made
    }
}

fn id_words(ids: &[ClauseId]) -> Vec<i32> {
    ids.iter().map(|id| id.word()).collect()
}

/// The words of a list that a frame counts.
fn counted(literals: &[Literal]) -> Result<Vec<i32>, FrameError> {
    if literals.len() > MOST_LITERALS {
        return Err(FrameError::TooMany(literals.len()));
    }
    Ok(literals.iter().map(|literal| literal.word()).collect())
}

/// The words of a clause or witness, which has no variable twice.
fn distinct(literals: &[Literal]) -> Result<Vec<i32>, FrameError> {
    let words = counted(literals)?;
    let mut seen = [0; MODEL_WORDS];
    for literal in literals {
        let (word, bit) = literal.variable().place();
        if seen[word] & bit != 0 {
            return Err(FrameError::Twice(literal.variable()));
        }
        seen[word] |= bit;
    }
    Ok(words)
}
