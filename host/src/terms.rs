//! What frames are made of: variables, literals and ids. Each is in range by its type, so that a
//! frame made of them can only be wrong as a whole.

use crate::{FrameError, MOST_VARIABLES};
use std::fmt;
use std::ops::Neg;

/// A variable: 1 to 2,048. A session may have fewer; the checker refuses those past its last one.
#[derive(Clone, Copy, Debug, PartialEq, Eq, PartialOrd, Ord, Hash)]
#[repr(transparent)]
pub struct Variable(i32);

/// A variable or its opposite, written as v or -v.
#[derive(Clone, Copy, Debug, PartialEq, Eq, PartialOrd, Ord, Hash)]
#[repr(transparent)]
pub struct Literal(i32);

/// The id of a clause: 1 to 2,147,483,647.
#[derive(Clone, Copy, Debug, PartialEq, Eq, PartialOrd, Ord, Hash)]
#[repr(transparent)]
pub struct ClauseId(i32);

impl Variable {
    pub const fn new(number: u32) -> Result<Variable, FrameError> {
        if number == 0 || number > MOST_VARIABLES {
            return Err(FrameError::NoVariable(number));
        }
        Ok(Variable(number as i32))
    }

    /// All of them, or the first that is none.
    pub fn list(numbers: &[u32]) -> Result<Vec<Variable>, FrameError> {
        numbers.iter().copied().map(Variable::new).collect()
    }

    pub const fn number(self) -> u32 {
        self.0 as u32
    }

    /// The literal that is true where the variable is.
    pub const fn positive(self) -> Literal {
        Literal(self.0)
    }

    /// The literal that is true where the variable is not.
    pub const fn negative(self) -> Literal {
        Literal(-self.0)
    }

    /// The word of a model that says whether it is true, and the bit there.
    pub(crate) const fn place(self) -> (usize, u64) {
        let bit = self.0 as usize - 1;
        (bit / 64, 1 << (bit % 64))
    }
}

impl Literal {
    pub const fn new(word: i32) -> Result<Literal, FrameError> {
        if word == 0 || word.unsigned_abs() > MOST_VARIABLES {
            return Err(FrameError::NoLiteral(word));
        }
        Ok(Literal(word))
    }

    /// All of them, or the first that is none.
    pub fn list(words: &[i32]) -> Result<Vec<Literal>, FrameError> {
        words.iter().copied().map(Literal::new).collect()
    }

    pub const fn word(self) -> i32 {
        self.0
    }

    pub const fn variable(self) -> Variable {
        Variable(self.0.abs())
    }

    pub const fn is_positive(self) -> bool {
        self.0 > 0
    }

    /// Words of a pool as the literals that they are, with no copy. The caller knows that each is
    /// in range: it is a word of a clause or witness that a state holds.
    pub(crate) fn held(words: &[i32]) -> &[Literal] {
        // SAFETY: a literal has the layout of its word, and no bits of a word are forbidden to it.
        unsafe { std::slice::from_raw_parts(words.as_ptr().cast(), words.len()) }
    }
}

impl ClauseId {
    pub const fn new(number: u32) -> Result<ClauseId, FrameError> {
        if number == 0 || number > i32::MAX as u32 {
            return Err(FrameError::NoId(number));
        }
        Ok(ClauseId(number as i32))
    }

    /// All of them, or the first that is none.
    pub fn list(numbers: &[u32]) -> Result<Vec<ClauseId>, FrameError> {
        numbers.iter().copied().map(ClauseId::new).collect()
    }

    pub const fn number(self) -> u32 {
        self.0 as u32
    }

    /// As a frame's word.
    pub const fn word(self) -> i32 {
        self.0
    }

    /// The id after this one, unless this is the last.
    pub const fn next(self) -> Option<ClauseId> {
        match self.0.checked_add(1) {
            Some(next) => Some(ClauseId(next)),
            None => None,
        }
    }

    /// The id of an entry that a state holds, which is in range.
    pub(crate) fn held(id: u32) -> ClauseId {
        ClauseId(id as i32)
    }
}

impl From<Variable> for Literal {
    fn from(variable: Variable) -> Literal {
        variable.positive()
    }
}

impl Neg for Variable {
    type Output = Literal;

    fn neg(self) -> Literal {
        self.negative()
    }
}

impl Neg for Literal {
    type Output = Literal;

    /// The opposite.
    fn neg(self) -> Literal {
        Literal(-self.0)
    }
}

impl fmt::Display for Variable {
    fn fmt(&self, out: &mut fmt::Formatter<'_>) -> fmt::Result {
        self.0.fmt(out)
    }
}

impl fmt::Display for Literal {
    fn fmt(&self, out: &mut fmt::Formatter<'_>) -> fmt::Result {
        self.0.fmt(out)
    }
}

impl fmt::Display for ClauseId {
    fn fmt(&self, out: &mut fmt::Formatter<'_>) -> fmt::Result {
        self.0.fmt(out)
    }
}
