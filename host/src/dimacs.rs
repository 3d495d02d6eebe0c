//! Rules as DIMACS text, of any bytes: judged, and handed out as the frames that add them.
//!
//! ```
//! use zahrubel::{dimacs, Code};
//!
//! # fn main() -> Result<(), Box<dyn std::error::Error>> {
//! let text = b"c two rules\np cnf 3 2\n-1 2 0\n-2 3 0\n";
//! let cnf = dimacs::judge(text)?;
//! assert_eq!((cnf.vars, cnf.clauses), (3, 2));
//! let rules: Vec<_> = dimacs::frames(text).collect::<Result<_, _>>()?;
//! assert_eq!(rules[1].to_string(), "ADD 2 (-2 3)");
//! let fault = dimacs::judge(b"p cnf 3 1\n1 4 0\n").unwrap_err();
//! assert_eq!(fault.0.meaning(), Some(Code::PastDeclared));
//! assert_eq!(fault.0.detail, 12);
//! # Ok(())
//! # }
//! ```

use crate::{linked, Answer, Frame, Refused, MOST_LITERALS};
use std::iter::FusedIterator;

/// The frame of a clause has at most this many words, and a buffer for it at least as many.
pub const LONGEST_ADD: usize = 2 + MOST_LITERALS;

/// What a text without fault has: V, from 1 to 2,048, and so many clauses.
#[repr(C)]
#[derive(Clone, Copy, Debug, Default, PartialEq, Eq)]
pub struct Cnf {
    pub vars: u64,
    pub clauses: u64,
}

/// How far the clauses of a text are handed out: behind the one with this id, which ends at this
/// byte; none is yet by default.
#[repr(C)]
#[derive(Clone, Copy, Debug, Default, PartialEq, Eq)]
pub struct Cursor {
    pub at: usize,
    pub id: u64,
}

/// Judges a text: what it has, or its first fault with the byte where it stands.
pub fn judge(text: &[u8]) -> Result<Cnf, Refused> {
    let mut cnf = Cnf::default();
    judge_into(text, &mut cnf).accepted()?;
    Ok(cnf)
}

/// The frames of a text, rule after rule, with ids from 1 on. The first asks for the whole text to
/// be judged, so a faulty one yields its fault and nothing else.
pub fn frames(text: &[u8]) -> Frames<'_> {
    Frames {
        text,
        cursor: Cursor::default(),
        frame: [0; LONGEST_ADD],
        ended: false,
    }
}

/// Hands out the frames of a text. Nothing comes behind an error.
#[derive(Clone, Debug)]
pub struct Frames<'t> {
    text: &'t [u8],
    cursor: Cursor,
    frame: [i32; LONGEST_ADD],
    ended: bool,
}

impl Iterator for Frames<'_> {
    type Item = Result<Frame, Refused>;

    fn next(&mut self) -> Option<Result<Frame, Refused>> {
        if self.ended {
            return None;
        }
        let answer = next_into(self.text, &mut self.cursor, &mut self.frame);
        let item = match answer.accepted() {
            Ok(0) => None,
            Ok(words) => Some(Ok(Frame::of_clause(&self.frame[..words as usize]))),
            Err(refused) => Some(Err(refused)),
        };
        self.ended = !matches!(item, Some(Ok(_)));
        item
    }
}

impl FusedIterator for Frames<'_> {}

/// The call that judges: a faulty text leaves what is lent as it is.
pub fn judge_into(text: &[u8], cnf: &mut Cnf) -> Answer {
    // SAFETY: each pointer comes from a reference, with that reference's length; the one that can
    // be written is exclusive.
    unsafe { linked::zahrubel_dimacs_judge(text.as_ptr(), text.len(), cnf) }
}

/// The call that hands out a frame: so many words of the buffer, none where no clause is left. But
/// for a frame, cursor and buffer stay as they are.
pub fn next_into(text: &[u8], cursor: &mut Cursor, frame: &mut [i32]) -> Answer {
    // SAFETY: as above.
    unsafe {
        linked::zahrubel_dimacs_next(
            text.as_ptr(),
            text.len(),
            cursor,
            frame.as_mut_ptr(),
            frame.len(),
        )
    }
}
