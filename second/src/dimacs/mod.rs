//! Rules in DIMACS (document 02, request 1): a CNF text is read into ADD frames, or refused under
//! one of nine numbers with the byte position of its first fault.
//!
//! `scan` finds the words of a text, `reading` judges them in order and `frames` keeps the clauses.
//! `program` does all that from standard input to standard output.

mod fault;
mod frames;
pub mod program;
mod reading;
mod scan;

pub use fault::{Fault, Kind};
pub use frames::Frames;
pub use scan::is_blank;

/// What the problem line of a sound text declares.
#[derive(Clone, Copy, Debug, PartialEq, Eq)]
pub struct Declared {
    pub vars: i32,
    pub clauses: usize,
}

/// Judges a text of less than 4 GiB and keeps none of its clauses.
pub fn judge(text: &[u8]) -> Result<Declared, Fault> {
    reading::read(text, &mut ())
}

/// Reads a text of less than 4 GiB into what it declares and its frames. A clause takes two bytes at
/// least, so all ids are positive words.
pub fn read(text: &[u8]) -> Result<(Declared, Frames), Fault> {
    let mut frames = Frames::of_text(text.len());
    let declared = reading::read(text, &mut frames)?;
    Ok((declared, frames))
}

/// The frames of a text. "A text with a fault yields no frame."
pub fn frames(text: &[u8]) -> Frames {
    match read(text) {
        Ok((_, frames)) => frames,
        Err(_) => Frames::default(),
    }
}
