//! The line input: frames as lines of hexadecimal digits, given in parts of any bytes.

use crate::{linked, Answer, Carried, Entry};

/// A frame buffer has at least this many words, since a frame may.
pub const LONGEST_FRAME: usize = 4_096;
/// An answer has at most this many bytes: code, detail, 2,048 variables and the end of the line.
pub const LONGEST_ANSWER: usize = 16_401;
/// An answer without a model.
pub const SHORTEST_ANSWER: usize = 17;

/// What is read of a line that is not closed yet; nothing by default. The words of the line lie in
/// the frame buffer, which goes from call to call with the reader.
#[repr(C)]
#[derive(Clone, Copy, Debug, Default, PartialEq, Eq)]
pub struct Reader {
    pub digits: u64,
    pub word: u64,
    /// 0 for no, any other number for yes.
    pub spoilt: u64,
}

/// How many bytes of a part were taken, and how many bytes of answers were written.
#[repr(C)]
#[derive(Clone, Copy, Debug, Default, PartialEq, Eq)]
pub struct Given {
    pub taken: u64,
    pub written: u64,
}

/// Gives a part of the input: takes bytes as long as `out` has room for one more longest answer,
/// and answers each line that they close. A refusal (1, for what is lent) writes nothing; where no
/// line was an accepted change, the tables and what is carried stay as they are.
pub fn give(
    entries: &mut [Entry],
    pool: &mut [i32],
    carried: &mut Carried,
    reader: &mut Reader,
    frame: &mut [i32],
    part: &[u8],
    out: &mut [u8],
) -> (Answer, Given) {
    // Every call writes it; if one did not, these numbers would show.
    let mut given = Given {
        taken: u64::MAX,
        written: u64::MAX,
    };
    // SAFETY: each pointer comes from a reference, with that reference's length; those that can
    // be written are exclusive.
    let answer = unsafe {
        linked::zahrubel_give(
            entries.as_mut_ptr(),
            entries.len(),
            pool.as_mut_ptr(),
            pool.len(),
            carried,
            reader,
            frame.as_mut_ptr(),
            frame.len(),
            part.as_ptr(),
            part.len(),
            out.as_mut_ptr(),
            out.len(),
            &mut given,
        )
    };
    (answer, given)
}

/// Ends the input: a line that is begun and not closed is answered 2. Hands back how many bytes are
/// written, too. A refusal (1, for what is lent) writes nothing.
pub fn end(reader: &Reader, out: &mut [u8]) -> (Answer, u64) {
    // As in `give`.
    let mut written = u64::MAX;
    // SAFETY: each pointer comes from a reference, with that reference's length; those that can
    // be written are exclusive.
    let answer = unsafe { linked::zahrubel_end(reader, out.as_mut_ptr(), out.len(), &mut written) };
    (answer, written)
}
