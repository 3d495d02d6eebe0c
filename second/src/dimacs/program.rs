//! The text program: the frames of a sound text as lines on standard output, or the fault of another
//! as a line on standard error.

use super::{read, Fault, Frames};
use crate::lines::{write_frame, write_word};
use std::io::{self, Write};

/// So many bytes of lines are gathered before they are written out.
const PART: usize = 64 * 1024;

/// Answers a text and tells whether it is sound.
pub fn run(text: &[u8], output: impl Write, mut errors: impl Write) -> io::Result<bool> {
    if u32::try_from(text.len()).is_err() {
        let told = "the text is too long: eight digits do not tell its positions";
        return Err(io::Error::new(io::ErrorKind::InvalidInput, told));
    }
    match read(text) {
        Ok((_, frames)) => write_frames(&frames, output).map(|()| true),
        Err(fault) => errors.write_all(&fault_line(&fault)).map(|()| false),
    }
}

/// One line a frame.
fn write_frames(frames: &Frames, mut output: impl Write) -> io::Result<()> {
    let mut lines = Vec::with_capacity(2 * PART);
    for frame in frames.iter() {
        write_frame(frame, &mut lines);
        if lines.len() >= PART {
            output.write_all(&lines)?;
            lines.clear();
        }
    }
    output.write_all(&lines)?;
    output.flush()
}

/// Number and position, eight digits each.
fn fault_line(fault: &Fault) -> Vec<u8> {
    let mut line = Vec::new();
    write_word(fault.kind.number(), &mut line);
    write_word(fault.position as u32, &mut line);
    line.push(b'\n');
    line
}

/// What the program writes to a text.
#[derive(Clone, Debug, PartialEq, Eq)]
pub struct Written {
    pub is_sound: bool,
    pub output: Vec<u8>,
    pub errors: Vec<u8>,
}

/// The program over a text that is short enough for it.
pub fn answer(text: &[u8]) -> io::Result<Written> {
    let (mut output, mut errors) = (Vec::new(), Vec::new());
    let is_sound = run(text, &mut output, &mut errors)?;
    Ok(Written {
        is_sound,
        output,
        errors,
    })
}
