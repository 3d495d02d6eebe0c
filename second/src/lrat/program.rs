//! The proof program: `s VERIFIED` on standard output, or code and detail as a line on standard error.

use super::check;
use crate::lines::write_word;
use crate::terms::{MOST_ENTRIES, MOST_WORDS};
use std::io::{self, Write};

/// What is written of an accepted proof.
pub const VERIFIED: &[u8] = b"s VERIFIED\n";

/// Answers a pair of texts and tells whether the proof is accepted.
pub fn run(cnf: &[u8], proof: &[u8], output: impl Write, errors: impl Write) -> io::Result<bool> {
    let (code, detail) = answer(cnf, proof);
    match code {
        0 => write_out(output, VERIFIED).map(|()| true),
        _ => write_out(errors, &refusal_line(code, detail)).map(|()| false),
    }
}

/// Code and detail with the tables that the program opens.
pub fn answer(cnf: &[u8], proof: &[u8]) -> (u32, u64) {
    check(MOST_ENTRIES, MOST_WORDS, cnf, proof)
}

fn write_out(mut out: impl Write, bytes: &[u8]) -> io::Result<()> {
    out.write_all(bytes)?;
    out.flush()
}

/// Code and detail, eight digits each, the low 32 bits of each.
pub fn refusal_line(code: u32, detail: u64) -> Vec<u8> {
    let mut line = Vec::new();
    write_word(code, &mut line);
    write_word(detail as u32, &mut line);
    line.push(b'\n');
    line
}
