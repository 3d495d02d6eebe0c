//! The text program: a CNF text on standard input, its frames on standard output or its fault on
//! standard error.

use second::dimacs::program::run;
use second::progress::{asks_for_help, help, wrong_usage};
use std::io::{self, Read};
use std::process::ExitCode;

const HELP: &str = "\
usage: read-text

The second implementation's reading of rules in DIMACS: a CNF text on standard input. The frames
of a sound text go to standard output, one hexadecimal line each: ADD with ids 1, 2, 3 and so on.
A text with a fault yields no frame; number and byte position of the fault go to standard error,
eight hexadecimal digits each.

Status: 0 sound; 1 a fault; 2 wrong usage, or standard input or output failed.";

/// The status of what is neither sound nor faulty.
const FAILED: u8 = 2;

fn main() -> ExitCode {
    let arguments: Vec<String> = std::env::args().skip(1).collect();
    if asks_for_help(&arguments) {
        return help(HELP);
    }
    if !arguments.is_empty() {
        return wrong_usage(HELP);
    }
    match answer() {
        Ok(true) => ExitCode::SUCCESS,
        Ok(false) => ExitCode::FAILURE,
        Err(error) => {
            eprintln!("read-text: {error}");
            ExitCode::from(FAILED)
        }
    }
}

fn answer() -> io::Result<bool> {
    let mut text = Vec::new();
    io::stdin().lock().read_to_end(&mut text)?;
    run(&text, io::stdout().lock(), io::stderr().lock())
}
