//! The proof program: a CNF text and an LRAT text in two files, the verdict on standard output or code
//! and detail on standard error.

use second::lrat::program::run;
use second::progress::{asks_for_help, help, wrong_usage};
use std::fs;
use std::io;
use std::process::ExitCode;

const HELP: &str = "\
usage: read-proof RULES PROOF

The second implementation's check of an LRAT text in the file PROOF against the CNF text in the
file RULES, with tables of 1,024 entries and 8,192 words. Of an accepted proof it writes the line
\"s VERIFIED\" to standard output; of another code and detail to standard error, eight hexadecimal
digits each.

Status: 0 accepted; 1 refused; 2 wrong usage, or a file or standard output failed.";

/// The status of what is neither accepted nor refused.
const FAILED: u8 = 2;

fn main() -> ExitCode {
    let arguments: Vec<String> = std::env::args().skip(1).collect();
    if asks_for_help(&arguments) {
        return help(HELP);
    }
    let [rules, proof] = arguments.as_slice() else {
        return wrong_usage(HELP);
    };
    match answer(rules, proof) {
        Ok(true) => ExitCode::SUCCESS,
        Ok(false) => ExitCode::FAILURE,
        Err(error) => {
            eprintln!("read-proof: {error}");
            ExitCode::from(FAILED)
        }
    }
}

fn answer(rules: &str, proof: &str) -> io::Result<bool> {
    let (rules, proof) = (read(rules)?, read(proof)?);
    run(&rules, &proof, io::stdout().lock(), io::stderr().lock())
}

fn read(path: &str) -> io::Result<Vec<u8>> {
    fs::read(path).map_err(|error| io::Error::new(error.kind(), format!("{path}: {error}")))
}
