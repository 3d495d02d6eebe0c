//! The line program: frames on standard input, answers on standard output.

use second::lines::run;
use second::progress::{asks_for_help, help, wrong_usage};
use std::io;
use std::process::ExitCode;

const HELP: &str = "\
usage: second

The second implementation as a line program: hexadecimal lines on standard input, one frame each,
and an answer to each on standard output. docs/FORMAT.md says what they are.";

fn main() -> ExitCode {
    let arguments: Vec<String> = std::env::args().skip(1).collect();
    if asks_for_help(&arguments) {
        return help(HELP);
    }
    if !arguments.is_empty() {
        return wrong_usage(HELP);
    }
    match run(io::stdin().lock(), io::stdout().lock()) {
        Ok(()) => ExitCode::SUCCESS,
        Err(error) => {
            eprintln!("second: {error}");
            ExitCode::FAILURE
        }
    }
}
