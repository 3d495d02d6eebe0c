//! Brings a solver's proof to LRAT.

use second::convert::{convert, Format, Lrat};
use second::progress::{asks_for_help, help, wrong_usage};
use std::fs;
use std::io::{self, Write};
use std::process::ExitCode;

const HELP: &str = "\
usage: to-lrat RULES PROOF [--drat|--frat]

Writes the LRAT proof that a solver's proof comes to, to standard output; how large it is, and how
much it holds at one time, goes to standard error. RULES is a CNF in DIMACS that the checker reads.
PROOF is text or binary: DRAT, as cadical writes it, or FRAT, as cryptominisat5 does. Without an
option it is FRAT if it begins with an o.

Clauses that are not needed are left out, and the others deleted behind their last use, so that the
proof fits the checker's tables if it can: 1,024 clauses of 8,192 literals together. A clause that
does not follow by propagation is refused with its line; binary proofs have steps, counted from 1.

    cadical --no-binary rules.cnf proof.drat
    cryptominisat5 rules.cnf proof.frat

Status: 0 written; 1 the proof or the rules are refused, or it does not fit; 2 wrong usage, or a file
or standard output failed.";

/// The status where nothing is said about the proof.
const FAILED: u8 = 2;

struct Task {
    rules: String,
    proof: String,
    format: Option<Format>,
}

fn main() -> ExitCode {
    let arguments: Vec<String> = std::env::args().skip(1).collect();
    if asks_for_help(&arguments) {
        return help(HELP);
    }
    let Some(task) = read_arguments(&arguments) else {
        return wrong_usage(HELP);
    };
    match run(&task) {
        Ok(Ok(lrat)) => end(&lrat),
        Ok(Err(refusal)) => {
            eprintln!("to-lrat: {refusal}");
            ExitCode::FAILURE
        }
        Err(error) => {
            eprintln!("to-lrat: {error}");
            ExitCode::from(FAILED)
        }
    }
}

fn read_arguments(arguments: &[String]) -> Option<Task> {
    let (rules, proof, format) = match arguments {
        [rules, proof] => (rules, proof, None),
        [rules, proof, option] if option == "--drat" => (rules, proof, Some(Format::Drat)),
        [rules, proof, option] if option == "--frat" => (rules, proof, Some(Format::Frat)),
        _ => return None,
    };
    Some(Task {
        rules: rules.clone(),
        proof: proof.clone(),
        format,
    })
}

/// Writes the proof, or tells why there is none; the outer error is one of a file.
fn run(task: &Task) -> io::Result<Result<Lrat, String>> {
    let rules = fs::read(&task.rules)?;
    let proof = fs::read(&task.proof)?;
    let format = task.format.unwrap_or_else(|| Format::of(&proof));
    match convert(&rules, &proof, format) {
        Ok(lrat) => {
            io::stdout().write_all(lrat.text.as_bytes())?;
            Ok(Ok(lrat))
        }
        Err(refusal) => Ok(Err(refusal.to_string())),
    }
}

/// A proof that does not fit is written all the same: it is one, and other checkers have more room.
fn end(lrat: &Lrat) -> ExitCode {
    eprintln!("to-lrat: {lrat}");
    if lrat.fits() {
        return ExitCode::SUCCESS;
    }
    eprintln!("to-lrat: that is more than the checker's tables have room for");
    ExitCode::FAILURE
}
