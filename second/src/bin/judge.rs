//! Runs the brute-force judge of demand 3 over generated small histories.

use second::judge::judge_history;
use second::progress::{asks_for_help, help, wrong_usage, Progress};
use std::process::ExitCode;
use std::time::Duration;

const HELP: &str = "\
usage: judge [HISTORIES]

Judges demand 3 by brute force after every step of so many small histories (1000): that added and
irredundant clauses agree on yes and no, that handed out models are models, that accepted UNSAT
is true.

Status: 0 it holds; 1 it is broken, and where; 2 wrong usage.";

/// About how long a history takes.
const EACH: Duration = Duration::from_micros(300);

fn main() -> ExitCode {
    let arguments: Vec<String> = std::env::args().skip(1).collect();
    if asks_for_help(&arguments) {
        return help(HELP);
    }
    let histories = match arguments.as_slice() {
        [] => Ok(1_000),
        [number] => number.parse(),
        _ => "".parse::<u64>(),
    };
    let Ok(histories) = histories else {
        return wrong_usage(HELP);
    };
    match judge(histories) {
        Ok(steps) => {
            println!("{histories} histories, {steps} steps, demand 3 holds");
            ExitCode::SUCCESS
        }
        Err(broken) => {
            println!("{broken}");
            ExitCode::FAILURE
        }
    }
}

/// How many steps were judged, or the first that breaks demand 3.
fn judge(histories: u64) -> Result<u64, String> {
    let mut progress = Progress::begin("judge", histories, "histories", EACH);
    let mut steps = 0;
    for seed in 0..histories {
        let judged = judge_history(seed, |checker| checker);
        steps += judged.steps;
        if let Some(broken) = judged.broken {
            return Err(format!("seed {seed}, {broken}"));
        }
        progress.step();
    }
    Ok(steps)
}
