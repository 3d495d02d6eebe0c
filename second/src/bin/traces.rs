//! Writes a trace of a class and seed or the one that reaches every code, lists the classes, or
//! counts answers.

use second::histogram::Histogram;
use second::progress::{asks_for_help, help, wrong_usage, Progress};
use second::traces::{every_code, find_class, CLASSES};
use std::io::{self, Write};
use std::process::ExitCode;
use std::time::Duration;

const HELP: &str = "\
usage: traces CLASS SEED | --every-code | --classes | --histogram SEEDS

Writes a trace of hexadecimal lines to standard output, the same for the same class and seed.

  --classes            lists the classes
  --every-code         writes examples/every-code.hex: every operation gives every code it can
  --histogram SEEDS    counts operation by code over the first seeds of every class

Status: 0 written; 1 standard output failed; 2 wrong usage.";

/// About how long a trace takes to be written and answered.
const EACH: Duration = Duration::from_millis(20);

fn main() -> ExitCode {
    let arguments: Vec<String> = std::env::args().skip(1).collect();
    if asks_for_help(&arguments) {
        return help(HELP);
    }
    let arguments: Vec<&str> = arguments.iter().map(String::as_str).collect();
    let output = match arguments.as_slice() {
        ["--classes"] => Some(classes()),
        ["--every-code"] => Some(every_code()),
        ["--histogram", seeds] => seeds.parse().ok().map(histogram),
        [class, seed] => trace(class, seed),
        _ => None,
    };
    match output.map(|bytes| io::stdout().write_all(&bytes)) {
        Some(Ok(())) => ExitCode::SUCCESS,
        Some(Err(error)) => {
            eprintln!("traces: {error}");
            ExitCode::FAILURE
        }
        None => wrong_usage(HELP),
    }
}

fn classes() -> Vec<u8> {
    let lines = CLASSES
        .iter()
        .map(|class| format!("{:12} {}\n", class.name, class.about));
    lines.collect::<String>().into_bytes()
}

fn trace(class: &str, seed: &str) -> Option<Vec<u8>> {
    Some(find_class(class)?.trace(seed.parse().ok()?))
}

/// Operation by code over the first seeds of every class.
fn histogram(seeds: u64) -> Vec<u8> {
    let mut histogram = Histogram::default();
    let traces = seeds * CLASSES.len() as u64;
    let mut progress = Progress::begin("traces", traces, "traces", EACH);
    for class in &CLASSES {
        for seed in 0..seeds {
            histogram.count_trace(&class.trace(seed));
            progress.step();
        }
    }
    format!("{histogram}{traces} traces, {} lines\n", histogram.lines()).into_bytes()
}
