//! Writes a workload, lists the kinds, or counts the answers to one.

use second::histogram::Histogram;
use second::progress::{asks_for_help, help, wrong_usage};
use second::workloads::{all, find};
use std::io::{self, Write};
use std::process::ExitCode;

const HELP: &str = "\
usage: workload KIND | --kinds | --answers KIND

Writes a workload to standard output: a trace to time a line program with, the same bytes every
time. docs/BENCHMARK.md says what is in each. All take a second or less.

  --kinds           lists the kinds
  --answers KIND    counts operation by code over the answers to one

Status: 0 written; 1 standard output failed; 2 wrong usage.";

fn main() -> ExitCode {
    let arguments: Vec<String> = std::env::args().skip(1).collect();
    if asks_for_help(&arguments) {
        return help(HELP);
    }
    let arguments: Vec<&str> = arguments.iter().map(String::as_str).collect();
    let output = match arguments.as_slice() {
        ["--kinds"] => Some(kinds()),
        ["--answers", name] => answers(name),
        [name] => find(name).map(|workload| workload.trace()),
        _ => None,
    };
    match output.map(|bytes| io::stdout().write_all(&bytes)) {
        Some(Ok(())) => ExitCode::SUCCESS,
        Some(Err(error)) => {
            eprintln!("workload: {error}");
            ExitCode::FAILURE
        }
        None => wrong_usage(HELP),
    }
}

fn kinds() -> Vec<u8> {
    let told = |workload: second::workloads::Workload| {
        format!("{:14} {}\n", workload.to_string(), workload.kind.about)
    };
    all().into_iter().map(told).collect::<String>().into_bytes()
}

/// Operation by code.
fn answers(name: &str) -> Option<Vec<u8>> {
    let mut histogram = Histogram::default();
    histogram.count_trace(&find(name)?.trace());
    Some(format!("{histogram}{} lines\n", histogram.lines()).into_bytes())
}
