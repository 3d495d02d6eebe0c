//! Writes a pair of rules and proof of a class and seed, or a large one; lists the classes; counts numbers.

use second::progress::{asks_for_help, help, wrong_usage, Progress};
use second::proofs::{find_class, large, Histogram, Pair, CLASSES};
use std::fs;
use std::io::{self, Write};
use std::process::ExitCode;
use std::time::Duration;

const HELP: &str = "\
usage: proofs CLASS SEED RULES PROOF | --classes | --histogram SEEDS | --large BYTES RULES PROOF

Writes a CNF text to the file RULES and an LRAT text to the file PROOF, the same for the same
arguments.

  --classes              lists the classes
  --histogram SEEDS      counts class by number, 0 for accepted, over the first seeds of every class
  --large BYTES          writes a sound proof of at least so many bytes, to time a checker with

Status: 0 written; 1 a file or standard output failed; 2 wrong usage.";

/// About how long a pair takes to be written and judged.
const EACH: Duration = Duration::from_micros(300);

fn main() -> ExitCode {
    let arguments: Vec<String> = std::env::args().skip(1).collect();
    if asks_for_help(&arguments) {
        return help(HELP);
    }
    let arguments: Vec<&str> = arguments.iter().map(String::as_str).collect();
    let written = match arguments.as_slice() {
        ["--classes"] => Some(put(&names())),
        ["--histogram", seeds] => seeds.parse().ok().map(|seeds| put(&histogram(seeds))),
        ["--large", bytes, rules, proof] => bytes
            .parse()
            .ok()
            .map(|bytes| write(&large(bytes), rules, proof)),
        [class, seed, rules, proof] => pair(class, seed).map(|pair| write(&pair, rules, proof)),
        _ => None,
    };
    match written {
        Some(Ok(())) => ExitCode::SUCCESS,
        Some(Err(error)) => {
            eprintln!("proofs: {error}");
            ExitCode::FAILURE
        }
        None => wrong_usage(HELP),
    }
}

fn put(text: &str) -> io::Result<()> {
    io::stdout().write_all(text.as_bytes())
}

fn write(pair: &Pair, rules: &str, proof: &str) -> io::Result<()> {
    fs::write(rules, &pair.rules)?;
    fs::write(proof, &pair.proof)
}

fn names() -> String {
    let told = |name: &str, about: &str| format!("{name:16} {about}\n");
    let classes = CLASSES.iter().map(|class| told(class.name, class.about));
    classes.collect()
}

fn pair(class: &str, seed: &str) -> Option<Pair> {
    Some(find_class(class)?.pair(seed.parse().ok()?))
}

/// Class by number over the first seeds.
fn histogram(seeds: u64) -> String {
    let mut histogram = Histogram::default();
    let pairs = seeds * CLASSES.len() as u64;
    let mut progress = Progress::begin("proofs", pairs, "pairs", EACH);
    for class in &CLASSES {
        for seed in 0..seeds {
            histogram.count_pair(class, &class.pair(seed));
            progress.step();
        }
    }
    format!("{histogram}{pairs} pairs\n")
}
