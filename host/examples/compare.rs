//! Makes the calls of seeded histories, or reads seeded texts or checks seeded proofs, through the
//! archive and compares each with the second implementation; tells what was tried, or the first
//! difference.

#[path = "../tests/common/mod.rs"]
mod common;
#[path = "../tests/proofs/mod.rs"]
mod proofs;
#[path = "../tests/texts/mod.rs"]
mod texts;

use common::Linked;
use proofs::Whole;
use second::lent::run::{run, Tally};
use second::progress::{asks_for_help, help, wrong_usage, Progress};
use second::proofs::run::run_pair;
use second::random::Random;
use second::texts::run::run_seed;
use std::process::ExitCode;
use std::time::Duration;
use texts::Watched;

const HELP: &str = "\
usage: compare [HISTORIES] | --texts [SEEDS] | --proofs [SEEDS]

Makes the calls of so many seeded histories (20000) through the linked archive, on right and
damaged tables, and compares each with the second implementation. Tells what was tried; stops at
the first difference, tells it, and fails.

  --texts [SEEDS]    judges DIMACS texts instead and hands out their frames: a text of every class,
                     sound and damaged, for each of so many seeds (5000)
  --proofs [SEEDS]   checks LRAT proofs instead: rules and proof of every class, sound and damaged,
                     for each of so many seeds (5000)

Status: 0 no difference; 1 a difference; 2 wrong usage.";

/// About how long a history of some 45 calls takes.
const EACH: Duration = Duration::from_micros(2_000);
/// About how long the texts of a seed take.
const EACH_SEED: Duration = Duration::from_micros(8_000);
/// About how long the proofs of a seed take.
const EACH_PROOFS: Duration = Duration::from_micros(10_000);

/// So many of them compared: what was tried, or the first difference.
type Compare = fn(u64) -> Result<String, String>;

fn main() -> ExitCode {
    let arguments: Vec<String> = std::env::args().skip(1).collect();
    if asks_for_help(&arguments) {
        return help(HELP);
    }
    let arguments: Vec<&str> = arguments.iter().map(String::as_str).collect();
    let (compare, count): (Compare, _) = match arguments.as_slice() {
        [] => (compare, Ok(20_000)),
        ["--texts"] => (compare_texts, Ok(5_000)),
        ["--texts", number] => (compare_texts, number.parse()),
        ["--proofs"] => (compare_proofs, Ok(5_000)),
        ["--proofs", number] => (compare_proofs, number.parse()),
        [number] => (compare, number.parse()),
        _ => (compare, "".parse()),
    };
    let Ok(count) = count else {
        return wrong_usage(HELP);
    };
    match compare(count) {
        Ok(told) => {
            println!("{told}, no difference");
            ExitCode::SUCCESS
        }
        Err(difference) => {
            println!("{difference}");
            ExitCode::FAILURE
        }
    }
}

/// Calls on lent tables.
fn compare(histories: u64) -> Result<String, String> {
    let mut tally = Tally::default();
    let mut progress = Progress::begin("compare", histories, "histories", EACH);
    for seed in 0..histories {
        run(&mut Linked, seed, &mut tally)
            .map_err(|difference| format!("seed     {seed}\n{difference}"))?;
        progress.step();
    }
    Ok(format!("{tally}{histories} histories"))
}

/// Texts.
fn compare_texts(seeds: u64) -> Result<String, String> {
    let mut tally = second::texts::Histogram::default();
    let mut progress = Progress::begin("compare", seeds, "seeds", EACH_SEED);
    for seed in 0..seeds {
        run_seed(&mut Watched, seed, &mut tally).map_err(|difference| difference.to_string())?;
        progress.step();
    }
    Ok(format!("{tally}{} texts", tally.texts()))
}

/// Proofs, over tables of any bits.
fn compare_proofs(seeds: u64) -> Result<String, String> {
    let mut tally = second::proofs::Histogram::default();
    let mut whole = Whole(Random::new(1));
    let mut progress = Progress::begin("compare", seeds, "seeds", EACH_PROOFS);
    for seed in 0..seeds {
        for class in &second::proofs::CLASSES {
            run_pair(&mut whole, class, seed, &mut tally)
                .map_err(|difference| difference.to_string())?;
        }
        progress.step();
    }
    Ok(format!("{tally}{} proofs", tally.pairs()))
}
