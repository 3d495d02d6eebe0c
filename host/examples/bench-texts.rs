//! Times the archive's reading of a large DIMACS text and its checking of a large LRAT proof beside
//! the second implementation's, in one run over the same bytes, and prints the times as a table.

use second::progress::{asks_for_help, help, wrong_usage, Progress};
use second::{proofs, texts};
use std::process::ExitCode;
use std::time::{Duration, Instant};
use zahrubel::dimacs::{judge, next_into, Cursor, LONGEST_ADD};
use zahrubel::lrat;

const HELP: &str = "\
usage: bench-texts [--runs N]

Times the linked archive beside the second implementation over a DIMACS text of 50 MB and an LRAT
proof of 10 MB, the same bytes every time: judging the text, judging it and handing out all frames,
and checking the proof, each N times (7). Prints the best times as the table of docs/BENCHMARK.md.
What both tell is compared; a difference ends it. Nothing else should run on the machine.

Status: 0 timed; 1 a difference; 2 wrong usage.";
const TEXT_BYTES: usize = 50_000_000;
const PROOF_BYTES: usize = 10_000_000;
/// How often each reads the text; the best time counts.
const RUNS: u32 = 7;
/// About how long both take, once.
const EACH_RUN: Duration = Duration::from_millis(400);

/// What is read: rules alone, or with the proof that they have no model.
struct Input {
    rules: Vec<u8>,
    proof: Vec<u8>,
    /// The size that is told: bytes, and clauses or lines in them.
    bytes: usize,
    count: u64,
}

impl Input {
    fn of_text() -> Input {
        let rules = texts::large(TEXT_BYTES);
        let clauses = judge(&rules).map_or(0, |cnf| cnf.clauses);
        Input {
            bytes: rules.len(),
            count: clauses,
            proof: Vec::new(),
            rules,
        }
    }

    fn of_proof() -> Input {
        let proofs::Pair { rules, proof, .. } = proofs::large(PROOF_BYTES);
        let lines = proof.iter().filter(|&&byte| byte == b'\n').count();
        Input {
            bytes: proof.len(),
            count: lines as u64,
            proof,
            rules,
        }
    }
}

/// What a reading came to: two numbers that both must tell, or the fault.
type Told = Result<[u64; 2], String>;

/// A kind of reading, by the archive and by the second implementation.
struct Kind {
    name: &'static str,
    archive: fn(&Input) -> Told,
    second: fn(&Input) -> Told,
}

const OF_TEXT: [Kind; 2] = [
    Kind {
        name: "judged",
        archive: judged,
        second: judged_by_second,
    },
    Kind {
        name: "judged and handed out",
        archive: handed_out,
        second: handed_out_by_second,
    },
];

const OF_PROOF: [Kind; 1] = [Kind {
    name: "proof",
    archive: checked,
    second: checked_by_second,
}];

/// The best times of both.
struct Times {
    archive: Duration,
    second: Duration,
}

fn main() -> ExitCode {
    let arguments: Vec<String> = std::env::args().skip(1).collect();
    if asks_for_help(&arguments) {
        return help(HELP);
    }
    let arguments: Vec<&str> = arguments.iter().map(String::as_str).collect();
    let runs = match arguments.as_slice() {
        [] => Ok(RUNS),
        ["--runs", runs] => runs.parse(),
        _ => "".parse(),
    };
    let Ok(runs @ 1..) = runs else {
        return wrong_usage(HELP);
    };
    match report(runs) {
        Ok(()) => ExitCode::SUCCESS,
        Err(error) => {
            eprintln!("bench-texts: {error}");
            ExitCode::FAILURE
        }
    }
}

fn report(runs: u32) -> Result<(), String> {
    let steps = u64::from(runs) * (OF_TEXT.len() + OF_PROOF.len()) as u64;
    let inputs = [
        (&OF_TEXT[..], Input::of_text()),
        (&OF_PROOF[..], Input::of_proof()),
    ];
    let mut progress = Progress::begin("bench-texts", steps, "runs", EACH_RUN);
    let mut rows = Vec::new();
    for (kinds, input) in &inputs {
        for kind in *kinds {
            rows.push((kind.name, input, best(kind, input, runs, &mut progress)?));
        }
    }
    drop(progress);
    println!("| text | clauses or lines | MB | archive ms | second ms | ratio | ns each | MB/s |");
    println!("|---|--:|--:|--:|--:|--:|--:|--:|");
    for (name, input, times) in &rows {
        print_row(name, input, times);
    }
    Ok(())
}

fn best(kind: &Kind, input: &Input, runs: u32, progress: &mut Progress) -> Result<Times, String> {
    let mut best = Times {
        archive: Duration::MAX,
        second: Duration::MAX,
    };
    for _ in 0..runs {
        // In turn, so that what else the machine does meets both alike.
        let (found, took) = timed(kind.archive, input);
        let (expected, second_took) = timed(kind.second, input);
        if found != expected {
            let told = format!("{found:?} instead of {expected:?}");
            return Err(format!("{}: {told}", kind.name));
        }
        best.archive = best.archive.min(took);
        best.second = best.second.min(second_took);
        progress.step();
    }
    Ok(best)
}

fn timed(read: fn(&Input) -> Told, input: &Input) -> (Told, Duration) {
    let began = Instant::now();
    let told = read(input);
    (told, began.elapsed())
}

fn print_row(name: &str, input: &Input, times: &Times) {
    let megabytes = input.bytes as f64 / 1e6;
    let (archive, second) = (times.archive.as_secs_f64(), times.second.as_secs_f64());
    println!(
        "| {name} | {} | {megabytes:.1} | {:.1} | {:.1} | {:.2} | {:.0} | {:.0} |",
        input.count,
        archive * 1e3,
        second * 1e3,
        archive / second,
        archive * 1e9 / input.count as f64,
        megabytes / archive,
    );
}

/// V and the number of clauses.
fn judged(input: &Input) -> Told {
    let cnf = judge(&input.rules).map_err(|refused| refused.to_string())?;
    Ok([cnf.vars, cnf.clauses])
}

fn judged_by_second(input: &Input) -> Told {
    let declared = second::dimacs::judge(&input.rules).map_err(|fault| fault.to_string())?;
    Ok([declared.vars as u64, declared.clauses as u64])
}

/// How many frames there are, and the sum of all their words. The first call judges the text.
fn handed_out(input: &Input) -> Told {
    let mut cursor = Cursor::default();
    let mut frame = [0; LONGEST_ADD];
    let (mut frames, mut sum) = (0, 0);
    loop {
        let answer = next_into(&input.rules, &mut cursor, &mut frame);
        let words = answer.accepted().map_err(|refused| refused.to_string())?;
        if words == 0 {
            return Ok([frames, sum]);
        }
        frames += 1;
        sum += sum_of(&frame[..words as usize]);
    }
}

/// The second implementation keeps them all before the first is looked at.
fn handed_out_by_second(input: &Input) -> Told {
    let (_, frames) = second::dimacs::read(&input.rules).map_err(|fault| fault.to_string())?;
    let sum = frames.iter().map(sum_of).sum();
    Ok([frames.len() as u64, sum])
}

/// As words without a sign, so that no sum is negative.
fn sum_of(frame: &[i32]) -> u64 {
    frame.iter().map(|&word| u64::from(word as u32)).sum()
}

/// Code and detail, in tables of the largest size.
fn checked(input: &Input) -> Told {
    match lrat::check(&input.rules, &input.proof) {
        Ok(()) => Ok([0, 0]),
        Err(refused) => Ok([refused.0.code, refused.0.detail]),
    }
}

fn checked_by_second(input: &Input) -> Told {
    let (code, detail) = second::lrat::program::answer(&input.rules, &input.proof);
    Ok([code.into(), detail])
}
