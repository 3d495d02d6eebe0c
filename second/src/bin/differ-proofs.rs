//! Has generated pairs of rules and proof checked by another program and compares what it writes with what it must.

use second::compare::run_program_whole;
use second::progress::{asks_for_help, help, wrong_usage, Progress};
use second::proofs::compare::first_difference;
use second::proofs::{find_class, Class, Histogram, Pair, CLASSES};
use std::fs;
use std::io;
use std::ops::Range;
use std::path::PathBuf;
use std::process::ExitCode;
use std::time::Duration;

const HELP: &str = "\
usage: differ-proofs [--seeds A..B] [--class NAME] PROGRAM [ARGS..]

Runs PROGRAM [ARGS..] RULES PROOF over generated pairs of files, and compares status, standard
output and, where the proof is refused, the first line on standard error with those of read-proof.
Prints how often pairs of each class had each number. It stops at the first difference, tells it in
words, and fails.

  --seeds A..B    a pair of every class for each seed from A to before B (0..36)
  --class NAME    pairs of this class alone; `proofs --classes` lists them

Status: 0 no difference; 1 a difference; 2 wrong usage.";

/// About how long a pair takes, the launcher's start and the emulator counted in.
const EACH: Duration = Duration::from_millis(50);
/// More output than any right one.
const MOST: usize = 4_096;

struct Task {
    seeds: Range<u64>,
    classes: Vec<&'static Class>,
    program: Vec<String>,
}

fn main() -> ExitCode {
    let arguments: Vec<String> = std::env::args().skip(1).collect();
    if asks_for_help(&arguments) {
        return help(HELP);
    }
    let Some(task) = read_arguments(arguments) else {
        return wrong_usage(HELP);
    };
    match run(&task) {
        Ok(told) => {
            print!("{told}");
            ExitCode::SUCCESS
        }
        Err(found) => {
            println!("{found}");
            ExitCode::FAILURE
        }
    }
}

/// Options come before the program; behind it all is the program's.
fn read_arguments(arguments: Vec<String>) -> Option<Task> {
    let mut task = Task {
        seeds: 0..36,
        classes: CLASSES.iter().collect(),
        program: Vec::new(),
    };
    let mut arguments = arguments.into_iter();
    while let Some(argument) = arguments.next() {
        match argument.as_str() {
            "--seeds" => {
                let seeds = arguments.next()?;
                let (from, to) = seeds.split_once("..")?;
                task.seeds = from.parse().ok()?..to.parse().ok()?;
            }
            "--class" => task.classes = vec![find_class(&arguments.next()?)?],
            _ => {
                task.program.push(argument);
                task.program.extend(arguments);
                return Some(task);
            }
        }
    }
    None
}

/// Compares all pairs; tells what was compared, or the first difference.
fn run(task: &Task) -> Result<String, String> {
    let files = Files::new().map_err(|error| error.to_string())?;
    let seeds = task.seeds.end.saturating_sub(task.seeds.start);
    let pairs = seeds * task.classes.len() as u64;
    let mut progress = Progress::begin("differ-proofs", pairs, "pairs", EACH);
    let mut histogram = Histogram::default();
    for seed in task.seeds.clone() {
        for class in &task.classes {
            let pair = class.pair(seed);
            let expected = pair.program_answer();
            histogram.count(class.name, expected.0);
            compare(&pair, expected, &files, &task.program)
                .map_err(|found| format!("class    {}, seed {seed}\n{found}", class.name))?;
            progress.step();
        }
    }
    Ok(format!("{histogram}{pairs} pairs, no difference\n"))
}

fn compare(
    pair: &Pair,
    expected: (u32, u64),
    files: &Files,
    program: &[String],
) -> Result<(), String> {
    let command = files
        .command(pair, program)
        .map_err(|error| error.to_string())?;
    let run = run_program_whole(&command, Vec::new(), MOST).map_err(|error| error.to_string())?;
    match first_difference(expected, &run) {
        Some(difference) => Err(difference.to_string()),
        None => Ok(()),
    }
}

/// A folder for the two files that goes when the program ends.
struct Files(PathBuf);

impl Files {
    fn new() -> io::Result<Files> {
        let folder = std::env::temp_dir().join(format!("differ-proofs-{}", std::process::id()));
        fs::create_dir(&folder)?;
        Ok(Files(folder))
    }

    /// Writes the pair and adds the names of its files to the command.
    fn command(&self, pair: &Pair, program: &[String]) -> io::Result<Vec<String>> {
        let mut command = program.to_vec();
        for (name, text) in [("rules.cnf", &pair.rules), ("proof.lrat", &pair.proof)] {
            let path = self.0.join(name);
            fs::write(&path, text)?;
            command.push(path.to_string_lossy().into_owned());
        }
        Ok(command)
    }
}

impl Drop for Files {
    fn drop(&mut self) {
        // Nothing is left to do about a folder that cannot be removed.
        drop(fs::remove_dir_all(&self.0));
    }
}
