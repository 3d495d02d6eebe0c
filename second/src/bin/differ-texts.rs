//! Feeds generated texts to another program and compares what it writes with what this one does.

use second::compare::run_program_whole;
use second::dimacs::program::answer;
use second::progress::{asks_for_help, help, wrong_usage, Progress};
use second::texts::compare::first_difference;
use second::texts::{find_class, Class, Histogram, CLASSES};
use std::ops::Range;
use std::process::ExitCode;
use std::time::Duration;

const HELP: &str = "\
usage: differ-texts [--seeds A..B] [--class NAME] PROGRAM [ARGS..]

Feeds generated CNF texts to a program that reads them as read-text does, and compares standard
output, the first line on standard error and the status with those of the second implementation.
Prints how often texts of each class had each number. It stops at the first difference, tells it in
words, and fails.

  --seeds A..B    a text of every class for each seed from A to before B (0..20)
  --class NAME    texts of this class alone; `texts --classes` lists them

Status: 0 no difference; 1 a difference; 2 wrong usage.";

/// About how long a text takes, the launcher's start and the emulator counted in.
const EACH: Duration = Duration::from_millis(50);

struct Task {
    seeds: Range<u64>,
    classes: Vec<&'static Class>,
    program: Vec<String>,
}

fn main() -> ExitCode {
    let arguments: Vec<String> = std::env::args().skip(1).collect();
    if asks_for_help(&arguments) {
        return help(HELP);
    }
    let Some(task) = read_arguments(arguments) else {
        return wrong_usage(HELP);
    };
    match run(&task) {
        Ok(told) => {
            print!("{told}");
            ExitCode::SUCCESS
        }
        Err(found) => {
            println!("{found}");
            ExitCode::FAILURE
        }
    }
}

/// Options come before the program; behind it all is the program's.
fn read_arguments(arguments: Vec<String>) -> Option<Task> {
    let mut task = Task {
        seeds: 0..20,
        classes: CLASSES.iter().collect(),
        program: Vec::new(),
    };
    let mut arguments = arguments.into_iter();
    while let Some(argument) = arguments.next() {
        match argument.as_str() {
            "--seeds" => {
                let seeds = arguments.next()?;
                let (from, to) = seeds.split_once("..")?;
                task.seeds = from.parse().ok()?..to.parse().ok()?;
            }
            "--class" => task.classes = vec![find_class(&arguments.next()?)?],
            _ => {
                task.program.push(argument);
                task.program.extend(arguments);
                return Some(task);
            }
        }
    }
    None
}

/// Compares all texts; tells what was compared, or the first difference.
fn run(task: &Task) -> Result<String, String> {
    let seeds = task.seeds.end.saturating_sub(task.seeds.start);
    let texts = seeds * task.classes.len() as u64;
    let mut progress = Progress::begin("differ-texts", texts, "texts", EACH);
    let mut histogram = Histogram::default();
    for seed in task.seeds.clone() {
        for class in &task.classes {
            let text = class.text(seed);
            histogram.count_text(class, &text);
            compare(text, &task.program)
                .map_err(|found| format!("class    {}, seed {seed}\n{found}", class.name))?;
            progress.step();
        }
    }
    Ok(format!("{histogram}{texts} texts, no difference\n"))
}

fn compare(text: Vec<u8>, program: &[String]) -> Result<(), String> {
    let expected = answer(&text).map_err(|error| error.to_string())?;
    // A little more than expected is enough to see that there is more.
    let most = expected.output.len() + 4_096;
    let run = run_program_whole(program, text, most).map_err(|error| error.to_string())?;
    match first_difference(&expected, &run) {
        Some(difference) => Err(difference.to_string()),
        None => Ok(()),
    }
}
