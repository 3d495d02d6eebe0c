//! Feeds generated traces to another program and compares its answers with this one's.

use second::compare::{first_difference, run_program};
use second::histogram::Histogram;
use second::lines::answers;
use second::progress::{asks_for_help, help, wrong_usage, Progress};
use second::traces::{find_class, Class, CLASSES};
use std::ops::Range;
use std::process::ExitCode;
use std::time::Duration;

const HELP: &str = "\
usage: differ [--seeds A..B] [--class NAME] PROGRAM [ARGS..]

Feeds generated traces to a line program, compares each of its answers with those of the second
implementation, and prints how often each operation got each code. It stops at the first
difference, tells it in words, and fails.

  --seeds A..B    a trace of every class for each seed from A to before B (0..20)
  --class NAME    traces of this class alone; `traces --classes` lists them

Status: 0 no difference; 1 a difference; 2 wrong usage.";

/// About how long a trace takes, the launcher's start and the emulator counted in.
const EACH: Duration = Duration::from_millis(50);

struct Task {
    seeds: Range<u64>,
    classes: Vec<&'static Class>,
    program: Vec<String>,
}

fn main() -> ExitCode {
    let arguments: Vec<String> = std::env::args().skip(1).collect();
    if asks_for_help(&arguments) {
        return help(HELP);
    }
    let Some(task) = read_arguments(arguments) else {
        return wrong_usage(HELP);
    };
    match run(&task) {
        Ok(told) => {
            print!("{told}");
            ExitCode::SUCCESS
        }
        Err(found) => {
            println!("{found}");
            ExitCode::FAILURE
        }
    }
}

/// Compares all traces; tells what was compared, or the first difference.
fn run(task: &Task) -> Result<String, String> {
    let seeds = task.seeds.end.saturating_sub(task.seeds.start);
    let traces = seeds * task.classes.len() as u64;
    let mut progress = Progress::begin("differ", traces, "traces", EACH);
    let mut histogram = Histogram::default();
    for seed in task.seeds.clone() {
        for class in &task.classes {
            compare(class, seed, &task.program, &mut histogram)
                .map_err(|found| format!("class    {}, seed {seed}\n{found}", class.name))?;
            progress.step();
        }
    }
    let lines = histogram.lines();
    Ok(format!(
        "{histogram}{traces} traces, {lines} lines, no difference\n"
    ))
}

/// Options come before the program; behind it all is the program's.
fn read_arguments(arguments: Vec<String>) -> Option<Task> {
    let mut task = Task {
        seeds: 0..20,
        classes: CLASSES.iter().collect(),
        program: Vec::new(),
    };
    let mut arguments = arguments.into_iter();
    while let Some(argument) = arguments.next() {
        match argument.as_str() {
            "--seeds" => {
                let seeds = arguments.next()?;
                let (from, to) = seeds.split_once("..")?;
                task.seeds = from.parse().ok()?..to.parse().ok()?;
            }
            "--class" => task.classes = vec![find_class(&arguments.next()?)?],
            _ => {
                task.program.push(argument);
                task.program.extend(arguments);
                return Some(task);
            }
        }
    }
    None
}

fn compare(
    class: &Class,
    seed: u64,
    program: &[String],
    histogram: &mut Histogram,
) -> Result<(), String> {
    let trace = class.trace(seed);
    let expected = answers(&trace);
    // A little more than expected is enough to see that there is more.
    let most = expected.len() + 4_096;
    let run = run_program(program, trace.clone(), most).map_err(|error| error.to_string())?;
    histogram.count_answers(&trace, &expected);
    match first_difference(&trace, &expected, &run.output) {
        Some(difference) => Err(format!("{difference}\nended    {}", run.status)),
        None if !run.status.success() => Err(format!("ended    {}", run.status)),
        None => Ok(()),
    }
}
