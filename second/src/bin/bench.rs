//! Times another line program beside this one over every workload, once their answers are
//! known to be the same, and prints the times as tables.

use second::compare::first_difference;
use second::progress::{asks_for_help, help, wrong_usage, Progress};
use second::workloads::{all, Workload, HELD, KINDS};
use std::fs::{self, File};
use std::path::{Path, PathBuf};
use std::process::{Command, ExitCode};
use std::time::{Duration, Instant};

const HELP: &str = "\
usage: bench [--runs N] PROGRAM

Times a line program beside the second implementation over every workload, each N times (7), and
prints the best times as the tables of docs/BENCHMARK.md. The answers are compared; a difference
ends it. Nothing else should run on the machine.

Status: 0 timed; 1 a difference or a failure; 2 wrong usage.";
/// About how long both programs take for a workload, once.
const EACH_RUN: Duration = Duration::from_millis(160);
/// About how long a workload takes to be written.
const EACH_TRACE: Duration = Duration::from_millis(500);
/// How often each program is run over a workload; the best run counts.
const RUNS: usize = 7;

type Outcome<T> = Result<T, Box<dyn std::error::Error>>;

/// The best times over one input.
struct Times {
    program: Duration,
    second: Duration,
}

struct Timed {
    workload: Workload,
    lines: usize,
    bytes: usize,
    times: Times,
}

/// A folder for inputs and answers that goes when the program ends.
struct Room(PathBuf);

impl Drop for Room {
    fn drop(&mut self) {
        // Nothing is left to do about a folder that cannot be removed.
        drop(fs::remove_dir_all(&self.0));
    }
}

struct Bench {
    program: PathBuf,
    second: PathBuf,
    runs: usize,
    room: Room,
}

fn main() -> ExitCode {
    let arguments: Vec<String> = std::env::args().skip(1).collect();
    if asks_for_help(&arguments) {
        return help(HELP);
    }
    let arguments: Vec<&str> = arguments.iter().map(String::as_str).collect();
    let (program, runs) = match arguments.as_slice() {
        [program] => (*program, Ok(RUNS)),
        ["--runs", runs, program] => (*program, runs.parse()),
        _ => ("", "".parse()),
    };
    let Ok(runs @ 1..) = runs else {
        return wrong_usage(HELP);
    };
    match Bench::new(program, runs).and_then(|bench| bench.report()) {
        Ok(()) => ExitCode::SUCCESS,
        Err(error) => {
            eprintln!("bench: {error}");
            ExitCode::FAILURE
        }
    }
}

impl Bench {
    /// The program `second` lies beside this one.
    fn new(program: &str, runs: usize) -> Outcome<Bench> {
        let program = fs::canonicalize(program).map_err(|error| format!("{program}: {error}"))?;
        let second = std::env::current_exe()?.with_file_name("second");
        let room = std::env::temp_dir().join(format!("bench-{}", std::process::id()));
        fs::create_dir(&room)?;
        Ok(Bench {
            program,
            second,
            runs,
            room: Room(room),
        })
    }

    fn report(&self) -> Outcome<()> {
        let nothing = self.time(b"")?;
        let workloads = all();
        let each = EACH_TRACE + EACH_RUN * self.runs as u32;
        let mut progress = Progress::begin("bench", workloads.len() as u64, "workloads", each);
        let mut timed = Vec::new();
        for workload in workloads {
            timed.push(self.measure(workload)?);
            progress.step();
        }
        drop(progress);
        print_kinds(&timed);
        print_curves(&timed);
        println!(
            "\nAn empty input takes the program {} ms and second {} ms; both are counted in above.",
            milliseconds(nothing.program),
            milliseconds(nothing.second)
        );
        Ok(())
    }

    fn measure(&self, workload: Workload) -> Outcome<Timed> {
        let trace = workload.trace();
        let times = self
            .time(&trace)
            .map_err(|error| format!("{workload}: {error}"))?;
        Ok(Timed {
            workload,
            lines: trace.iter().filter(|&&byte| byte == b'\n').count(),
            bytes: trace.len(),
            times,
        })
    }

    /// Runs both in turn, so that what else the machine does meets both alike. The answers of
    /// every run are compared.
    fn time(&self, trace: &[u8]) -> Outcome<Times> {
        let input = self.room.0.join("input");
        let (answers, expected) = (self.room.0.join("answers"), self.room.0.join("expected"));
        fs::write(&input, trace)?;
        let mut best = Times {
            program: Duration::MAX,
            second: Duration::MAX,
        };
        for _ in 0..self.runs {
            best.program = best.program.min(run(&self.program, &input, &answers)?);
            best.second = best.second.min(run(&self.second, &input, &expected)?);
            let (answers, expected) = (fs::read(&answers)?, fs::read(&expected)?);
            if let Some(difference) = first_difference(trace, &expected, &answers) {
                return Err(format!("the answers differ\n{difference}").into());
            }
        }
        Ok(best)
    }
}

/// How long a program takes from file to file, its start counted in.
fn run(program: &Path, input: &Path, answers: &Path) -> Outcome<Duration> {
    let (input, answers) = (File::open(input)?, File::create(answers)?);
    let mut command = Command::new(program);
    command.stdin(input).stdout(answers);
    let began = Instant::now();
    let status = command.status()?;
    let took = began.elapsed();
    if !status.success() {
        return Err(format!("{} ended with {status}", program.display()).into());
    }
    Ok(took)
}

fn milliseconds(time: Duration) -> String {
    format!("{:.1}", time.as_secs_f64() * 1e3)
}

fn nanoseconds_a_line(timed: &Timed, time: Duration) -> String {
    format!("{:.0}", time.as_secs_f64() * 1e9 / timed.lines as f64)
}

fn print_kinds(timed: &[Timed]) {
    println!("| kind | lines | MB | program ms | second ms | ratio | ns a line | MB/s |");
    println!("|---|--:|--:|--:|--:|--:|--:|--:|");
    for row in timed {
        let megabytes = row.bytes as f64 / 1e6;
        let program = row.times.program.as_secs_f64();
        println!(
            "| {} | {} | {megabytes:.1} | {} | {} | {:.2} | {} | {:.0} |",
            row.workload,
            row.lines,
            milliseconds(row.times.program),
            milliseconds(row.times.second),
            program / row.times.second.as_secs_f64(),
            nanoseconds_a_line(row, row.times.program),
            megabytes / program,
        );
    }
}

/// Nanoseconds a line by the number of clauses held.
fn print_curves(timed: &[Timed]) {
    let columns: String = HELD.iter().map(|held| format!(" {held} held |")).collect();
    println!("\n| ns a line | by |{columns}");
    println!("|---|---|{}", "--:|".repeat(HELD.len()));
    for kind in &KINDS {
        let of_kind = |row: &&Timed| row.workload.kind.name == kind.name;
        let rows: Vec<&Timed> = timed.iter().filter(of_kind).collect();
        if rows.iter().all(|row| row.workload.held.is_none()) {
            continue;
        }
        let told = |time: fn(&Times) -> Duration| -> String {
            let cell = |row: &&Timed| format!(" {} |", nanoseconds_a_line(row, time(&row.times)));
            rows.iter().map(cell).collect()
        };
        println!("| {} | program |{}", kind.name, told(|times| times.program));
        println!("| {} | second |{}", kind.name, told(|times| times.second));
    }
}
