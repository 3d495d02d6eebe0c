//! Comparing another program's answers with those of this one.

use crate::histogram::lines_of;
use crate::words::{tell_answer, tell_line};
use std::fmt;
use std::io::{self, Read, Write};
use std::process::{Child, Command, ExitStatus, Stdio};
use std::thread::{self, JoinHandle};
use std::time::{Duration, Instant};

/// No program that is started here may run longer.
pub const TIME_LIMIT: Duration = Duration::from_secs(600);

/// The first line on which two programs differ.
#[derive(Clone, Debug, PartialEq, Eq)]
pub struct Difference {
    /// Lines count from 1.
    pub line: usize,
    pub asked: Vec<u8>,
    pub expected: Option<Vec<u8>>,
    pub found: Option<Vec<u8>>,
}

/// Compares the answers to a trace line by line; a line that is not closed is another line.
pub fn first_difference(trace: &[u8], expected: &[u8], found: &[u8]) -> Option<Difference> {
    if expected == found {
        return None;
    }
    let mut asked = lines_of(trace);
    let (mut expected, mut found) = (lines_of(expected), lines_of(found));
    for line in 1.. {
        let asked = asked.next().map_or(&b""[..], |(line, _)| line);
        let (one, other) = (expected.next(), found.next());
        if one != other {
            return Some(Difference {
                line,
                asked: asked.to_vec(),
                expected: one.map(|(line, _)| line.to_vec()),
                found: other.map(|(line, _)| line.to_vec()),
            });
        }
    }
    None
}

impl fmt::Display for Difference {
    fn fmt(&self, out: &mut fmt::Formatter<'_>) -> fmt::Result {
        let told = |answer: &Option<Vec<u8>>| match answer {
            Some(line) => tell_answer(line),
            None => "no line".to_string(),
        };
        writeln!(out, "line     {}: {}", self.line, tell_line(&self.asked))?;
        writeln!(out, "expected {}", told(&self.expected))?;
        write!(out, "found    {}", told(&self.found))
    }
}

/// What a program wrote and how it ended.
#[derive(Debug)]
pub struct Run {
    pub output: Vec<u8>,
    /// What it wrote to standard error, if anyone asked for it.
    pub errors: Vec<u8>,
    pub status: ExitStatus,
}

/// Feeds the input to a program; of its output at most `most` bytes are read.
pub fn run_program(command: &[String], input: Vec<u8>, most: usize) -> io::Result<Run> {
    run_program_within(TIME_LIMIT, command, input, most)
}

/// The same under another time limit; a program that exceeds it is ended, and that is an error.
pub fn run_program_within(
    limit: Duration,
    command: &[String],
    input: Vec<u8>,
    most: usize,
) -> io::Result<Run> {
    run_child(limit, command, input, most, Stdio::inherit())
}

/// Feeds the input to a program and reads standard error, too; of each at most `most` bytes.
pub fn run_program_whole(command: &[String], input: Vec<u8>, most: usize) -> io::Result<Run> {
    run_child(TIME_LIMIT, command, input, most, Stdio::piped())
}

fn run_child(
    limit: Duration,
    command: &[String],
    input: Vec<u8>,
    most: usize,
    errors: Stdio,
) -> io::Result<Run> {
    let (program, arguments) = command
        .split_first()
        .ok_or_else(|| io::Error::new(io::ErrorKind::InvalidInput, "no program"))?;
    let mut child = Command::new(program)
        .args(arguments)
        .stdin(Stdio::piped())
        .stdout(Stdio::piped())
        .stderr(errors)
        .spawn()?;
    let (Some(mut stdin), Some(stdout)) = (child.stdin.take(), child.stdout.take()) else {
        return Err(io::Error::other("the program has no pipes"));
    };
    // A pipe has a thread of its own, so that neither side waits for the other's. A program that ends early closes its pipe;
    // what it has answered is compared all the same.
    let writer = thread::spawn(move || drop(stdin.write_all(&input)));
    let output = read_aside(stdout, most);
    let errors = child.stderr.take().map(|errors| read_aside(errors, most));
    // Of a program that was ended here a child may still hold the pipes, so nobody waits for their threads.
    let status = ended_within(limit, &mut child)?;
    writer.join().map_err(thread_failed)?;
    Ok(Run {
        status,
        output: output.join().map_err(thread_failed)??,
        errors: match errors {
            Some(errors) => errors.join().map_err(thread_failed)??,
            None => Vec::new(),
        },
    })
}

/// Reads a pipe in a thread of its own.
fn read_aside(pipe: impl Read + Send + 'static, most: usize) -> JoinHandle<io::Result<Vec<u8>>> {
    thread::spawn(move || {
        let mut read = Vec::new();
        pipe.take(most as u64).read_to_end(&mut read)?;
        Ok(read)
    })
}

fn thread_failed<T>(_: T) -> io::Error {
    io::Error::other("a pipe's thread failed")
}

/// How a program ended, or that it was ended here.
fn ended_within(limit: Duration, child: &mut Child) -> io::Result<ExitStatus> {
    let began = Instant::now();
    loop {
        if let Some(status) = child.try_wait()? {
            return Ok(status);
        }
        if began.elapsed() > limit {
            child.kill()?;
            child.wait()?;
            return Err(io::Error::new(
                io::ErrorKind::TimedOut,
                "the program took too long",
            ));
        }
        thread::sleep(Duration::from_millis(1));
    }
}
