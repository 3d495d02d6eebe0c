//! What can be wrong beside a refusal.

use std::fmt;
use std::io;
use std::process::ExitStatus;
use std::time::Duration;

#[derive(Debug)]
pub enum Trouble {
    /// The trace, behind so many lines.
    NotRead(u64, io::Error),
    /// What was to be written, and why it was not.
    NotWritten(String, io::Error),
    Program(Fault),
}

/// What the program did, or did not.
#[derive(Debug)]
pub enum Fault {
    NotStarted(io::Error),
    /// It ended, in these words, before it answered this line.
    Early(u64, String),
    /// It took no more input behind this line.
    NotTaken(u64, io::Error),
    /// It did not answer this line in time.
    Late(u64, Duration),
    /// It wrote this where the answer to a line was due.
    NoAnswer(u64, Vec<u8>),
    /// It wrote more than the answers to so many lines.
    More(u64),
    /// It answered everything and then failed.
    Failed(ExitStatus),
    /// It answered everything and did not end in time.
    Lingers(Duration),
}

impl From<Fault> for Trouble {
    fn from(fault: Fault) -> Trouble {
        Trouble::Program(fault)
    }
}

impl fmt::Display for Trouble {
    fn fmt(&self, out: &mut fmt::Formatter<'_>) -> fmt::Result {
        match self {
            Trouble::NotRead(0, error) => write!(out, "cannot be read: {error}"),
            Trouble::NotRead(line, error) => {
                write!(out, "cannot be read behind line {line}: {error}")
            }
            Trouble::NotWritten(what, error) => write!(out, "{what} cannot be written: {error}"),
            Trouble::Program(fault) => write!(out, "the program {}", fault.told()),
        }
    }
}

impl Fault {
    fn told(&self) -> String {
        match self {
            Fault::NotStarted(error) => format!("cannot be started: {error}"),
            Fault::Early(line, ended) => format!("ended before it answered line {line}: {ended}"),
            Fault::NotTaken(line, error) => format!("takes no input behind line {line}: {error}"),
            Fault::Late(line, limit) => {
                let seconds = limit.as_secs_f64();
                format!("did not answer line {line} for {seconds} s and was ended")
            }
            Fault::NoAnswer(line, bytes) => {
                let bytes = bytes.escape_ascii();
                format!("wrote for line {line} what is no answer: \"{bytes}\"")
            }
            Fault::More(lines) => format!("wrote more than the answers to {lines} lines"),
            Fault::Failed(status) => format!("answered every line, but failed: {status}"),
            Fault::Lingers(limit) => {
                let seconds = limit.as_secs_f64();
                format!("answered every line, but did not end in {seconds} s")
            }
        }
    }
}
