//! tell: what `./zahrubel check` and `./zahrubel explain` say.
//!
//! It judges nothing. The proved program runs as a child process and answers every line; here its
//! answers are counted and put in words. What is held is kept by replaying the frames that the
//! program accepted, so that a clause or record that an answer names can be spelt out.
//!
//! Called by the launcher as `tell PROGRAM.. -- check ..`. Without PROGRAM it only looks whether the
//! arguments are right and the traces are there. What a code means is told without it, too.

mod answer;
mod arguments;
mod check;
mod codes;
mod digits;
mod explain;
mod frame;
mod groups;
mod held;
mod hints;
mod lists;
mod literals;
mod noframe;
mod program;
mod refusal;
mod screen;
mod session;
mod stream;
mod telling;
mod trouble;
mod verdict;

use arguments::{Asked, Task};
use std::io::{self, Write};
use std::process::ExitCode;

/// The command line's status where something could not be read, written or understood.
const COULD_NOT: u8 = 2;

fn main() -> ExitCode {
    let status = match arguments::read(std::env::args_os().skip(1)) {
        Ok(Asked::Help(text)) => print(text),
        Ok(Asked::Code(told)) => print(&told),
        Ok(Asked::Look(traces)) => arguments::look(&traces),
        Ok(Asked::Run(task)) => run(&task),
        Err(wrong) => {
            say_wrong(&wrong);
            COULD_NOT
        }
    };
    ExitCode::from(status)
}

fn run(task: &Task) -> u8 {
    let worst = match task {
        Task::Check(task) => check::run(task),
        Task::Explain(task) => explain::run(task),
    };
    worst.status()
}

fn print(text: &str) -> u8 {
    match io::stdout().write_all(text.as_bytes()) {
        Ok(()) => 0,
        Err(error) => {
            say_wrong(&format!("standard output cannot be written: {error}"));
            COULD_NOT
        }
    }
}

/// Standard error is the last place to say anything; what is lost there is lost.
pub fn say_wrong(text: &str) {
    drop(writeln!(io::stderr(), "zahrubel: {text}"));
}
