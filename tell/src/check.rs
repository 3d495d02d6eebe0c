//! check: each refusal as a line, then the verdict.

use crate::arguments::{Common, Trace};
use crate::say_wrong;
use crate::screen::Screen;
use crate::session::Session;
use crate::trouble::Trouble;
use crate::verdict::{Tally, Verdict};
use std::fs::{self, File};
use std::io::{self, BufWriter, Write};
use std::os::unix::fs::MetadataExt;
use std::path::{Path, PathBuf};

pub struct Check {
    pub common: Common,
    pub traces: Vec<Trace>,
    /// Where the program's answers are kept.
    pub answers: Option<PathBuf>,
}

/// Checks every trace; the worst verdict counts.
pub fn run(task: &Check) -> Verdict {
    let mut screen = Screen::new();
    let mut worst = Verdict::Accepted;
    for trace in &task.traces {
        let mut tally = Tally::default();
        let mut verdict = match check(task, trace, &mut tally, &mut screen) {
            Ok(()) => tally.verdict(),
            Err(trouble) => lost(trace, &trouble, &mut screen),
        };
        let told = format!("{}: {}\n", trace.name(), tally.told(verdict));
        if let Err(error) = screen.say(&told).and_then(|()| screen.end()) {
            let trouble = not_written(error);
            verdict = lost(trace, &trouble, &mut screen);
        }
        worst = worst.max(verdict);
    }
    worst
}

/// Says what is wrong, behind what was said before.
pub fn lost(trace: &Trace, trouble: &Trouble, screen: &mut Screen) -> Verdict {
    // What cannot be written is the trouble already, or will be at the verdict.
    drop(screen.end());
    say_wrong(&format!("{}: {trouble}", trace.name()));
    Verdict::None
}

/// Standard output fails.
pub fn not_written(error: io::Error) -> Trouble {
    Trouble::NotWritten("standard output".to_string(), error)
}

fn check(
    task: &Check,
    trace: &Trace,
    tally: &mut Tally,
    screen: &mut Screen,
) -> Result<(), Trouble> {
    let mut answers = Answers::open(task.answers.as_deref(), trace)?;
    let (mut session, length) = Session::start(&task.common, trace)?;
    screen.begin(length);
    // Among several traces a line names its own.
    let name = match task.traces.len() {
        1 => String::new(),
        _ => format!("{}: ", trace.name()),
    };
    while session.next()? {
        tally.add(session.is_accepted());
        answers.keep(session.raw_answer())?;
        if !session.is_accepted() {
            let (number, operation) = (session.number(), session.told_operation());
            let told = format!(
                "{name}line {number}: {operation}{}\n",
                session.told_answer()
            );
            screen.say(&told).map_err(not_written)?;
        }
        session.settle();
        screen.step(session.length()).map_err(not_written)?;
        if !session.at_hand() {
            screen.flush().map_err(not_written)?;
        }
    }
    answers.close()
}

/// The file that keeps the answers, if one is asked for.
struct Answers {
    name: String,
    file: Option<BufWriter<File>>,
}

impl Answers {
    fn open(path: Option<&Path>, trace: &Trace) -> Result<Answers, Trouble> {
        let Some(path) = path else {
            return Ok(Answers {
                name: String::new(),
                file: None,
            });
        };
        let name = path.display().to_string();
        if is_same_file(path, trace) {
            let same = io::Error::other("it is the trace");
            return Err(Trouble::NotWritten(name, same));
        }
        match File::create(path) {
            Ok(file) => Ok(Answers {
                name,
                file: Some(BufWriter::new(file)),
            }),
            Err(error) => Err(Trouble::NotWritten(name, error)),
        }
    }

    fn keep(&mut self, answer: &[u8]) -> Result<(), Trouble> {
        let Some(file) = &mut self.file else {
            return Ok(());
        };
        let written = file.write_all(answer).and_then(|()| file.write_all(b"\n"));
        written.map_err(|error| Trouble::NotWritten(self.name.clone(), error))
    }

    fn close(&mut self) -> Result<(), Trouble> {
        let Some(file) = &mut self.file else {
            return Ok(());
        };
        let flushed = file.flush();
        flushed.map_err(|error| Trouble::NotWritten(self.name.clone(), error))
    }
}

/// A trace must not be overwritten by its answers.
fn is_same_file(path: &Path, trace: &Trace) -> bool {
    let Trace::File(trace) = trace else {
        return false;
    };
    match (fs::metadata(path), fs::metadata(trace)) {
        (Ok(one), Ok(other)) => (one.dev(), one.ino()) == (other.dev(), other.ino()),
        _ => false,
    }
}
