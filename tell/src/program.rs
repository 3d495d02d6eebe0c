//! The proved program as a child process: a trace goes in, an answer comes out for each line.
//!
//! Two threads stand between. One reads the trace, hands each part over here and then writes it to
//! the program; the other reads the answers. So a line is known here before its answer can be
//! there, and neither pipe can fill while the other side waits. The queues are bounded, so memory
//! is, whatever the length of the trace.

use crate::answer::{Answer, LONGEST};
use crate::digits::MOST_DIGITS;
use crate::stream::{Line, Lines, Next, Part};
use crate::trouble::{Fault, Trouble};
use std::ffi::OsString;
use std::io::{self, ErrorKind, Read, Write};
use std::process::{Child, ChildStdin, Command, ExitStatus, Stdio};
use std::sync::atomic::{AtomicBool, Ordering};
use std::sync::mpsc::{sync_channel, SyncSender};
use std::sync::Arc;
use std::thread;
use std::time::{Duration, Instant};

/// How much is read at once, and how many such parts may wait.
const PART: usize = 64 * 1024;
const PARTS: usize = 32;
/// How long a program that closed its output may take to end before it is ended.
const GRACE: Duration = Duration::from_secs(5);

pub struct Program {
    child: Child,
    trace: Lines,
    answers: Lines,
    limit: Duration,
    /// Lines read so far.
    pub number: u64,
    pub line: Line,
    /// The answer as it was written.
    pub raw: Line,
}

impl Program {
    /// Starts a program over a trace. An answer may take as long as the limit says.
    pub fn start(
        command: &[OsString],
        trace: Box<dyn Read + Send>,
        limit: Duration,
    ) -> io::Result<Program> {
        let (name, arguments) = command
            .split_first()
            .ok_or_else(|| io::Error::other("no program is named"))?;
        let mut child = Command::new(name)
            .args(arguments)
            .stdin(Stdio::piped())
            .stdout(Stdio::piped())
            .spawn()?;
        let (Some(stdin), Some(stdout)) = (child.stdin.take(), child.stdout.take()) else {
            return Err(io::Error::other("it has no pipes"));
        };
        let stuck = Arc::new(AtomicBool::new(false));
        let (trace_out, trace_in) = sync_channel(PARTS);
        let (answers_out, answers_in) = sync_channel(PARTS);
        let writes = stuck.clone();
        thread::spawn(move || feed(trace, stdin, &trace_out, &writes));
        thread::spawn(move || drop(hand_over(stdout, &answers_out, |_| Ok(()))));
        Ok(Program {
            child,
            // One byte more than a frame can have tells that a line is too long.
            trace: Lines::new(trace_in, MOST_DIGITS + 1, limit).patient(stuck),
            answers: Lines::new(answers_in, LONGEST, limit),
            limit,
            number: 0,
            line: Line::default(),
            raw: Line::default(),
        })
    }

    /// Whether the next line and its answer are here, so that asking for them does not wait.
    pub fn at_hand(&self) -> bool {
        self.trace.at_hand() && self.answers.at_hand()
    }

    /// The answer to the next line; none at the end of the trace, where the program has to end too.
    pub fn next(&mut self) -> Result<Option<Answer>, Trouble> {
        match self.trace.next(&mut self.line) {
            Next::Line => self.number += 1,
            Next::End => return Ok(self.finish().map(|()| None)?),
            Next::Late => return Err(Fault::Late(self.number + 1, self.limit).into()),
            Next::Failed(error) => return Err(Trouble::NotRead(self.number, error)),
            Next::NotTaken(error) => return Err(Fault::NotTaken(self.number, error).into()),
        }
        match self.answers.next(&mut self.raw) {
            Next::Line => {}
            Next::Late => return Err(Fault::Late(self.number, self.limit).into()),
            Next::End | Next::Failed(_) | Next::NotTaken(_) => {
                let ended = self.how_it_ended();
                return Err(Fault::Early(self.number, ended).into());
            }
        }
        match Answer::read(&self.raw) {
            Some(answer) => Ok(Some(answer)),
            None => Err(self.no_answer().into()),
        }
    }

    /// What was written for the line at hand is no answer to it.
    pub fn no_answer(&self) -> Fault {
        const SHOWN: usize = 60;
        let shown = self.raw.bytes.len().min(SHOWN);
        Fault::NoAnswer(self.number, self.raw.bytes[..shown].to_vec())
    }

    /// Every line is answered: nothing more is due but the program's end.
    fn finish(&mut self) -> Result<(), Fault> {
        match self.answers.next(&mut self.raw) {
            Next::End => {}
            Next::Late => return Err(Fault::Lingers(self.limit)),
            Next::Line | Next::Failed(_) | Next::NotTaken(_) => {
                return Err(Fault::More(self.number))
            }
        }
        match self.ended_within(GRACE) {
            Ok(Some(status)) if status.success() => Ok(()),
            Ok(Some(status)) => Err(Fault::Failed(status)),
            Ok(None) | Err(_) => Err(Fault::Lingers(GRACE)),
        }
    }

    fn how_it_ended(&mut self) -> String {
        match self.ended_within(GRACE) {
            Ok(Some(status)) => status.to_string(),
            Ok(None) => "it closed its output".to_string(),
            Err(error) => error.to_string(),
        }
    }

    fn ended_within(&mut self, limit: Duration) -> io::Result<Option<ExitStatus>> {
        let began = Instant::now();
        loop {
            if let Some(status) = self.child.try_wait()? {
                return Ok(Some(status));
            }
            if began.elapsed() > limit {
                return Ok(None);
            }
            thread::sleep(Duration::from_millis(1));
        }
    }
}

impl Drop for Program {
    /// No program outlives its trace. One that has ended already cannot be killed, which is well.
    fn drop(&mut self) {
        drop(self.child.kill());
        drop(self.child.wait());
    }
}

/// Reads the trace and writes it to the program, whose input ends with it.
fn feed(
    trace: Box<dyn Read + Send>,
    mut stdin: ChildStdin,
    parts: &SyncSender<Part>,
    writes: &AtomicBool,
) {
    let taken = hand_over(trace, parts, |part| {
        writes.store(true, Ordering::SeqCst);
        let written = stdin.write_all(part);
        writes.store(false, Ordering::SeqCst);
        written
    });
    if let Err(error) = taken {
        // Who does not listen any more need not be told.
        drop(parts.send(Part::NotTaken(error)));
    }
}

/// Hands a stream over in parts, each of which is then used; fails where that does.
fn hand_over(
    mut stream: impl Read,
    parts: &SyncSender<Part>,
    mut used: impl FnMut(&[u8]) -> io::Result<()>,
) -> io::Result<()> {
    let mut room = vec![0; PART];
    loop {
        let part = match stream.read(&mut room) {
            Ok(0) => Part::End,
            Ok(length) => Part::Bytes(room[..length].to_vec()),
            Err(error) if error.kind() == ErrorKind::Interrupted => continue,
            Err(error) => Part::Failed(error),
        };
        let length = match &part {
            Part::Bytes(bytes) => bytes.len(),
            _ => 0,
        };
        // A listener that is gone wants no more.
        if parts.send(part).is_err() || length == 0 {
            return Ok(());
        }
        used(&room[..length])?;
    }
}
