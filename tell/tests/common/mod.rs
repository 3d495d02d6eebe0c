//! Starting the built program, with stand-ins for the proved one, under a time limit.

// Each test program uses some of it.
#![allow(dead_code)]

use std::fs;
use std::io::{Read, Write};
use std::path::{Path, PathBuf};
use std::process::{Child, Command, Stdio};
use std::sync::atomic::{AtomicU32, Ordering};
use std::thread;
use std::time::{Duration, Instant};

/// No program that a test starts may run longer.
pub const TIME_LIMIT: Duration = Duration::from_secs(120);

/// How a program ended and what it said.
#[derive(Debug)]
pub struct Ran {
    pub status: Option<i32>,
    pub out: String,
    pub err: String,
}

/// A stand-in that takes all input and then writes a file.
pub fn writing(file: &Path) -> Vec<String> {
    let file = file.display().to_string();
    let text = "cat >/dev/null; cat \"$0\"";
    ["sh", "-c", text, &file].map(str::to_string).to_vec()
}

/// A stand-in by a shell's text.
pub fn shell(text: &str) -> Vec<String> {
    ["sh", "-c", text].map(str::to_string).to_vec()
}

/// A stand-in that gives every line, closed or not, the same answer.
pub fn always(answer: &str) -> Vec<String> {
    shell(&format!(
        "while IFS= read -r line || [ -n \"$line\" ]; do echo {answer}; done"
    ))
}

pub const ACCEPTED: &str = "0000000000000000";
pub const REFUSED_2: &str = "0000000200000000";

/// Runs `tell PROGRAM.. -- ARGUMENTS..` over an input.
pub fn tell_over(input: &[u8], program: &[String], arguments: &[&str]) -> Ran {
    run(command(program, arguments), input)
}

pub fn tell(program: &[String], arguments: &[&str]) -> Ran {
    tell_over(b"", program, arguments)
}

pub fn command(program: &[String], arguments: &[&str]) -> Command {
    let mut command = Command::new(env!("CARGO_BIN_EXE_tell"));
    command.args(program).arg("--").args(arguments);
    command
}

/// Runs a command over an input; one that takes too long is ended, and the test fails.
pub fn run(mut command: Command, input: &[u8]) -> Ran {
    let mut child = command
        .stdin(Stdio::piped())
        .stdout(Stdio::piped())
        .stderr(Stdio::piped())
        .spawn()
        .expect("the program starts");
    let mut stdin = child.stdin.take().expect("a pipe");
    let input = input.to_vec();
    // Who does not read its input closes it.
    let writer = thread::spawn(move || drop(stdin.write_all(&input)));
    let out = reader(child.stdout.take().expect("a pipe"));
    let err = reader(child.stderr.take().expect("a pipe"));
    let status = ended(&mut child);
    writer.join().expect("a writer");
    Ran {
        status,
        out: out.join().expect("a reader"),
        err: err.join().expect("a reader"),
    }
}

fn reader(mut pipe: impl Read + Send + 'static) -> thread::JoinHandle<String> {
    thread::spawn(move || {
        let mut bytes = Vec::new();
        pipe.read_to_end(&mut bytes).expect("a readable pipe");
        String::from_utf8_lossy(&bytes).into_owned()
    })
}

/// The status that a program ends with inside the limit.
pub fn ended(child: &mut Child) -> Option<i32> {
    let began = Instant::now();
    loop {
        if let Some(status) = child.try_wait().expect("a child") {
            return status.code();
        }
        if began.elapsed() > TIME_LIMIT {
            child.kill().expect("a child to end");
            panic!("the program took longer than {TIME_LIMIT:?}");
        }
        thread::sleep(Duration::from_millis(2));
    }
}

/// A folder of a test's own that goes with it.
pub struct Room(PathBuf);

static ROOMS: AtomicU32 = AtomicU32::new(0);

impl Room {
    pub fn new() -> Room {
        let number = ROOMS.fetch_add(1, Ordering::SeqCst);
        let name = format!("tell-{}-{number}", std::process::id());
        let path = std::env::temp_dir().join(name);
        fs::create_dir(&path).expect("a folder");
        Room(path)
    }

    pub fn path(&self, name: &str) -> PathBuf {
        self.0.join(name)
    }

    /// Writes a file and hands out its path.
    pub fn file(&self, name: &str, bytes: impl AsRef<[u8]>) -> String {
        let path = self.path(name);
        fs::write(&path, bytes).expect("a file");
        path.display().to_string()
    }
}

impl Drop for Room {
    fn drop(&mut self) {
        drop(fs::remove_dir_all(&self.0));
    }
}

/// A file of the repository.
pub fn of_the_repository(path: &str) -> PathBuf {
    Path::new(env!("CARGO_MANIFEST_DIR")).join("..").join(path)
}
