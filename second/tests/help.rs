//! Every program says what it is for, and what is wrong with its arguments.

use second::compare::TIME_LIMIT;
use std::process::{Command, Output, Stdio};
use std::thread;
use std::time::{Duration, Instant};

const PROGRAMS: [(&str, &str); 12] = [
    ("bench", env!("CARGO_BIN_EXE_bench")),
    ("differ", env!("CARGO_BIN_EXE_differ")),
    ("differ-proofs", env!("CARGO_BIN_EXE_differ-proofs")),
    ("differ-texts", env!("CARGO_BIN_EXE_differ-texts")),
    ("judge", env!("CARGO_BIN_EXE_judge")),
    ("proofs", env!("CARGO_BIN_EXE_proofs")),
    ("read-proof", env!("CARGO_BIN_EXE_read-proof")),
    ("read-text", env!("CARGO_BIN_EXE_read-text")),
    ("second", env!("CARGO_BIN_EXE_second")),
    ("texts", env!("CARGO_BIN_EXE_texts")),
    ("traces", env!("CARGO_BIN_EXE_traces")),
    ("workload", env!("CARGO_BIN_EXE_workload")),
];

/// What they say here fits into a pipe, so it is read when they have ended.
fn run(program: &str, arguments: &[&str]) -> Output {
    let mut command = Command::new(program);
    command.args(arguments).stdin(Stdio::null());
    command.stdout(Stdio::piped()).stderr(Stdio::piped());
    let mut child = command.spawn().expect("the program starts");
    let began = Instant::now();
    while child.try_wait().expect("a child").is_none() {
        if began.elapsed() > TIME_LIMIT {
            child.kill().expect("a child to end");
            panic!("{program} took too long");
        }
        thread::sleep(Duration::from_millis(1));
    }
    child.wait_with_output().expect("its output")
}

#[test]
fn help_is_on_standard_output() {
    for (name, program) in PROGRAMS {
        for word in ["--help", "-h"] {
            let output = run(program, &[word]);
            let told = String::from_utf8(output.stdout).expect("text");
            assert_eq!(output.status.code(), Some(0), "{name}");
            assert!(told.starts_with(&format!("usage: {name}")), "{told}");
            assert!(told.lines().count() > 2, "{told}");
            assert!(output.stderr.is_empty(), "{name}");
        }
    }
}

#[test]
fn a_wrong_usage_is_on_standard_error() {
    for (name, program) in PROGRAMS {
        let output = run(program, &["--seeds", "wrong", "--and", "more"]);
        let told = String::from_utf8(output.stderr).expect("text");
        assert_eq!(output.status.code(), Some(2), "{name}");
        assert!(told.starts_with(&format!("usage: {name}")), "{told}");
        assert!(output.stdout.is_empty(), "{name}");
    }
}

/// About how long a run takes is said before it begins; without a terminal nothing more.
#[test]
fn the_time_is_said_beforehand() {
    let output = run(env!("CARGO_BIN_EXE_judge"), &["10"]);
    let told = String::from_utf8(output.stderr).expect("text");
    assert_eq!(told, "judge: 10 histories, about a second\n");
    let second = env!("CARGO_BIN_EXE_second");
    let differ = env!("CARGO_BIN_EXE_differ");
    let output = run(differ, &["--seeds", "0..2", "--class", "small", second]);
    let told = String::from_utf8(output.stderr).expect("text");
    assert_eq!(told, "differ: 2 traces, about a second\n");
    assert!(output.status.success());
}
