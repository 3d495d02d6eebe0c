//! A program that is missing, dies, says too little, too much or nothing.

mod common;

use common::{always, shell, tell, tell_over, Ran, Room, ACCEPTED};
use std::time::{Duration, Instant};

const LINE: &str = "0000000800000000\n";

/// A trace of so many lines before a program.
fn over(lines: usize, program: &[String], more: &[&str]) -> Ran {
    let room = Room::new();
    let trace = room.file("trace.hex", LINE.repeat(lines));
    let mut arguments = vec!["check", &trace];
    arguments.extend(more);
    let checked = tell(program, &arguments);
    arguments[0] = "explain";
    let explained = tell(program, &arguments);
    assert_eq!(checked.status, explained.status, "{explained:?}");
    assert_eq!(checked.err, explained.err);
    checked
}

fn fails(ran: &Ran, told: &str) {
    assert_eq!(ran.status, Some(2), "{ran:?}");
    assert!(ran.err.contains(told), "{ran:?}");
    assert_eq!(ran.err.lines().count(), 1, "{ran:?}");
    let last = ran.out.lines().last().expect("a verdict line");
    assert!(last.contains("no verdict"), "{ran:?}");
}

#[test]
fn a_program_that_is_not_there() {
    let missing = ["./no-such-program".to_string()];
    fails(
        &over(1, &missing, &[]),
        "the program cannot be started: No such file",
    );
}

#[test]
fn a_program_that_dies() {
    let told = "the program ended before it answered line 1: exit status: 7";
    fails(&over(3, &shell("exit 7"), &[]), told);
    let killed = shell("read line; echo 0000000000000000; read line; kill -9 $$");
    let told = "the program ended before it answered line 2: signal: 9";
    fails(&over(3, &killed, &[]), told);
}

#[test]
fn a_program_that_dies_before_a_long_trace_is_taken() {
    fails(
        &over(100_000, &shell("exit 7"), &[]),
        "before it answered line 1",
    );
    let three = shell("for i in 1 2 3; do read line; echo 0000000000000000; done");
    let told = "the program ended before it answered line 4: exit status: 0";
    fails(&over(100_000, &three, &[]), told);
}

#[test]
fn a_program_that_answers_too_little() {
    let one = shell("cat >/dev/null; echo 0000000000000000");
    let told = "the program ended before it answered line 2: exit status: 0";
    fails(&over(3, &one, &[]), told);
    let unclosed = shell("cat >/dev/null; printf 0000000000000000");
    let told = "the program wrote for line 1 what is no answer: \"0000000000000000\"";
    fails(&over(1, &unclosed, &[]), told);
}

#[test]
fn a_program_that_answers_too_much() {
    let four = shell("cat >/dev/null; for i in 1 2 3 4; do echo 0000000000000000; done");
    let told = "the program wrote more than the answers to 3 lines";
    fails(&over(3, &four, &[]), told);
    let no_end = ["yes".to_string(), ACCEPTED.to_string()];
    fails(&over(3, &no_end, &[]), told);
    // It stops reading because nobody reads what it has too much of.
    fails(&over(100_000, &no_end, &["--limit", "0.5"]), "the program");
}

#[test]
fn a_program_that_writes_something_else() {
    for (written, shown) in [
        ("hello", "hello"),
        ("00000000", "00000000"),
        ("0000000e00000000", "0000000e00000000"),
        ("000000050000000100000001", "000000050000000100000001"),
        ("", ""),
        ("00000000\\\\t", "00000000\\t"),
    ] {
        let told = format!("the program wrote for line 1 what is no answer: \"{shown}\"");
        let program = shell(&format!(
            "cat >/dev/null; printf '{}\\n'",
            written.replace("\\\\", "\\")
        ));
        fails(&over(1, &program, &[]), &told);
    }
    let endless = shell("cat >/dev/null; exec tr '\\0' 0 </dev/zero");
    let told = format!("is no answer: \"{}\"", "0".repeat(60));
    fails(&over(1, &endless, &[]), &told);
}

#[test]
fn a_model_is_due_after_sat_alone() {
    let with_model = always("000000000000000000000001");
    let ran = tell_over(LINE.as_bytes(), &with_model, &["check", "-"]);
    assert_eq!(ran.status, Some(0), "{ran:?}");
    let ran = tell_over(b"000000010000000100000001\n", &with_model, &["check", "-"]);
    assert_eq!(ran.status, Some(2));
    assert!(ran.err.contains("is no answer"), "{ran:?}");
}

#[test]
fn a_program_that_fails_at_its_end() {
    let program = shell("while read line; do echo 0000000000000000; done; exit 3");
    let told = "the program answered every line, but failed: exit status: 3";
    fails(&over(3, &program, &[]), told);
}

#[test]
fn a_program_that_does_not_answer_is_ended() {
    let began = Instant::now();
    // What the program started may outlive it and hold its output open. Standard error is the test's own.
    let silent = shell("cat >/dev/null; sleep 20 2>/dev/null");
    let told = "the program did not answer line 1 for 0.3 s and was ended";
    fails(&over(2, &silent, &["--limit", "0.3"]), told);
    let told = "the program answered every line, but did not end in 0.3 s";
    let lingers = shell("while read line; do echo 0000000000000000; done; exec sleep 20");
    fails(&over(2, &lingers, &["--limit", "0.3"]), told);
    let reads_nothing = shell("exec sleep 20");
    let told = "the program did not answer line 1 for 0.3 s and was ended";
    fails(&over(100_000, &reads_nothing, &["--limit", "0.3"]), told);
    assert!(began.elapsed() < Duration::from_secs(15));
}
