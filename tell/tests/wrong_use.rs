//! Wrong arguments, and traces and files that cannot be read or written.

mod common;

use common::{always, command, run, tell, Ran, Room, ACCEPTED};
use std::fs;
use std::process::Command;

const LINE: &str = "0000000800000000\n";

fn accepting() -> Vec<String> {
    always(ACCEPTED)
}

/// Arguments, and what is said of them beside the usage.
const WRONG: &[(&[&str], &str)] = &[
    (&["check", "--wrong", "a.hex"], "unknown argument --wrong"),
    (&["check", "-x"], "unknown argument -x"),
    (&["check", "--state", "a.hex"], "unknown argument --state"),
    (&["check"], "no trace is named"),
    (&["check", "a.hex", "--answers"], "--answers needs a file"),
    (
        &["check", "a.hex", "--answers", "-"],
        "--answers needs a file",
    ),
    (
        &["check", "a.hex", "b.hex", "--answers", "c"],
        "--answers goes with one trace",
    ),
    (&["check", "a.hex", "--limit"], "--limit needs a number"),
    (
        &["check", "a.hex", "--limit", "0"],
        "--limit needs a number",
    ),
    (
        &["check", "a.hex", "--limit", "x"],
        "--limit needs a number",
    ),
    (&["explain"], "one trace is to be named"),
    (&["explain", "a.hex", "b.hex"], "one trace is to be named"),
    (
        &["explain", "--answers", "c", "a.hex"],
        "unknown argument --answers",
    ),
    (&["explain", "--code"], "--code needs a number"),
    (&["explain", "--code", ""], "--code needs a number"),
    (&["explain", "--code", "1d"], "--code needs a number"),
    (&["explain", "--code", "-1"], "--code needs a number"),
    (&["explain", "--code", "14"], "no answer has code 14"),
    (&["explain", "--code", "20"], "no answer has code 20"),
    (&["explain", "--code", "30"], "no answer has code 30"),
    (&["explain", "--code", "39"], "no answer has code 39"),
    (&["explain", "--code", "00000014"], "no answer has code 20"),
    (
        &["explain", "--code", "4294967317"],
        "--code needs a number",
    ),
    (&["explain", "--code", "5", "a.hex"], "--code goes alone"),
    (&["explain", "--state", "--code", "5"], "--code goes alone"),
    (&["check", "--code", "5"], "unknown argument --code"),
    (&[], "usage: tell"),
    (&["wrong"], "usage: tell"),
];

#[test]
fn wrong_arguments_print_the_usage() {
    for (arguments, told) in WRONG {
        let ran = tell(&accepting(), arguments);
        assert_eq!(ran.status, Some(2), "{arguments:?}: {ran:?}");
        assert_eq!(ran.out, "");
        assert!(ran.err.contains(told), "{arguments:?}: {ran:?}");
        assert!(ran.err.contains("usage: "), "{arguments:?}: {ran:?}");
    }
}

#[test]
fn help_is_on_standard_output() {
    for task in ["check", "explain"] {
        let ran = tell(&accepting(), &[task, "--help"]);
        assert_eq!((ran.status, ran.err.as_str()), (Some(0), ""));
        let first = format!("usage: zahrubel {task} ");
        assert!(ran.out.starts_with(&first), "{ran:?}");
        // No line is wider than a terminal; what is indented shows lines as they come.
        let is_wide = |line: &str| line.chars().count() > 80 && !line.starts_with("    ");
        assert!(!ran.out.lines().any(is_wide), "{}", ran.out);
    }
}

#[test]
fn a_missing_trace_is_said() {
    for task in ["check", "explain"] {
        let ran = tell(&accepting(), &[task, "no-such.hex"]);
        assert_eq!(ran.status, Some(2));
        assert_eq!(
            ran.out,
            "no-such.hex: no verdict: 0 lines answered, 0 refused\n"
        );
        let told = "zahrubel: no-such.hex: cannot be read: No such file";
        assert!(ran.err.starts_with(told), "{ran:?}");
    }
}

#[test]
fn an_unreadable_trace_is_said() {
    let room = Room::new();
    let folder = room.path("folder");
    fs::create_dir(&folder).expect("a folder");
    let folder = folder.display().to_string();
    for task in ["check", "explain"] {
        let ran = tell(&accepting(), &[task, &folder]);
        assert_eq!(ran.status, Some(2));
        assert!(
            ran.err.contains("cannot be read: Is a directory"),
            "{ran:?}"
        );
        assert!(ran.out.contains("no verdict"), "{ran:?}");
    }
}

#[test]
fn the_other_traces_are_judged_all_the_same() {
    let room = Room::new();
    let (one, other) = (room.file("1.hex", LINE), room.file("2.hex", LINE));
    let missing = room.path("missing.hex").display().to_string();
    let ran = tell(&accepting(), &["check", &one, &missing, &other]);
    assert_eq!(ran.status, Some(2));
    let verdicts: Vec<&str> = ran.out.lines().collect();
    assert_eq!(verdicts.len(), 3);
    assert_eq!(verdicts[0], format!("{one}: accepted: 1 line"));
    assert!(verdicts[1].contains("no verdict"));
    assert_eq!(verdicts[2], format!("{other}: accepted: 1 line"));
    assert_eq!(ran.err.lines().count(), 1);
}

#[test]
fn before_a_program_is_there_traces_are_looked_for() {
    let room = Room::new();
    let there = room.file("1.hex", LINE);
    let ran = tell(&[], &["check", &there, "-"]);
    assert_eq!(
        (ran.status, ran.out.as_str(), ran.err.as_str()),
        (Some(0), "", "")
    );
    let ran = tell(&[], &["check", &there, "no-such.hex"]);
    assert_eq!((ran.status, ran.out.as_str()), (Some(2), ""));
    assert!(ran.err.contains("no-such.hex: cannot be read"), "{ran:?}");
    let ran = tell(&[], &["explain", "--wrong"]);
    assert_eq!(ran.status, Some(2));
    assert!(ran.err.contains("unknown argument --wrong"), "{ran:?}");
}

/// Runs with standard output going to a device that is always full.
fn into_full(command: &Command) -> Ran {
    let mut shell = Command::new("sh");
    shell.args(["-c", "exec \"$@\" >/dev/full", "sh"]);
    shell.arg(command.get_program()).args(command.get_args());
    run(shell, b"")
}

#[test]
fn standard_output_that_fails_is_said() {
    let room = Room::new();
    let trace = room.file("1.hex", LINE.repeat(3));
    for arguments in [
        &["check", &trace][..],
        &["check", &trace, &trace],
        &["explain", &trace],
        &["explain", "--state", &trace],
        &["check", "--help"],
        &["explain", "--code", "5"],
    ] {
        let ran = into_full(&command(&accepting(), arguments));
        assert_eq!(ran.status, Some(2), "{arguments:?}: {ran:?}");
        let told = "standard output cannot be written: No space left";
        assert!(ran.err.contains(told), "{arguments:?}: {ran:?}");
    }
}

#[test]
fn answers_that_cannot_be_kept_are_said() {
    let room = Room::new();
    let trace = room.file("1.hex", LINE);
    let nowhere = room.path("no/such/folder").display().to_string();
    for (file, told) in [
        (nowhere.as_str(), "cannot be written: No such file"),
        ("/dev/full", "/dev/full cannot be written: No space left"),
        (trace.as_str(), "cannot be written: it is the trace"),
    ] {
        let ran = tell(&accepting(), &["check", &trace, "--answers", file]);
        assert_eq!(ran.status, Some(2), "{file}: {ran:?}");
        assert!(ran.err.contains(told), "{file}: {ran:?}");
        assert!(ran.out.contains("no verdict"), "{file}: {ran:?}");
    }
    let kept = fs::read_to_string(&trace).expect("a file");
    assert_eq!(kept, LINE, "the trace is as it was");
}
