//! The programs for texts: what read-text writes, and what differ-texts says of other programs.

use second::compare::{run_program_whole, Run};
use second::dimacs::program::{answer, run, Written};
use second::texts::compare::first_difference;
use second::texts::{find_class, large, CLASSES};
use std::io::{self, Write};
use std::os::unix::process::ExitStatusExt;
use std::process::ExitStatus;

const READ_TEXT: &str = env!("CARGO_BIN_EXE_read-text");
const DIFFER_TEXTS: &str = env!("CARGO_BIN_EXE_differ-texts");
const TEXTS: &str = env!("CARGO_BIN_EXE_texts");

fn run_words(words: &[&str], input: &[u8]) -> Run {
    let command: Vec<String> = words.iter().map(|word| word.to_string()).collect();
    run_program_whole(&command, input.to_vec(), 1 << 24).expect("the program starts")
}

fn told(bytes: &[u8]) -> String {
    String::from_utf8_lossy(bytes).into_owned()
}

/// Standard output, standard error and the status of read-text.
fn read_text(text: &[u8]) -> (String, String, Option<i32>) {
    let run = run_words(&[READ_TEXT], text);
    (told(&run.output), told(&run.errors), run.status.code())
}

#[test]
fn a_sound_text_writes_one_line_per_frame() {
    let (output, errors, status) = read_text(b"c rules\np cnf 3 3\n1 -2 0 0\n-3 0");
    let lines = "000000010000000100000001fffffffe\n0000000100000002\n0000000100000003fffffffd\n";
    assert_eq!(
        (output.as_str(), errors.as_str(), status),
        (lines, "", Some(0))
    );
    assert_eq!(
        read_text(b"p cnf 3 0"),
        (String::new(), String::new(), Some(0))
    );
}

#[test]
fn a_faulty_text_writes_number_and_position_to_standard_error() {
    let (output, errors, status) = read_text(b"");
    assert_eq!(
        (output.as_str(), errors.as_str(), status),
        ("", "0000001500000000\n", Some(1))
    );
    let (output, errors, status) = read_text(b"p cnf 3 1\n1 0 2 0\n");
    assert_eq!(
        (output.as_str(), errors.as_str(), status),
        ("", "0000001d00000012\n", Some(1))
    );
}

#[test]
fn the_program_by_pipe_equals_the_library() {
    for class in &CLASSES {
        for seed in 30..33 {
            let text = class.text(seed);
            let expected = answer(&text).expect("a short text");
            let found = run_words(&[READ_TEXT], &text);
            assert_eq!(
                first_difference(&expected, &found),
                None,
                "{} {seed}",
                class.name
            );
        }
    }
}

/// Lines are gathered in parts; none is lost or written twice.
#[test]
fn a_large_text_is_written_whole() {
    let text = large(300_000);
    let written = answer(&text).expect("a short text");
    let (_, frames) = second::dimacs::read(&text).expect("a sound text");
    let mut lines = Vec::new();
    for frame in frames.iter() {
        second::lines::write_frame(frame, &mut lines);
    }
    assert!(written.output == lines);
    let through_pipe = run_words(&[READ_TEXT], &text);
    assert!(through_pipe.output == lines);
}

struct Closed;

impl Write for Closed {
    fn write(&mut self, _: &[u8]) -> io::Result<usize> {
        Err(io::ErrorKind::BrokenPipe.into())
    }

    fn flush(&mut self) -> io::Result<()> {
        Err(io::ErrorKind::BrokenPipe.into())
    }
}

#[test]
fn output_that_fails_is_an_error() {
    assert!(run(b"p cnf 1 1\n1 0", Closed, io::sink()).is_err());
    assert!(run(b"p cnf 1 1\n1", io::sink(), Closed).is_err());
}

/// A run as another program might have made it.
fn found(output: &str, errors: &str, status: i32) -> Run {
    Run {
        output: output.into(),
        errors: errors.into(),
        status: ExitStatus::from_raw(status << 8),
    }
}

fn difference(expected: &Written, found: &Run) -> String {
    first_difference(expected, found)
        .expect("a difference")
        .to_string()
}

#[test]
fn a_difference_is_told_in_words() {
    let faulty = answer(b"p cnf 3 1\n4 0").unwrap();
    let sound = answer(b"p cnf 3 1\n-3 0").unwrap();
    assert_eq!(
        difference(&faulty, &found("", "000000180000000b\n", 1)),
        "expected status 1, 24 (a literal past the declared count) at byte 10\n\
         found    exit status: 1, 24 (a literal past the declared count) at byte 11"
    );
    assert_eq!(
        difference(&faulty, &found("", "", 0)),
        "expected status 1, 24 (a literal past the declared count) at byte 10\n\
         found    exit status: 0, nothing on standard error"
    );
    assert_eq!(
        difference(&sound, &found("0000000100000001fffffffe\n", "", 0)),
        "expected line 1 ADD 1 (-3) [3 words]\nfound    line 1 ADD 1 (-2) [3 words]"
    );
    assert_eq!(
        difference(&sound, &found("", "", 0)),
        "expected line 1 ADD 1 (-3) [3 words]\nfound    line 1 is none"
    );
}

#[test]
fn the_first_line_on_standard_error_is_compared_and_no_later_one() {
    let faulty = answer(b"p cnf 3 1\n4 0").unwrap();
    let words = "000000180000000a\n4 is past 3\n";
    assert_eq!(first_difference(&faulty, &found("", words, 1)), None);
    for wrong in [
        "000000180000000a",
        "4 is past 3\n000000180000000a\n",
        "24 10\n",
        "\n",
    ] {
        assert!(
            first_difference(&faulty, &found("", wrong, 1)).is_some(),
            "{wrong}"
        );
    }
    let sound = answer(b"p cnf 3 0").unwrap();
    assert_eq!(first_difference(&sound, &found("", "", 0)), None);
    assert!(first_difference(&sound, &found("", "sound\n", 0)).is_some());
}

#[test]
fn the_status_and_all_of_the_output_are_compared() {
    let faulty = answer(b"x").unwrap();
    assert!(first_difference(&faulty, &found("", "0000001500000000\n", 0)).is_some());
    assert!(first_difference(&faulty, &found("", "0000001500000000\n", 2)).is_some());
    assert!(first_difference(&faulty, &found("\n", "0000001500000000\n", 1)).is_some());
    let sound = answer(b"p cnf 1 1\n0").unwrap();
    assert!(first_difference(&sound, &found("0000000100000001", "", 0)).is_some());
    assert!(first_difference(&sound, &found("0000000100000001\n\n", "", 0)).is_some());
}

#[test]
fn differ_texts_finds_no_difference_in_read_text() {
    let run = run_words(&[DIFFER_TEXTS, "--seeds", "3..5", READ_TEXT], b"");
    let output = told(&run.output);
    assert_eq!(run.status.code(), Some(0), "{output}");
    let texts = 2 * CLASSES.len();
    assert!(
        output.ends_with(&format!("{texts} texts, no difference\n")),
        "{output}"
    );
    let time = format!("differ-texts: {texts} texts, about ");
    assert!(
        told(&run.errors).starts_with(&time),
        "{}",
        told(&run.errors)
    );
}

#[test]
fn differ_texts_tells_a_difference_and_fails() {
    let run = run_words(&[DIFFER_TEXTS, "--class", "malformed", "false"], b"");
    let output = told(&run.output);
    assert_eq!(run.status.code(), Some(1), "{output}");
    assert!(
        output.starts_with("class    malformed, seed 0\nexpected status 1, 23 ("),
        "{output}"
    );
    assert!(
        output.ends_with("found    exit status: 1, nothing on standard error\n"),
        "{output}"
    );
    let run = run_words(
        &[DIFFER_TEXTS, "--class", "plain", "./no-such-program"],
        b"",
    );
    assert_eq!(run.status.code(), Some(1));
}

#[test]
fn texts_writes_what_it_is_asked_for() {
    let text = |words: &[&str]| {
        let run = run_words(&[&[TEXTS], words].concat(), b"");
        (run.output, run.status.code())
    };
    let cut = find_class("cut").expect("a class");
    assert_eq!(text(&["cut", "9"]), (cut.text(9), Some(0)));
    assert_eq!(text(&["--large", "5000"]), (large(5_000), Some(0)));
    let (classes, _) = text(&["--classes"]);
    assert_eq!(told(&classes).lines().count(), CLASSES.len() + 4);
    let (histogram, _) = text(&["--histogram", "2"]);
    let texts = format!("{} texts\n", 2 * CLASSES.len());
    assert!(told(&histogram).ends_with(&texts), "{}", told(&histogram));
    let (field, status) = text(&["--field", "pigeonhole", "2", "--crlf", "--comments"]);
    assert!(field.starts_with(b"c pigeonhole"), "{}", told(&field));
    assert!(
        told(&field).contains("\r\np cnf 6 9\r\n"),
        "{}",
        told(&field)
    );
    assert_eq!(status, Some(0));
    for wrong in [
        &["--field", "parity", "0"][..],
        &["--field", "x"],
        &["cut"],
        &["cut", "x"],
        &["x", "1"],
    ] {
        assert_eq!(text(wrong), (Vec::new(), Some(2)), "{wrong:?}");
    }
}
