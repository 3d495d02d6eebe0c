//! The programs for proofs: what read-proof writes, and what differ-proofs says of other programs.

use second::compare::{run_program_whole, Run};
use second::lrat::program::{answer, run};
use second::proofs::compare::first_difference;
use second::proofs::{find_class, large, CLASSES};
use std::fs;
use std::io::{self, Write};
use std::os::unix::process::ExitStatusExt;
use std::path::PathBuf;
use std::process::ExitStatus;

const READ_PROOF: &str = env!("CARGO_BIN_EXE_read-proof");
const DIFFER_PROOFS: &str = env!("CARGO_BIN_EXE_differ-proofs");
const PROOFS: &str = env!("CARGO_BIN_EXE_proofs");

fn run_words(words: &[&str]) -> Run {
    let command: Vec<String> = words.iter().map(|word| word.to_string()).collect();
    run_program_whole(&command, Vec::new(), 1 << 24).expect("the program starts")
}

fn told(bytes: &[u8]) -> String {
    String::from_utf8_lossy(bytes).into_owned()
}

/// Two files of a test, which go with it.
struct Files(PathBuf);

impl Files {
    fn new(name: &str) -> Files {
        let folder = std::env::temp_dir().join(format!("{name}-{}", std::process::id()));
        fs::create_dir_all(&folder).expect("a folder");
        Files(folder)
    }

    fn paths(&self) -> [String; 2] {
        ["rules", "proof"].map(|name| self.0.join(name).to_string_lossy().into_owned())
    }

    /// What read-proof says of these texts.
    fn read(&self, rules: &[u8], proof: &[u8]) -> Run {
        let paths = self.paths();
        fs::write(&paths[0], rules).expect("the rules");
        fs::write(&paths[1], proof).expect("the proof");
        run_words(&[READ_PROOF, &paths[0], &paths[1]])
    }
}

impl Drop for Files {
    fn drop(&mut self) {
        drop(fs::remove_dir_all(&self.0));
    }
}

const RULES: &[u8] = b"p cnf 1 2\n1 0\n-1 0\n";

#[test]
fn an_accepted_proof_is_said_on_standard_output_and_a_refused_one_on_standard_error() {
    let files = Files::new("read-proof");
    let said = |rules: &[u8], proof: &[u8]| {
        let run = files.read(rules, proof);
        (told(&run.output), told(&run.errors), run.status.code())
    };
    let right = ("s VERIFIED\n".to_string(), String::new(), Some(0));
    assert_eq!(said(RULES, b"3 0 1 2 0"), right);
    let refused = |line: &str| (String::new(), format!("{line}\n"), Some(1));
    assert_eq!(
        said(RULES, b"3 d 1 0\n3 0 1 2 0"),
        refused("0000002500000002")
    );
    assert_eq!(said(RULES, b""), refused("0000002600000000"));
    assert_eq!(said(b"p cnf 1 1\n2 0", b""), refused("000000180000000a"));
}

#[test]
fn a_file_that_is_missing_is_neither() {
    let run = run_words(&[READ_PROOF, "./no-such-rules", "./no-such-proof"]);
    assert_eq!(run.status.code(), Some(2));
    assert!(told(&run.errors).starts_with("read-proof: ./no-such-rules"));
    assert!(run.output.is_empty());
}

#[test]
fn the_program_equals_the_library() {
    let files = Files::new("read-proof-classes");
    for class in &CLASSES {
        for seed in 30..33 {
            let pair = class.pair(seed);
            let found = files.read(&pair.rules, &pair.proof);
            let difference = first_difference(pair.program_answer(), &found);
            assert_eq!(difference, None, "{} {seed}", class.name);
        }
    }
}

struct Closed;

impl Write for Closed {
    fn write(&mut self, _: &[u8]) -> io::Result<usize> {
        Err(io::ErrorKind::BrokenPipe.into())
    }

    fn flush(&mut self) -> io::Result<()> {
        Err(io::ErrorKind::BrokenPipe.into())
    }
}

#[test]
fn output_that_fails_is_an_error() {
    assert!(run(RULES, b"3 0 1 2 0", Closed, io::sink()).is_err());
    assert!(run(RULES, b"", io::sink(), Closed).is_err());
}

/// A run as another program might have made it.
fn found(output: &str, errors: &str, status: i32) -> Run {
    Run {
        output: output.into(),
        errors: errors.into(),
        status: ExitStatus::from_raw(status << 8),
    }
}

#[test]
fn a_difference_is_told_in_words() {
    let refused = answer(RULES, b"3 0 -1 0");
    let difference = first_difference(refused, &found("", "0000002500000001\n", 1));
    assert_eq!(
        difference.expect("a difference").to_string(),
        "expected status 1, 36 (a negative hint), line 1\n\
         found    exit status: 1, 37 (a failed proof), line 1, standard output \"\""
    );
    let difference = first_difference((0, 0), &found("", "", 1));
    assert_eq!(
        difference.expect("a difference").to_string(),
        "expected status 0, accepted\n\
         found    exit status: 1, nothing on standard error, standard output \"\""
    );
}

#[test]
fn status_output_and_the_first_line_on_standard_error_are_compared() {
    let accepted =
        |output, errors, status| first_difference((0, 0), &found(output, errors, status));
    assert_eq!(accepted("s VERIFIED\n", "", 0), None);
    for (output, status) in [
        ("s VERIFIED\n", 1),
        ("s VERIFIED", 0),
        ("", 0),
        ("s VERIFIED\n\n", 0),
    ] {
        assert!(
            accepted(output, "", status).is_some(),
            "{output:?} {status}"
        );
    }
    let refused =
        |output, errors, status| first_difference((36, 1), &found(output, errors, status));
    assert_eq!(refused("", "0000002400000001\n", 1), None);
    assert_eq!(
        refused("", "0000002400000001\nline 1 has a negative hint\n", 1),
        None
    );
    for (output, errors, status) in [
        ("", "0000002400000001\n", 0),
        ("", "0000002400000001\n", 2),
        ("s VERIFIED\n", "0000002400000001\n", 1),
        ("", "0000002400000002\n", 1),
        ("", "0000002400000001", 1),
        ("", "\n0000002400000001\n", 1),
        ("", "", 1),
    ] {
        assert!(
            refused(output, errors, status).is_some(),
            "{errors:?} {status}"
        );
    }
}

#[test]
fn differ_proofs_finds_no_difference_in_read_proof() {
    let run = run_words(&[DIFFER_PROOFS, "--seeds", "3..5", READ_PROOF]);
    let output = told(&run.output);
    assert_eq!(run.status.code(), Some(0), "{output}");
    let pairs = 2 * CLASSES.len();
    assert!(
        output.ends_with(&format!("{pairs} pairs, no difference\n")),
        "{output}"
    );
    let time = format!("differ-proofs: {pairs} pairs, about ");
    assert!(
        told(&run.errors).starts_with(&time),
        "{}",
        told(&run.errors)
    );
}

#[test]
fn differ_proofs_tells_a_difference_and_fails() {
    let run = run_words(&[DIFFER_PROOFS, "--class", "malformed", "false"]);
    let output = told(&run.output);
    assert_eq!(run.status.code(), Some(1), "{output}");
    let begins = "class    malformed, seed 0\nexpected status 1, 31 (a malformed line), line ";
    assert!(output.starts_with(begins), "{output}");
    let run = run_words(&[DIFFER_PROOFS, "--class", "plain", "./no-such-program"]);
    assert_eq!(run.status.code(), Some(1));
}

#[test]
fn proofs_writes_what_it_is_asked_for() {
    let files = Files::new("proofs");
    let [rules, proof] = files.paths();
    let written = |words: &[&str]| {
        let run = run_words(&[&[PROOFS], words, &[&rules, &proof]].concat());
        assert_eq!(run.status.code(), Some(0), "{}", told(&run.errors));
        [&rules, &proof].map(|path| fs::read(path).expect("a file"))
    };
    let cut = find_class("cut").expect("a class").pair(9);
    assert_eq!(written(&["cut", "9"]), [cut.rules, cut.proof]);
    let long = large(5_000);
    assert_eq!(written(&["--large", "5000"]), [long.rules, long.proof]);
    let classes = told(&run_words(&[PROOFS, "--classes"]).output);
    assert_eq!(classes.lines().count(), CLASSES.len());
    let histogram = told(&run_words(&[PROOFS, "--histogram", "2"]).output);
    let pairs = format!("{} pairs\n", 2 * CLASSES.len());
    assert!(histogram.ends_with(&pairs), "{histogram}");
    for wrong in [
        &["cut", "9"][..],
        &["x", "1", "a", "b"],
        &["--large", "x", "a", "b"],
        &[],
    ] {
        let run = run_words(&[&[PROOFS], wrong].concat());
        assert_eq!(run.status.code(), Some(2), "{wrong:?}");
    }
}
