//! Verdicts and words over the repository's examples, with the answers that belong to them.

mod common;

use common::{
    always, command, ended, of_the_repository, run, shell, tell, tell_over, writing, Room, ACCEPTED,
};
use std::fs;
use std::io::{BufRead, BufReader, Write};
use std::path::Path;
use std::process::{Command, Stdio};
use std::time::SystemTime;

/// Every operation gives every code that it can.
const EVERY_CODE: &str = include_str!("every-code.txt");
/// The blocks of docs/FORMAT.md, explained.
const FORMAT: &str = include_str!("format.txt");

fn every_code() -> (String, Vec<String>) {
    let trace = of_the_repository("examples/every-code.hex");
    let answers = of_the_repository("examples/every-code.out");
    (trace.display().to_string(), writing(&answers))
}

/// The words about every code, whatever the trace's name is.
fn refusals(out: &str) -> String {
    let lines = out.lines().map(|line| match line.strip_prefix("line ") {
        Some(_) => format!("{line}\n"),
        None => {
            line.rsplit_once(".hex: ")
                .map_or(line, |(_, verdict)| verdict)
                .to_string()
                + "\n"
        }
    });
    lines.collect()
}

#[test]
fn every_code_has_words() {
    let (trace, program) = every_code();
    let ran = tell(&program, &["check", &trace]);
    assert_eq!((ran.status, ran.err.as_str()), (Some(1), ""));
    assert_eq!(refusals(&ran.out), EVERY_CODE);
}

#[test]
fn answers_are_kept_as_they_came() {
    let room = Room::new();
    let (trace, program) = every_code();
    let kept = room.path("answers");
    let ran = tell(
        &program,
        &["check", "--answers", &kept.display().to_string(), &trace],
    );
    assert_eq!(ran.status, Some(1));
    let answers = fs::read(of_the_repository("examples/every-code.out")).expect("a file");
    assert_eq!(fs::read(kept).expect("a file"), answers);
}

#[test]
fn of_several_traces_each_has_its_verdict() {
    let room = Room::new();
    let one = room.file("1.hex", "0000000800000000\n");
    let nothing = room.file("2.hex", "");
    let ran = tell(&always(ACCEPTED), &["check", &one, &nothing]);
    assert_eq!((ran.status, ran.err.as_str()), (Some(0), ""));
    assert_eq!(
        ran.out,
        format!("{one}: accepted: 1 line\n{nothing}: accepted: 0 lines\n")
    );
    let ran = tell(&always("0000000a00000001"), &["check", &one, &nothing]);
    assert_eq!(ran.status, Some(1));
    let first = ran.out.lines().next().expect("a line");
    assert!(
        first.starts_with(&format!("{one}: line 1: SAT refused 10: ")),
        "{ran:?}"
    );
}

#[test]
fn standard_input_is_a_trace() {
    let ran = tell_over(b"0000000800000000\n", &always(ACCEPTED), &["check", "-"]);
    assert_eq!(ran.out, "standard input: accepted: 1 line\n");
    let room = Room::new();
    let odd = room.file("--odd", "0000000800000000\n");
    let ran = tell(&always(ACCEPTED), &["check", "--", &odd]);
    assert_eq!(ran.out, format!("{odd}: accepted: 1 line\n"));
}

/// A solver that waits for each answer gets it while the trace goes on.
#[test]
fn words_come_while_the_trace_goes_on() {
    let mut child = command(&always("0000000200000000"), &["check", "-"])
        .stdin(Stdio::piped())
        .stdout(Stdio::piped())
        .spawn()
        .expect("the program starts");
    let mut stdin = child.stdin.take().expect("a pipe");
    let mut lines = BufReader::new(child.stdout.take().expect("a pipe")).lines();
    for number in 1..=3 {
        stdin
            .write_all(b"0000000a\n")
            .expect("a pipe that takes it");
        let line = lines.next().expect("a line").expect("a readable pipe");
        assert_eq!(
            line,
            format!("line {number}: refused 2: unknown operation 10")
        );
    }
    drop(stdin);
    let verdict = lines.next().expect("a line").expect("a readable pipe");
    assert_eq!(verdict, "standard input: refused: 3 of 3 lines");
    assert_eq!(ended(&mut child), Some(1));
}

/// More goes in and comes out than pipes hold.
#[test]
fn long_traces_go_through() {
    let room = Room::new();
    let lines = 60_000;
    let trace = room.file("long.hex", "0000000800000000\n".repeat(lines));
    let answers = room.file("answers", "0000000000000000\n".repeat(lines));
    let counts = format!("{trace}: accepted: {lines} lines\n");
    let late = writing(answers.as_ref());
    assert_eq!(tell(&late, &["check", &trace]).out, counts);
    let at_once = shell(&format!("cat {answers}; cat >/dev/null"));
    assert_eq!(tell(&at_once, &["check", &trace]).out, counts);
}

/// The blocks of docs/FORMAT.md as traces with their answers.
fn blocks() -> Vec<(String, String)> {
    let page = fs::read_to_string(of_the_repository("docs/FORMAT.md")).expect("a page");
    let mut blocks = Vec::new();
    for block in page.split("```trace\n").skip(1) {
        let (block, _) = block.split_once("```").expect("a closed block");
        let (mut trace, mut answers) = (String::new(), String::new());
        for line in block.lines() {
            let parts = line
                .split("  ")
                .map(str::trim)
                .filter(|part| !part.is_empty());
            let [_, frame, answer] = parts.collect::<Vec<_>>()[..] else {
                panic!("not three columns: {line}");
            };
            trace += &format!("{}\n", frame.replace(' ', ""));
            let words = answer.split(' ').map(|word| {
                let word: u32 = word.parse().expect("a number");
                format!("{word:08x}")
            });
            answers += &format!("{}\n", words.collect::<String>());
        }
        blocks.push((trace, answers));
    }
    blocks
}

#[test]
fn the_page_about_frames_is_explained() {
    let room = Room::new();
    let mut told = String::new();
    for (trace, answers) in blocks() {
        let answers = room.file("answers", answers);
        let ran = tell_over(
            trace.as_bytes(),
            &writing(answers.as_ref()),
            &["explain", "-"],
        );
        assert_eq!(ran.err, "");
        told += &ran.out;
    }
    assert_eq!(told, FORMAT);
}

#[test]
fn what_is_held_is_told() {
    let room = Room::new();
    let (trace, answers) = &blocks()[2];
    let answers = room.file("answers", answers);
    let program = writing(answers.as_ref());
    let ran = tell_over(trace.as_bytes(), &program, &["explain", "--state", "-"]);
    let told = "line 6: WEAKEN 2 (2 -3), witness (-3)
    accepted: clause 2 is on top of the stack
    held: 3 clauses of 1024 (1 irredundant, 0 learned, 2 stacked), 8 literals of 8192, highest id 3
      irredundant 3 (1 2)
      stacked 2 (2 -3) witness (-3), the top
      stacked 1 (1 3) witness (3)
line 7: SAT, true 2
    accepted: 1 variable mended, the model is 2 3
";
    assert!(ran.out.contains(told), "{}", ran.out);
}

/// When the newest file under a folder was altered.
fn newest(folder: &Path) -> SystemTime {
    let mut newest = SystemTime::UNIX_EPOCH;
    for entry in fs::read_dir(folder).expect("a folder") {
        let path = entry.expect("an entry").path();
        let about = fs::metadata(&path).expect("a file");
        newest = newest.max(about.modified().expect("a time"));
        if about.is_dir() {
            newest = newest.max(self::newest(&path));
        }
    }
    newest
}

/// The launcher, where this program is built and newer than its sources. The gate, which has built it before, asks for it.
fn launcher(program: &str) -> Option<String> {
    let built = fs::metadata(of_the_repository("target/bin").join(program));
    let built = built.and_then(|about| about.modified());
    if built.is_ok_and(|built| built > newest(&of_the_repository("crates"))) {
        return Some(of_the_repository("zahrubel").display().to_string());
    }
    let needed = std::env::var_os("TELL_NEEDS_PROGRAM").is_some();
    assert!(!needed, "{program} is not built, or older than crates/");
    None
}

#[test]
fn the_proved_program_has_the_same_words() {
    let Some(launcher) = launcher("zahrubel") else {
        return;
    };
    let program = [launcher];
    let (trace, _) = every_code();
    let ran = tell(&program, &["check", &trace]);
    assert_eq!((ran.status, ran.err.as_str()), (Some(1), ""));
    assert_eq!(refusals(&ran.out), EVERY_CODE);
    let mut told = String::new();
    for (trace, _) in blocks() {
        told += &tell_over(trace.as_bytes(), &program, &["explain", "-"]).out;
    }
    assert_eq!(told, FORMAT);
}

/// The first block of this kind, and how the page begins.
fn block<'a>(page: &'a str, kind: &str) -> (&'a str, &'a str) {
    let opening = format!("```{kind}\n");
    let (before, block) = page.split_once(&opening).expect("a block");
    let (block, _) = block.split_once("```").expect("a closed block");
    (before, block)
}

/// The text in docs/FORMAT.md becomes the frames of the block behind it.
#[test]
fn the_proved_reader_writes_the_frames_of_the_page() {
    let Some(launcher) = launcher("zahrubel_dimacs") else {
        return;
    };
    let page = fs::read_to_string(of_the_repository("docs/FORMAT.md")).expect("a page");
    let (before, text) = block(&page, "cnf");
    let mut command = Command::new(launcher);
    command.arg("dimacs");
    let ran = run(command, text.as_bytes());
    assert_eq!((ran.status, ran.err.as_str()), (Some(0), ""));
    let behind = before.matches("```trace\n").count();
    assert_eq!(ran.out, blocks()[behind].0);
}

/// The proof in docs/FORMAT.md is accepted, and each line of the block behind it is refused with the numbers beside it.
#[test]
fn the_proved_checker_judges_the_proofs_of_the_page() {
    let Some(launcher) = launcher("zahrubel_lrat") else {
        return;
    };
    let page = fs::read_to_string(of_the_repository("docs/FORMAT.md")).expect("a page");
    let (_, section) = page.split_once("## Proof files").expect("a section");
    let room = Room::new();
    let rules = room.file("rules.cnf", block(section, "cnf").1);
    let check = |proof: &str| {
        let proof = room.file("proof.lrat", proof);
        let mut command = Command::new(&launcher);
        command.args(["lrat", &rules, &proof]);
        run(command, b"")
    };
    let ran = check(block(section, "lrat").1);
    let accepted = (Some(0), "s VERIFIED\n", "");
    assert_eq!((ran.status, ran.out.as_str(), ran.err.as_str()), accepted);
    for row in block(section, "lines").1.lines() {
        let (proof, (code, detail)) = refused(row);
        let ran = check(&format!("{proof}\n"));
        let digits = format!("{code:08x}{detail:08x}");
        assert_eq!((ran.status, ran.out.as_str()), (Some(1), ""), "{row}");
        assert_eq!(ran.err.lines().next(), Some(digits.as_str()), "{row}");
    }
}

/// A line of a proof, and the code and detail with which it is refused.
fn refused(row: &str) -> (&str, (u32, u32)) {
    let (proof, beside) = row.split_once("  ").expect("columns");
    let mut words = beside.split_whitespace();
    let mut number = || words.next().and_then(|word| word.parse().ok());
    (
        proof,
        (number().expect("a code"), number().expect("a detail")),
    )
}
