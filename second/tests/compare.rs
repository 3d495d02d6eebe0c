//! Comparing with another program.

use second::compare::{first_difference, run_program, run_program_within};
use second::lines::answers;
use second::traces::CLASSES;

fn this_program() -> Vec<String> {
    vec![env!("CARGO_BIN_EXE_second").to_string()]
}

#[test]
fn the_line_program_by_pipe_equals_the_library() {
    for class in &CLASSES {
        let trace = class.trace(11);
        let expected = answers(&trace);
        let run = run_program(&this_program(), trace.clone(), usize::MAX).unwrap();
        assert!(run.status.success());
        assert_eq!(first_difference(&trace, &expected, &run.output), None);
    }
}

#[test]
fn a_difference_is_told_in_words() {
    let trace = b"0000000100000001ffffffff\n0000000800000000\n";
    let expected = answers(trace);
    let found = b"0000000000000000\n0000000a00000001\n";
    let difference = first_difference(trace, &expected, found).unwrap();
    assert_eq!(
        difference.to_string(),
        "line     2: SAT assuming () true () [2 words]\n\
         expected 0 (accepted), detail 0\n\
         found    10 (model falsifies an irredundant clause), detail 1"
    );
    let missing = first_difference(trace, &expected, &expected[..17]).unwrap();
    assert_eq!((missing.line, missing.found), (2, None));
    let unclosed = first_difference(trace, &expected, &expected[..33]).unwrap();
    assert_eq!(unclosed.line, 2);
}

#[test]
fn a_missing_program_is_an_error() {
    let missing = vec!["./no-such-program".to_string()];
    assert!(run_program(&missing, Vec::new(), 100).is_err());
    assert!(run_program(&[], Vec::new(), 100).is_err());
}

#[test]
fn a_program_that_takes_too_long_is_ended() {
    let sleeper = ["sleep".to_string(), "60".to_string()];
    let began = std::time::Instant::now();
    let limit = std::time::Duration::from_millis(50);
    let error = run_program_within(limit, &sleeper, Vec::new(), 100).unwrap_err();
    assert_eq!(error.kind(), std::io::ErrorKind::TimedOut);
    assert!(began.elapsed() < std::time::Duration::from_secs(30));
}
