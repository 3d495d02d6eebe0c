//! The workloads are what their kinds say.

use second::answer::Answer;
use second::checker::{Checker, Checks};
use second::histogram::{lines_of, Histogram, ROWS};
use second::lines::{opened, read_words};
use second::workloads::{all, find, HELD};

/// Steps through a workload and shows each frame, its answer and the state after it.
fn step_through(name: &str, mut see: impl FnMut(&[i32], &Answer, &Checker)) {
    let trace = find(name).expect("a known workload").trace();
    let mut checker = opened();
    let mut words = Vec::new();
    for (line, _) in lines_of(&trace) {
        read_words(line, &mut words).expect("a frame");
        let answer = checker.step(&words);
        see(&words, &answer, &checker);
    }
}

/// The frames of one operation: how many there are and their words on the average.
fn frames_of(name: &str, operations: &[i32]) -> (usize, usize) {
    let (mut frames, mut words) = (0, 0);
    step_through(name, |frame, _, _| {
        if operations.contains(&frame[0]) {
            frames += 1;
            words += frame.len();
        }
    });
    (frames, words / frames)
}

#[test]
fn all_lines_are_accepted_but_those_that_are_only_read() {
    for workload in all() {
        let trace = workload.trace();
        let again = find(&workload.to_string()).unwrap().trace();
        assert!(trace == again, "{workload} is not the same every time");
        let mut histogram = Histogram::default();
        histogram.count_trace(&trace);
        let times = |code| ROWS.iter().map(|&asked| histogram.times(asked, code)).sum();
        let lines = histogram.lines();
        let expected = match workload.to_string().as_str() {
            "reading" => [0, lines],
            _ => [lines, 0],
        };
        let found: [u64; 2] = [times(0), times(2)];
        assert_eq!(found, expected, "{workload}\n{histogram}");
    }
}

#[test]
fn there_are_seven_mixes_and_three_curves() {
    assert_eq!(all().len(), 7 + 3 * HELD.len());
    assert!(find("learn-17").is_none());
    assert!(find("no-such-kind").is_none());
}

#[test]
fn a_curve_holds_as_many_clauses_as_it_says() {
    for workload in all() {
        let Some(held) = workload.held else { continue };
        let mut most = 0;
        step_through(&workload.to_string(), |_, _, checker| {
            let now = checker.state().clauses();
            assert!(most < held || now + 1 >= held, "{workload} holds {now}");
            most = most.max(now);
        });
        assert_eq!(most, held, "{workload}");
    }
}

#[test]
fn kinds_are_heavy_in_what_they_are_named_after() {
    let (learned, words) = frames_of("learn-heavy", &[2]);
    assert!(learned > 50_000 && words < 20, "{learned} of {words} words");
    let (proofs, words) = frames_of("hint-heavy", &[2, 9]);
    assert!(proofs > 1_000 && words > 300, "{proofs} of {words} words");
    let (models, words) = frames_of("sat-heavy", &[8]);
    assert!(models > 1_000, "{models}");
    assert!((900..1_100).contains(&words), "{words} words");
    let (added, words) = frames_of("wide", &[1]);
    assert!(added > 1_000, "{added}");
    assert!((202..=258).contains(&words), "{words} words");
}

#[test]
fn weakening_works_on_full_tables_and_with_groups() {
    let (mut weakened, mut with_groups, mut deepest) = (0, 0, 0);
    step_through("weaken-heavy", |frame, _, checker| {
        if frame[0] == 6 {
            assert!(checker.state().clauses() > 850);
            weakened += 1;
            with_groups += usize::from(frame.len() > 4);
            deepest = deepest.max(checker.state().stack.len());
        }
    });
    assert!(weakened > 10_000 && 2 * with_groups >= weakened);
    assert!(deepest > 200, "{deepest}");
}

#[test]
fn models_are_mended_and_every_operation_is_in_the_solvers_rounds() {
    for name in ["sat-heavy", "inprocessing"] {
        let mut mended = 0;
        let mut times = [0; 10];
        step_through(name, |frame, answer, _| {
            mended += usize::from(answer.detail > 0);
            times[frame[0] as usize] += 1;
        });
        assert!(mended > 500, "{name}: {mended}");
        let all_nine = times[1..].iter().all(|&times| times > 500);
        assert!(name == "sat-heavy" || all_nine, "{times:?}");
    }
}
