//! The trace in `examples` that reaches every code, and its answers, are what is generated.

mod common;

use common::reachable;
use second::histogram::{Histogram, CODES, ROWS};
use second::lines::answers;
use second::traces::every_code;

fn example(name: &str) -> Vec<u8> {
    let folder = concat!(env!("CARGO_MANIFEST_DIR"), "/../examples/");
    std::fs::read(format!("{folder}{name}")).expect("an example of the repository")
}

#[test]
fn the_files_are_the_generated_trace_and_its_answers() {
    let trace = every_code();
    assert!(trace == example("every-code.hex"), "traces --every-code");
    assert!(answers(&trace) == example("every-code.out"), "second");
}

#[test]
fn it_starts_with_the_whole_example_of_document_01() {
    assert!(every_code().starts_with(&example("document-01.hex")));
}

#[test]
fn every_operation_gives_every_code_it_can() {
    let mut histogram = Histogram::default();
    histogram.count_trace(&every_code());
    for asked in ROWS {
        for code in CODES {
            let reached = histogram.times(asked, code) > 0;
            let can_be = reachable(asked).contains(&code);
            assert_eq!(reached, can_be, "{asked} with code {code}\n{histogram}");
        }
    }
    let times = |code| -> u64 { ROWS.iter().map(|&asked| histogram.times(asked, code)).sum() };
    for code in CODES.filter(|&code| code != 1) {
        assert!(times(code) > 0, "code {code}\n{histogram}");
    }
}
