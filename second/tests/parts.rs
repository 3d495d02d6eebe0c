//! Traces that arrive in parts, cut anywhere, have the answers of the whole.

use second::lines::{answers, opened, Lines};
use second::random::Random;
use second::traces::CLASSES;

fn answers_in_parts(trace: &[u8], random: &mut Random) -> Vec<u8> {
    let mut output = Vec::new();
    let mut lines = Lines::new(opened());
    let mut rest = trace;
    while !rest.is_empty() {
        let most = if random.one_in(2) { 9 } else { 5_000 };
        let (part, behind) = rest.split_at(random.below(most).min(rest.len()));
        lines.push(part, &mut output).unwrap();
        rest = behind;
    }
    lines.end(&mut output).unwrap();
    output
}

#[test]
fn cuts_change_nothing() {
    let mut random = Random::new(1);
    for class in &CLASSES {
        for seed in 100..103 {
            let trace = class.trace(seed);
            let whole = answers(&trace);
            let parts = answers_in_parts(&trace, &mut random);
            assert!(whole == parts, "class {}, seed {seed}", class.name);
        }
    }
}

#[test]
fn each_line_has_one_answer() {
    for class in &CLASSES {
        let trace = class.trace(5);
        let lines = second::histogram::lines_of(&trace).count();
        let answers = answers(&trace);
        assert_eq!(second::histogram::lines_of(&answers).count(), lines);
        assert!(answers.is_empty() || answers.ends_with(b"\n"));
    }
}
