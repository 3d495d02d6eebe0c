//! Every operation is reached with every code it can give in the line program.

mod common;

use common::reachable;
use second::histogram::{Histogram, CODES, ROWS};
use second::traces::CLASSES;

#[test]
fn every_reachable_cell_is_reached_and_no_other() {
    let mut histogram = Histogram::default();
    for class in &CLASSES {
        for seed in 0..6 {
            histogram.count_trace(&class.trace(seed));
        }
    }
    for asked in ROWS {
        for code in CODES {
            let reached = histogram.times(asked, code) > 0;
            let can_be = reachable(asked).contains(&code);
            assert_eq!(reached, can_be, "{asked} with code {code}\n{histogram}");
        }
    }
}

#[test]
fn a_trace_is_a_function_of_its_class_and_seed() {
    for class in &CLASSES {
        let trace = class.trace(7);
        assert_eq!(trace, class.trace(7), "{}", class.name);
        assert_ne!(trace, class.trace(8), "{}", class.name);
    }
}

#[test]
fn straight_histories_are_mostly_accepted() {
    let mut histogram = Histogram::default();
    let straight = second::traces::find_class("straight").unwrap();
    for seed in 0..20 {
        histogram.count_trace(&straight.trace(seed));
    }
    let accepted: u64 = ROWS.iter().map(|&asked| histogram.times(asked, 0)).sum();
    assert!(accepted * 10 > histogram.lines() * 9, "{histogram}");
}
