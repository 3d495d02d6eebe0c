//! The bounds: 1,024 entries, 8,192 words, 256 literals, 4,096 words a frame.

mod common;

use common::{after, said};
use second::checker::{Checker, Checks};
use second::frames::{add, drop_clause, forget, learn, restore, sat, unsat, weaken};
use second::lines::opened;
use second::terms::{LONGEST_FRAME, MOST_ENTRIES, MOST_LITERALS, MOST_WORDS};

/// The literals 1 to `length`.
fn up_to(length: usize) -> Vec<i32> {
    (1..=length as i32).collect()
}

#[test]
fn lists_have_at_most_256_literals() {
    let longest = up_to(MOST_LITERALS);
    let over = up_to(MOST_LITERALS + 1);
    let state = after(&[add(1, &longest)]);
    assert_eq!(said(&state, &add(2, &over)), (2, 0));
    assert_eq!(said(&state, &learn(2, &longest, &[1])), (0, 0));
    assert_eq!(said(&state, &learn(2, &over, &[1])), (2, 0));
    assert_eq!(said(&state, &weaken(1, &longest, &[])), (0, 0));
    assert_eq!(said(&state, &weaken(1, &over, &[])), (2, 0));
    assert_eq!(said(&state, &weaken(1, &[], &[])), (2, 0));
    assert_eq!(said(&state, &sat(&longest, &longest)), (0, 0));
    assert_eq!(said(&state, &sat(&over, &over)), (2, 0));
    let opposites: Vec<i32> = longest.iter().map(|literal| -literal).collect();
    assert_eq!(said(&state, &unsat(&opposites, &[1])), (0, 0));
    assert_eq!(said(&state, &unsat(&over, &[1])), (2, 0));
}

#[test]
fn frames_have_at_most_4096_words() {
    let state = after(&[add(1, &[1]), add(2, &[1, 2])]);
    let mut frame = drop_clause(2, &[1]);
    frame.resize(LONGEST_FRAME, 0);
    assert_eq!(said(&state, &frame), (0, 0));
    frame.push(0);
    assert_eq!(said(&state, &frame), (2, 0));
    assert_eq!(said(&state, &[]), (2, 0));
}

/// All entries held by clauses of one literal; the last is learned.
fn full_entries() -> Checker {
    let last = MOST_ENTRIES as i32;
    let mut steps: Vec<_> = (1..last).map(|id| add(id, &[1])).collect();
    steps.push(learn(last, &[1], &[1]));
    after(&steps)
}

#[test]
fn entries_are_used_again() {
    let (last, new) = (MOST_ENTRIES as i32, MOST_ENTRIES as i32 + 1);
    let mut state = full_entries();
    assert_eq!(said(&state, &add(new, &[])), (12, 0));
    assert_eq!(said(&state, &learn(new, &[1], &[0])), (12, 0));
    assert_eq!(said(&state, &add(last, &[])), (4, last as u32));
    assert!(state.step(&weaken(1, &[1], &[])).is_accepted());
    assert_eq!(said(&state, &add(new, &[-1])), (5, 1), "5 before 12");
    assert_eq!(said(&state, &add(new, &[1])), (12, 0));
    assert!(state.step(&forget(last)).is_accepted());
    assert!(state.step(&add(new, &[1])).is_accepted());
    assert_eq!(said(&state, &add(new + 1, &[1])), (12, 0));
    assert!(state.step(&drop_clause(2, &[new])).is_accepted());
    assert_eq!(said(&state, &learn(new + 1, &[1], &[0])), (7, 4));
    assert_eq!(said(&state, &learn(new + 1, &[1], &[3])), (0, 0));
}

/// All words held by 32 equal clauses of 256 literals.
fn full_words() -> Checker {
    let clauses = MOST_WORDS / MOST_LITERALS;
    let clause = up_to(MOST_LITERALS);
    let steps: Vec<_> = (1..=clauses as i32).map(|id| add(id, &clause)).collect();
    after(&steps)
}

#[test]
fn words_are_used_again() {
    let mut state = full_words();
    assert_eq!(state.state().held_words(), MOST_WORDS);
    assert_eq!(said(&state, &add(40, &[])), (0, 0));
    assert_eq!(said(&state, &add(40, &[1])), (13, 0));
    assert_eq!(said(&state, &learn(40, &[1], &[0])), (13, 0));
    assert_eq!(said(&state, &weaken(1, &[1], &[])), (13, 0));
    assert_eq!(said(&state, &weaken(1, &[1], &[(0, vec![0])])), (13, 0));
    assert_eq!(said(&state, &weaken(1, &[-1], &[])), (6, 0), "6 before 13");
    assert!(state.step(&drop_clause(32, &[31])).is_accepted());
    assert!(state.step(&weaken(1, &up_to(255), &[])).is_accepted());
    assert_eq!(said(&state, &add(40, &[1, 2])), (13, 0));
    assert!(state.step(&add(40, &[1])).is_accepted());
    assert_eq!(said(&state, &add(41, &[-1])), (5, 1), "5 before 13");
    assert!(state.step(&restore(1)).is_accepted());
    assert!(state.step(&add(41, &up_to(255))).is_accepted());
    assert_eq!(said(&state, &add(42, &[9])), (13, 0));
}

#[test]
fn twelve_comes_before_thirteen() {
    let mut checker = Checker::open(4, 1, 1).unwrap();
    assert!(checker.step(&add(1, &[1])).is_accepted());
    assert_eq!(said(&checker, &add(2, &[1])), (12, 0));
    assert_eq!(said(&checker, &learn(2, &[1], &[1])), (12, 0));
    assert_eq!(said(&checker, &weaken(1, &[1], &[])), (13, 0));
}

#[test]
fn all_variables_may_be_true() {
    let all = up_to(2_048);
    let answer = opened().step(&sat(&[], &all));
    assert_eq!(answer.model, Some(all));
}
