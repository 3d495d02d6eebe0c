//! The sixteen marked outcomes of document 01, each with code, detail and model.

mod common;

use common::after;
use second::answer::Answer;
use second::checker::{Checker, Checks};
use second::frames::{add, drop_clause, learn, promote, restore, sat, unsat, weaken};
use second::lines::opened;
use second::terms::{MOST_ENTRIES, MOST_VARIABLES, MOST_WORDS};

fn accepted() -> Answer {
    Answer::accepted()
}

fn refused(code: u32, detail: u32) -> Answer {
    Answer {
        code,
        detail,
        model: None,
    }
}

fn mended(changed: usize, model: &[i32]) -> Answer {
    Answer::mended(changed, model.to_vec())
}

/// Outcome 1: every step to E is accepted.
fn state_e() -> Checker {
    after(&[
        add(1, &[1, 3]),
        add(2, &[2, -3]),
        learn(3, &[1, 2], &[1, 2]),
        promote(3),
        weaken(1, &[3], &[(2, vec![3])]),
        weaken(2, &[-3], &[]),
    ])
}

fn state_g() -> Checker {
    after(&[
        add(1, &[1, 2]),
        add(2, &[-2, 3]),
        learn(3, &[1, 2], &[1]),
        weaken(1, &[1], &[]),
        weaken(2, &[-2], &[]),
        promote(3),
    ])
}

#[test]
fn outcomes_1_to_9_from_e() {
    assert_eq!(state_e().step(&add(4, &[-1])), accepted(), "outcome 2");
    assert_eq!(state_e().step(&add(4, &[-3])), refused(5, 1), "outcome 3");
    assert_eq!(state_e().step(&restore(1)), refused(5, 2), "outcome 4");
    let mut both = state_e();
    assert_eq!(both.step(&restore(2)), accepted(), "outcome 5");
    assert_eq!(both.step(&restore(1)), accepted(), "outcome 5");
    let e = |frame: Vec<i32>| state_e().step(&frame);
    assert_eq!(e(sat(&[], &[2])), mended(1, &[2, 3]), "outcome 6");
    assert_eq!(e(sat(&[], &[1])), mended(0, &[1]), "outcome 7");
    assert_eq!(e(sat(&[-3], &[2])), refused(5, 1), "outcome 8");
    assert_eq!(e(sat(&[], &[])), refused(10, 3), "outcome 9");
}

#[test]
fn outcome_10_from_g() {
    assert_eq!(state_g().step(&sat(&[], &[2])), mended(2, &[1]));
}

#[test]
fn outcomes_11_to_16_from_empty() {
    let mut eleven = after(&[add(1, &[1, 3]), add(2, &[2, -3])]);
    assert_eq!(
        eleven.step(&weaken(1, &[3], &[(2, vec![])])),
        refused(8, 2),
        "outcome 11"
    );
    let mut twelve = after(&[add(1, &[1, 2]), add(2, &[-1, -2])]);
    assert_eq!(
        twelve.step(&weaken(1, &[1], &[(2, vec![])])),
        accepted(),
        "outcome 12"
    );
    let mut thirteen = opened();
    assert_eq!(
        thirteen.step(&unsat(&[4, -4], &[])),
        accepted(),
        "outcome 13"
    );
    let mut fourteen = after(&[add(1, &[])]);
    assert_eq!(
        fourteen.step(&weaken(1, &[1], &[])),
        refused(6, 0),
        "outcome 14"
    );
    let mut fifteen = after(&[add(1, &[1, 2]), learn(2, &[1, 2], &[1])]);
    assert_eq!(
        fifteen.step(&drop_clause(1, &[2])),
        refused(7, 2),
        "outcome 15"
    );
    assert_eq!(opened().step(&add(1, &[1, 1])), refused(3, 3), "outcome 16");
}

#[test]
fn the_state_of_e_is_spelled_out() {
    let checker = state_e();
    let state = checker.state();
    assert_eq!((state.vars, state.highest), (MOST_VARIABLES, 3));
    let irredundant: Vec<_> = state.irredundant.iter().collect();
    assert_eq!(irredundant, [(&3, &vec![1, 2])]);
    assert!(state.learned.is_empty());
    let stack: Vec<_> = state
        .stack
        .iter()
        .map(|record| (record.id, record.clause.clone(), record.witness.clone()))
        .collect();
    assert_eq!(
        stack,
        [(1, vec![1, 3], vec![3]), (2, vec![2, -3], vec![-3])]
    );
}

#[test]
fn opening_refuses_sizes_before_variables() {
    let open = |vars, entries, words| Checker::open(vars, entries, words).err();
    assert_eq!(open(0, 0, 1), Some(refused(1, 0)));
    assert_eq!(open(1, MOST_ENTRIES + 1, 1), Some(refused(1, 0)));
    assert_eq!(open(1, 1, 0), Some(refused(1, 0)));
    assert_eq!(open(1, 1, MOST_WORDS + 1), Some(refused(1, 0)));
    assert_eq!(open(0, 1, 1), Some(refused(3, 0)));
    assert_eq!(open(MOST_VARIABLES + 1, 1, 1), Some(refused(3, 0)));
    assert_eq!(open(i32::MIN, 1, 1), Some(refused(3, 0)));
    assert_eq!(open(1, 1, 1), None);
    assert_eq!(open(MOST_VARIABLES, MOST_ENTRIES, MOST_WORDS), None);
}
