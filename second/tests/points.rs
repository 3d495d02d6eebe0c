//! The points that document 01 leaves open and the project has decided.

mod common;

use common::{after, said};
use second::checker::{Checker, Checks};
use second::frames::{
    add, drop_clause, forget, learn, promote, restore, sat, unsat, weaken, Group,
};
use second::lines::{answers, opened};

const MIN: i32 = i32::MIN;

fn empty() -> Checker {
    opened()
}

#[test]
fn counts_come_before_literals_and_literals_before_ids() {
    assert_eq!(said(&empty(), &[1, 0, 0]), (2, 0));
    assert_eq!(said(&empty(), &[2, 1, 2, 0]), (2, 0));
    let one = after(&[add(1, &[1])]);
    assert_eq!(said(&one, &[1, 1, 0]), (3, 2));
    assert_eq!(said(&one, &learn(1, &[2, 2], &[])), (3, 4));
    assert_eq!(said(&one, &weaken(9, &[0], &[])), (3, 3));
    assert_eq!(said(&one, &weaken(9, &[1], &[])), (4, 9));
    assert_eq!(said(&one, &add(1, &[2])), (4, 1));
}

#[test]
fn fault_3_is_the_least_index_over_all_kinds() {
    assert_eq!(said(&empty(), &add(1, &[5, 0, 5])), (3, 3));
    assert_eq!(said(&empty(), &add(1, &[5, -5, 0])), (3, 3));
    assert_eq!(said(&empty(), &add(1, &[2_048, -2_049])), (3, 3));
    assert_eq!(said(&empty(), &add(1, &[MIN])), (3, 2));
    assert_eq!(said(&empty(), &learn(1, &[1, 2, MIN], &[])), (3, 5));
    assert_eq!(said(&empty(), &weaken(1, &[3, 4, -3], &[])), (3, 5));
    assert_eq!(said(&empty(), &unsat(&[1, 1, -1, 2_049], &[])), (3, 5));
    assert_eq!(said(&empty(), &sat(&[1, MIN], &[0])), (3, 3));
    assert_eq!(said(&empty(), &sat(&[-1], &[2, 3, 3])), (3, 5));
    assert_eq!(said(&empty(), &sat(&[-1], &[2, 1])), (3, 4));
    assert_eq!(said(&empty(), &sat(&[], &[-1])), (3, 2));
    assert_eq!(said(&empty(), &sat(&[], &[1, 2_049])), (3, 3));
}

#[test]
fn hints_are_no_literals() {
    let two = after(&[add(1, &[1]), add(2, &[1, 2])]);
    for bad in [0, -1, 3, MIN, i32::MAX] {
        assert_eq!(said(&two, &drop_clause(2, &[bad])), (7, 2));
        assert_eq!(said(&two, &drop_clause(2, &[1, bad])), (0, 0));
        assert_eq!(said(&two, &unsat(&[4, -4], &[bad])), (0, 0));
        assert_eq!(said(&two, &learn(3, &[1], &[bad])), (7, 4));
    }
    assert_eq!(said(&two, &drop_clause(2, &[2])), (7, 2));
    assert_eq!(said(&two, &drop_clause(2, &[])), (8, 0));
    assert_eq!(said(&two, &learn(3, &[3], &[1, 1])), (7, 5));
}

#[test]
fn a_target_is_a_set_and_an_empty_clause_proves() {
    let one = after(&[add(1, &[-1])]);
    assert_eq!(said(&one, &unsat(&[1, 1], &[1])), (0, 0));
    assert_eq!(said(&one, &unsat(&[1, 1], &[])), (8, 0));
    assert_eq!(said(&one, &unsat(&[], &[])), (8, 0));
    let none = after(&[add(1, &[])]);
    assert_eq!(said(&none, &unsat(&[], &[1])), (0, 0));
    assert_eq!(said(&none, &learn(2, &[3], &[1, 0])), (0, 0));
    assert_eq!(said(&none, &learn(2, &[], &[])), (8, 0));
}

#[test]
fn the_target_of_weaken_holds_c_whole_and_d_may_be_its_own_hint() {
    // W = (1 -2) holds the opposite of the literal 2 of C = (1 2).
    let three = after(&[add(1, &[1, 2]), add(2, &[-1, 3]), add(3, &[3, 2])]);
    let groups: [Group; 2] = [(2, vec![3]), (3, vec![3])];
    assert_eq!(said(&three, &weaken(1, &[1, -2], &groups)), (0, 0));
    assert_eq!(said(&three, &weaken(1, &[1, -2], &groups[..1])), (9, 8));
}

/// C = (1 2), D = (-1 3) and (-1 4), each with its resolvent.
fn two_groups() -> Checker {
    after(&[
        add(1, &[1, 2]),
        add(2, &[-1, 3]),
        add(3, &[-1, 4]),
        add(4, &[2, 3]),
        add(5, &[2, 4]),
    ])
}

#[test]
fn groups_are_judged_one_by_one() {
    let state = two_groups();
    // The frame begins 6, 1, 1, 1: the first group is due at index 4.
    let weakened = |words: &[i32]| said(&state, &[&[6, 1, 1, 1], words].concat());
    assert_eq!(weakened(&[2, 1, 4, 3, 1, 5]), (0, 0));
    assert_eq!(weakened(&[]), (9, 4), "missing: the frame's length");
    assert_eq!(weakened(&[3, 1, 5]), (9, 4), "of the wrong id");
    assert_eq!(weakened(&[2]), (9, 5), "k missing: the frame's length");
    assert_eq!(weakened(&[2, -1]), (9, 5), "k negative");
    assert_eq!(weakened(&[2, MIN, 4]), (9, 5), "k negative");
    assert_eq!(weakened(&[2, 2, 4]), (9, 5), "k past the end");
    assert_eq!(weakened(&[2, i32::MAX, 4]), (9, 5), "k past the end");
    assert_eq!(weakened(&[2, 1, 4]), (9, 7), "second missing");
    assert_eq!(weakened(&[2, 4, 4, 3, 1, 5]), (9, 10), "swallowed");
    assert_eq!(weakened(&[2, 1, 4, 4, 1, 5]), (9, 7), "second wrong");
    assert_eq!(weakened(&[2, 1, 4, 3, 1, 5, 0]), (9, 10), "left over");
    assert_eq!(weakened(&[2, 1, 4, 3, 0, 0]), (8, 3), "8 before left over");
    assert_eq!(weakened(&[2, 1, 0, 9]), (7, 6), "7 before the next header");
    assert_eq!(weakened(&[2, 0, 9]), (8, 2), "8 before the next header");
    assert_eq!(weakened(&[2, 1, 1, 3, 1, 5]), (7, 6), "C is no hint");
    assert_eq!(weakened(&[2, 1, 4, 3, 2, 5, 0]), (0, 0), "unread");
}

#[test]
fn a_clause_need_not_be_clean_against_its_own_record() {
    let own = after(&[add(1, &[1, -2]), weaken(1, &[1, 2], &[])]);
    assert_eq!(said(&own, &add(2, &[-2])), (5, 1));
    assert_eq!(said(&own, &restore(1)), (0, 0));
}

/// Records 1, 2 and 3 with the witnesses 1, 2 and 3.
fn three_records() -> Checker {
    after(&[
        add(1, &[1, 9]),
        add(2, &[2, 9]),
        add(3, &[3, 9]),
        weaken(1, &[1], &[]),
        weaken(2, &[2], &[]),
        weaken(3, &[3], &[]),
    ])
}

#[test]
fn detail_5_is_the_topmost_record_over_all_literals() {
    let state = three_records();
    assert_eq!(said(&state, &add(4, &[-1, -2])), (5, 2));
    assert_eq!(said(&state, &sat(&[-2, -1], &[9])), (5, 2));
    assert_eq!(said(&state, &sat(&[-1, -1], &[9])), (5, 1));
    assert_eq!(said(&state, &sat(&[9, -3, -1], &[9])), (5, 3));
    assert_eq!(said(&state, &sat(&[9, 8], &[9])), (11, 3));
    assert_eq!(said(&state, &sat(&[8, -1], &[9])), (11, 2));
    assert_eq!(said(&state, &sat(&[-1, 1], &[9])), (11, 3));
}

#[test]
fn the_assumptions_of_unsat_need_not_be_clean() {
    let mut state = three_records();
    assert!(state.step(&add(4, &[1])).is_accepted());
    assert_eq!(said(&state, &unsat(&[-1], &[4])), (0, 0));
    assert_eq!(said(&state, &sat(&[-1], &[9])), (5, 1), "5 before 10");
    assert_eq!(said(&state, &sat(&[], &[9])), (10, 4));
}

#[test]
fn neither_promote_nor_restore_looks_further() {
    let mut state = after(&[
        add(1, &[1, 2]),
        add(2, &[-1, 3]),
        learn(3, &[-1, 3], &[2]),
        add(4, &[2, 3]),
        weaken(1, &[1], &[(2, vec![4])]),
    ]);
    // (-1 3) is not clean against the record with the witness 1.
    assert_eq!(said(&state, &promote(3)), (0, 0));
    // Above the record of 1, clause 2 comes back although it is not clean against it.
    assert!(state.step(&weaken(2, &[3], &[])).is_accepted());
    assert_eq!(said(&state, &restore(2)), (0, 0));
    assert_eq!(said(&state, &add(5, &[-1, 3])), (5, 1));
}

#[test]
fn ids_that_went_stay_used_and_refused_ids_do_not() {
    let mut state = after(&[add(5, &[1]), learn(7, &[1], &[5]), forget(7)]);
    assert_eq!(said(&state, &add(7, &[1])), (4, 7));
    assert_eq!(said(&state, &learn(9, &[2], &[])), (8, 0));
    assert_eq!(state.step(&learn(9, &[2], &[])).code, 8);
    assert_eq!(said(&state, &add(8, &[2])), (0, 0));
    let last = after(&[add(i32::MAX, &[1])]);
    assert_eq!(said(&last, &add(i32::MAX, &[1])), (4, i32::MAX as u32));
}

#[test]
fn a_clause_is_looked_for_in_the_place_its_row_names() {
    let state = after(&[
        add(1, &[1]),
        learn(2, &[1, 2], &[1]),
        add(3, &[3]),
        weaken(3, &[3], &[]),
    ]);
    for wrong in [1, 3, 4] {
        assert_eq!(said(&state, &forget(wrong)), (4, wrong as u32));
        assert_eq!(said(&state, &promote(wrong)), (4, wrong as u32));
    }
    for wrong in [2, 3, 4] {
        assert_eq!(said(&state, &drop_clause(wrong, &[1])), (4, wrong as u32));
        assert_eq!(said(&state, &weaken(wrong, &[9], &[])), (4, wrong as u32));
    }
    for wrong in [1, 2, 4] {
        assert_eq!(said(&state, &restore(wrong)), (4, wrong as u32));
    }
}

#[test]
fn a_model_with_nothing_true_prints_code_and_detail_only() {
    assert_eq!(answers(b"0000000800000000\n"), b"0000000000000000\n");
}
