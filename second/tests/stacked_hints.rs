//! Document 02: "A stacked clause follows from what was added, so LEARN and UNSAT may name it as a
//! hint from now on. DROP and WEAKEN still may not."

mod common;

use common::{after, said};
use second::answer::Answer;
use second::checker::{Checker, Checks};
use second::frame::Frame;
use second::frames::{add, drop_clause, forget, learn, promote, restore, sat, unsat, weaken};
use second::histogram::lines_of;
use second::lines::{opened, read_words};
use second::search::Clauses;
use second::state::State;
use second::traces::{find_class, Class};

/// Clause 1 (1 2) stacked with the witness 1, and the irredundant clause 2 (-2 3): together they
/// prove (1 3), and neither does alone.
fn one_stacked() -> Checker {
    after(&[add(1, &[1, 2]), add(2, &[-2, 3]), weaken(1, &[1], &[])])
}

/// The same with the irredundant clauses 3 (1 3), 4 (1 4) and 5 (3 -4), of which 4 can be weakened
/// with the witness 4 and a group for 5.
fn with_more() -> Checker {
    let mut checker = one_stacked();
    for frame in [add(3, &[1, 3]), add(4, &[1, 4]), add(5, &[3, -4])] {
        assert!(checker.step(&frame).is_accepted(), "{frame:?}");
    }
    checker
}

#[test]
fn learn_and_unsat_may_name_a_stacked_clause() {
    let state = one_stacked();
    for hints in [[1, 2], [2, 1]] {
        assert_eq!(said(&state, &learn(3, &[1, 3], &hints)), (0, 0));
        assert_eq!(said(&state, &unsat(&[-1, -3], &hints)), (0, 0));
    }
    assert_eq!(said(&state, &learn(3, &[2, 1], &[1])), (0, 0));
    assert_eq!(said(&state, &learn(3, &[1, 3], &[2])), (8, 0));
    assert_eq!(said(&state, &unsat(&[-1, -3], &[2])), (8, 0));
}

#[test]
fn a_stacked_clause_is_read_as_any_hint_is() {
    let state = one_stacked();
    assert_eq!(said(&state, &learn(3, &[3], &[1])), (7, 4), "two open");
    assert_eq!(said(&state, &unsat(&[-3], &[2, 1, 1])), (7, 5), "true");
    assert_eq!(said(&state, &unsat(&[-1], &[1])), (8, 0), "used up");
    assert_eq!(said(&state, &unsat(&[-1, -3], &[2, 1, 9])), (0, 0));
    assert_eq!(said(&state, &unsat(&[1], &[1])), (7, 3), "true");
}

#[test]
fn drop_and_weaken_may_not() {
    let state = with_more();
    assert_eq!(said(&state, &drop_clause(3, &[1, 2])), (7, 2));
    assert_eq!(said(&state, &drop_clause(3, &[2, 1])), (7, 3));
    let weakened = |hints: &[i32]| said(&state, &weaken(4, &[4], &[(5, hints.to_vec())]));
    assert_eq!(weakened(&[1, 2]), (7, 6));
    assert_eq!(weakened(&[2, 1]), (7, 7));
    assert_eq!(weakened(&[3, 1]), (0, 0), "unread");
    assert_eq!(weakened(&[3]), (0, 0));
}

#[test]
fn the_same_frames_are_accepted_where_nothing_is_stacked() {
    let mut state = with_more();
    assert!(state.step(&restore(1)).is_accepted());
    assert_eq!(said(&state, &drop_clause(3, &[1, 2])), (0, 0));
    let groups = [(5, vec![1, 2])];
    assert_eq!(said(&state, &weaken(4, &[4], &groups)), (0, 0));
}

#[test]
fn a_clause_is_where_it_is_when_the_frame_arrives() {
    let mut state = after(&[add(1, &[1, 2]), add(2, &[-2, 3]), add(3, &[1, 3])]);
    let claims = |state: &Checker| {
        let hints = [1, 2];
        let learned = said(state, &learn(9, &[1, 3], &hints));
        let unsat = said(state, &unsat(&[-1, -3], &hints));
        (learned, unsat, said(state, &drop_clause(3, &hints)))
    };
    assert_eq!(claims(&state), ((0, 0), (0, 0), (0, 0)), "irredundant");
    for _ in 0..2 {
        assert!(state.step(&weaken(1, &[1], &[])).is_accepted());
        assert_eq!(claims(&state), ((0, 0), (0, 0), (7, 2)), "a frame ago");
        assert!(state.step(&restore(1)).is_accepted());
        assert_eq!(claims(&state), ((0, 0), (0, 0), (0, 0)), "restored");
    }
}

#[test]
fn a_clause_that_went_is_no_hint() {
    let mut state = one_stacked();
    assert!(state.step(&learn(3, &[1, 3], &[1, 2])).is_accepted());
    assert_eq!(said(&state, &unsat(&[-1, -3], &[3])), (0, 0));
    assert!(state.step(&forget(3)).is_accepted());
    assert_eq!(said(&state, &unsat(&[-1, -3], &[3])), (7, 4));
    assert_eq!(said(&state, &learn(4, &[1, 3], &[3])), (7, 5));
    for step in [add(4, &[1]), restore(1), drop_clause(1, &[4])] {
        assert!(state.step(&step).is_accepted(), "{step:?}");
    }
    assert_eq!(said(&state, &unsat(&[-1, -2], &[1])), (7, 4), "dropped");
}

#[test]
fn every_record_of_the_stack_may_be_named() {
    let mut state = one_stacked();
    for step in [weaken(2, &[-2], &[]), add(3, &[-3, 4])] {
        assert!(state.step(&step).is_accepted(), "{step:?}");
    }
    assert!(state.step(&weaken(3, &[-3], &[])).is_accepted());
    assert_eq!(said(&state, &unsat(&[-1, -4], &[1, 2, 3])), (0, 0));
    assert_eq!(said(&state, &unsat(&[-1, -4], &[3, 1, 2])), (0, 0));
}

/// What leans on a stacked clause follows from what was added, so it may be promoted, and models
/// are mended to satisfy all the same.
#[test]
fn what_is_learned_so_may_be_promoted() {
    let mut state = one_stacked();
    for step in [learn(3, &[1, 3], &[1, 2]), promote(3)] {
        assert!(state.step(&step).is_accepted(), "{step:?}");
    }
    assert_eq!(said(&state, &sat(&[], &[])), (10, 3));
    let answer = state.step(&sat(&[], &[3]));
    assert_eq!((answer.code, answer.model), (0, Some(vec![1, 3])));
}

/// Whether propagation comes to a proof from irredundant and learned clauses alone. It comes to
/// the same end in any order, so one search speaks for all lists of hints.
fn is_proved_otherwise(state: &State, target: &[i32]) -> bool {
    let clauses = Clauses::new(state.vars).and(&state.irredundant);
    let hints = clauses.and(&state.learned).find_hints(target, 0);
    hints.is_some()
}

/// Says a frame; tells whether it is one of the four cases: LEARN or UNSAT that is accepted and
/// that stacked clauses alone can prove, DROP or WEAKEN refused 7 at the name of a stacked clause.
fn is_a_case(checker: &mut Checker, words: &[i32]) -> bool {
    let before = checker.state().clone();
    let Answer { code, detail, .. } = checker.step(words);
    match (Frame::read(words), code) {
        (Ok(Frame::Learn { clause, .. }), 0) => !is_proved_otherwise(&before, clause.words),
        (Ok(Frame::Unsat { assumptions, .. }), 0) => {
            let opposites = assumptions.words.iter().map(|literal| -literal);
            !is_proved_otherwise(&before, &opposites.collect::<Vec<i32>>())
        }
        (Ok(Frame::Drop { .. } | Frame::Weaken { .. }), 7) => {
            before.find_stacked(words[detail as usize]).is_some()
        }
        _ => false,
    }
}

/// How often LEARN, UNSAT, DROP and WEAKEN are in their case.
fn count(class: &Class, seed: u64) -> [usize; 4] {
    const OPERATIONS: [i32; 4] = [2, 9, 5, 6];
    let mut checker = opened();
    let mut times = [0; 4];
    let mut words = Vec::new();
    for (line, closed) in lines_of(&class.trace(seed)) {
        if !closed || read_words(line, &mut words).is_none() {
            continue;
        }
        if is_a_case(&mut checker, &words) {
            let place = OPERATIONS.iter().position(|&name| name == words[0]);
            times[place.expect("an operation with hints")] += 1;
        }
    }
    times
}

/// The same over many traces.
fn count_all(class: &Class, seeds: u64) -> [usize; 4] {
    let counts = (0..seeds).map(|seed| count(class, seed));
    let times = counts.fold([0; 4], |all, more| {
        std::array::from_fn(|place| all[place] + more[place])
    });
    let name = class.name;
    println!("{seeds} traces of {name}: LEARN, UNSAT, DROP, WEAKEN {times:?}");
    times
}

fn class(name: &str) -> &'static Class {
    find_class(name).expect("a class of this name")
}

#[test]
fn every_trace_about_stacked_hints_has_all_four() {
    let class = class("stacked-hints");
    for seed in 0..60 {
        let times = count(class, seed);
        assert!(times.iter().all(|&times| times >= 2), "{seed}: {times:?}");
    }
    let times = count_all(class, 60);
    assert!(times.iter().all(|&times| times >= 400), "{times:?}");
}

/// Of the class `small` are the histories that the brute-force judge looks at.
#[test]
fn histories_have_them_too() {
    let fewest = [("small", 15), ("straight", 20), ("mixed", 20)];
    for (name, fewest) in fewest {
        let times = count_all(class(name), 60);
        assert!(times.iter().all(|&times| times >= fewest), "{times:?}");
    }
    let refused = [
        count_all(class("hints"), 60),
        count_all(class("groups"), 60),
    ];
    assert!(refused[0][2] >= 10 && refused[1][3] >= 40, "{refused:?}");
}
