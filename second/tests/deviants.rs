//! The judge and the comparison can fail: checkers that deviate from documents 01 and 02 in one
//! rule are found out.
//!
//! A deviant stands around the true checker. It looks at the state before the step, the frame
//! and the true answer, and may put another state and answer in their place.

use second::answer::{Answer, Refusal};
use second::assignment::Assignment;
use second::checker::{Checker, Checks};
use second::frame::{Frame, Part};
use second::frames::sat;
use second::histogram::lines_of;
use second::judge::judge_history;
use second::lines::{opened, read_words};
use second::propagation::{prove, Unproved};
use second::search::Clauses;
use second::state::{Record, State};
use second::traces::{find_class, CLASSES};
use second::values::Values;

/// The state and answer in place of the true ones.
type Instead = Option<(State, Answer)>;

type Deviation = fn(&State, Frame<'_>, &Answer) -> Instead;

struct Deviant {
    checker: Checker,
    deviation: Deviation,
}

impl Checks for Deviant {
    fn step(&mut self, frame: &[i32]) -> Answer {
        let before = self.checker.state().clone();
        let answer = self.checker.step(frame);
        // Wrong counts and literals are refused by every deviant.
        let (Ok(read), true) = (Frame::read(frame), answer.code != 3) else {
            return answer;
        };
        match (self.deviation)(&before, read, &answer) {
            Some((state, answer)) => {
                self.checker = Checker::with_state(state);
                answer
            }
            None => answer,
        }
    }

    fn state(&self) -> &State {
        self.checker.state()
    }
}

/// How many of the first histories the judge objects to.
fn found_out(deviation: Deviation, histories: u64) -> usize {
    let broken = |seed: &u64| {
        let deviant = |checker| Deviant { checker, deviation };
        judge_history(*seed, deviant).broken.is_some()
    };
    (0..histories).filter(broken).count()
}

fn accepted(state: State) -> Instead {
    Some((state, Answer::accepted()))
}

fn is_unproved(answer: &Answer) -> bool {
    matches!(answer.code, 7 | 8)
}

fn add_without_cleanness(before: &State, frame: Frame<'_>, answer: &Answer) -> Instead {
    let (Frame::Add { id, clause }, 5) = (frame, answer.code) else {
        return None;
    };
    let mut state = before.clone();
    state.highest = id;
    state.irredundant.insert(id, clause.words.to_vec());
    accepted(state)
}

fn learn_without_proof(before: &State, frame: Frame<'_>, answer: &Answer) -> Instead {
    let (Frame::Learn { id, clause, .. }, true) = (frame, is_unproved(answer)) else {
        return None;
    };
    let mut state = before.clone();
    state.highest = id;
    state.learned.insert(id, clause.words.to_vec());
    accepted(state)
}

fn drop_without_proof(before: &State, frame: Frame<'_>, answer: &Answer) -> Instead {
    let (Frame::Drop { id, .. }, true) = (frame, is_unproved(answer)) else {
        return None;
    };
    let mut state = before.clone();
    state.irredundant.remove(&id);
    accepted(state)
}

/// The clause of an id in an allowed set.
type Allowed = fn(&State, i32) -> Option<&[i32]>;

fn irredundant_or_learned(state: &State, id: i32) -> Option<&[i32]> {
    let clause = state
        .irredundant
        .get(&id)
        .or_else(|| state.learned.get(&id));
    clause.map(Vec::as_slice)
}

fn irredundant_or_stacked(state: &State, id: i32) -> Option<&[i32]> {
    let clause = state.irredundant.get(&id).map(Vec::as_slice);
    clause.or_else(|| state.find_stacked(id))
}

/// Judges a target against an allowed set without the clause that leaves, 0 for none.
fn proved(
    before: &State,
    target: &[i32],
    hints: Part<'_>,
    allowed: Allowed,
    leaving: i32,
) -> Result<(), Unproved> {
    let mut values = Values::new(before.vars);
    prove(
        &mut values,
        target.iter().copied(),
        hints.indexed(),
        |hint| allowed(before, hint).filter(|_| hint != leaving),
    )
}

fn drop_leans_on(allowed: Allowed, before: &State, frame: Frame<'_>, answer: &Answer) -> Instead {
    let (Frame::Drop { id, hints }, 7) = (frame, answer.code) else {
        return None;
    };
    let mut state = before.clone();
    let clause = state.irredundant.remove(&id)?;
    proved(before, &clause, hints, allowed, id).ok()?;
    accepted(state)
}

fn drop_leans_on_learned(before: &State, frame: Frame<'_>, answer: &Answer) -> Instead {
    drop_leans_on(irredundant_or_learned, before, frame, answer)
}

fn drop_leans_on_stacked(before: &State, frame: Frame<'_>, answer: &Answer) -> Instead {
    drop_leans_on(irredundant_or_stacked, before, frame, answer)
}

/// Moves the clause to the stack, as WEAKEN does.
fn stacked(before: &State, id: i32, witness: Part<'_>) -> Instead {
    let mut state = before.clone();
    let clause = state.irredundant.remove(&id)?;
    state.stack.push(Record {
        id,
        clause,
        witness: witness.words.to_vec(),
    });
    accepted(state)
}

fn weaken_ignores_groups(before: &State, frame: Frame<'_>, answer: &Answer) -> Instead {
    match (frame, answer.code) {
        (Frame::Weaken { id, witness, .. }, 7..=9) => stacked(before, id, witness),
        _ => None,
    }
}

fn weaken_leans_on(allowed: Allowed, before: &State, frame: Frame<'_>, answer: &Answer) -> Instead {
    let (
        Frame::Weaken {
            id,
            witness,
            groups,
        },
        7,
    ) = (frame, answer.code)
    else {
        return None;
    };
    let mut rest = groups;
    while !rest.words.is_empty() {
        let (header, behind) = rest.split(2)?;
        let (hints, behind) = behind.split(usize::try_from(header.words[1]).ok()?)?;
        let mut target = before.irredundant.get(&id)?.clone();
        let touched = before.irredundant.get(&header.words[0])?.iter();
        target.extend(touched.filter(|&literal| !witness.words.contains(&-literal)));
        proved(before, &target, hints, allowed, id).ok()?;
        rest = behind;
    }
    stacked(before, id, witness)
}

fn weaken_leans_on_learned(before: &State, frame: Frame<'_>, answer: &Answer) -> Instead {
    weaken_leans_on(irredundant_or_learned, before, frame, answer)
}

fn weaken_leans_on_stacked(before: &State, frame: Frame<'_>, answer: &Answer) -> Instead {
    weaken_leans_on(irredundant_or_stacked, before, frame, answer)
}

fn restore_without_cleanness(before: &State, frame: Frame<'_>, answer: &Answer) -> Instead {
    let (Frame::Restore { id }, 5) = (frame, answer.code) else {
        return None;
    };
    let mut state = before.clone();
    let place = state.stack.iter().position(|record| record.id == id)?;
    let record = state.stack.remove(place);
    state.irredundant.insert(id, record.clause);
    accepted(state)
}

/// The answer the true checker gives to SAT in another state.
fn sat_in(state: State, assumptions: &[i32], true_variables: Part<'_>) -> Answer {
    Checker::with_state(state).step(&sat(assumptions, true_variables.words))
}

fn assume_without_cleanness(before: &State, frame: Frame<'_>, answer: &Answer) -> Instead {
    match (frame, answer.code) {
        (Frame::Sat { true_variables, .. }, 5) => {
            let answer = sat_in(before.clone(), &[], true_variables);
            Some((before.clone(), answer))
        }
        _ => None,
    }
}

fn walk_upward(before: &State, frame: Frame<'_>, answer: &Answer) -> Instead {
    match (frame, answer.code) {
        (Frame::Sat { true_variables, .. }, 0) => {
            let mut upside_down = before.clone();
            upside_down.stack.reverse();
            let answer = sat_in(upside_down, &[], true_variables);
            Some((before.clone(), answer))
        }
        _ => None,
    }
}

fn copy_the_offered_model(before: &State, frame: Frame<'_>, answer: &Answer) -> Instead {
    match (frame, answer.code) {
        (Frame::Sat { true_variables, .. }, 0) => {
            let answer = Answer::mended(0, true_variables.words.to_vec());
            Some((before.clone(), answer))
        }
        _ => None,
    }
}

fn sat_without_clauses(before: &State, frame: Frame<'_>, answer: &Answer) -> Instead {
    match (frame, answer.code) {
        (Frame::Sat { true_variables, .. }, 10) => {
            let model = Assignment::new(before.vars, true_variables.words).true_variables();
            Some((before.clone(), Answer::mended(0, model)))
        }
        _ => None,
    }
}

fn unsat_without_proof(before: &State, frame: Frame<'_>, answer: &Answer) -> Instead {
    let (Frame::Unsat { .. }, true) = (frame, is_unproved(answer)) else {
        return None;
    };
    accepted(before.clone())
}

/// "Dropping a stacked record because the irredundant clauses imply it."
fn drop_implied_records(before: &State, frame: Frame<'_>, answer: &Answer) -> Instead {
    let (Frame::Sat { true_variables, .. }, 0) = (frame, answer.code) else {
        return None;
    };
    let mut state = before.clone();
    let irredundant = Clauses::new(before.vars).and(&before.irredundant);
    state
        .stack
        .retain(|record| irredundant.find_hints(&record.clause, 0).is_none());
    let answer = sat_in(state.clone(), &[], true_variables);
    Some((state, answer))
}

/// The refusal of a target that irredundant and learned clauses alone do not prove.
fn refused_without_stacked(before: &State, target: &[i32], hints: Part<'_>) -> Instead {
    let unproved = proved(before, target, hints, irredundant_or_learned, 0).err()?;
    let refusal = match unproved {
        Unproved::Hint { word } => Refusal::Hint { word },
        Unproved::UsedUp => Refusal::UsedUp { clause: 0 },
    };
    Some((before.clone(), refusal.into()))
}

fn learn_refuses_stacked(before: &State, frame: Frame<'_>, answer: &Answer) -> Instead {
    match (frame, answer.code) {
        (Frame::Learn { clause, hints, .. }, 0 | 7 | 8) => {
            refused_without_stacked(before, clause.words, hints)
        }
        _ => None,
    }
}

fn unsat_refuses_stacked(before: &State, frame: Frame<'_>, answer: &Answer) -> Instead {
    match (frame, answer.code) {
        (Frame::Unsat { assumptions, hints }, 0 | 7 | 8) => {
            let target = assumptions.words.iter().map(|literal| -literal);
            refused_without_stacked(before, &target.collect::<Vec<i32>>(), hints)
        }
        _ => None,
    }
}

/// These break demand 3.
const UNSOUND: [(&str, Deviation); 15] = [
    ("ADD without cleanness", add_without_cleanness),
    ("LEARN without proof", learn_without_proof),
    ("DROP without proof", drop_without_proof),
    ("DROP leans on learned", drop_leans_on_learned),
    ("DROP leans on stacked", drop_leans_on_stacked),
    ("WEAKEN ignores groups", weaken_ignores_groups),
    ("WEAKEN leans on learned", weaken_leans_on_learned),
    ("WEAKEN leans on stacked", weaken_leans_on_stacked),
    ("RESTORE without cleanness", restore_without_cleanness),
    ("assumptions without cleanness", assume_without_cleanness),
    ("walk upward", walk_upward),
    ("the offered model copied", copy_the_offered_model),
    ("SAT without clauses", sat_without_clauses),
    ("UNSAT without proof", unsat_without_proof),
    ("implied records dropped", drop_implied_records),
];

/// These refuse what is right: demand 3 holds all the same.
const TOO_STRICT: [(&str, Deviation); 2] = [
    ("LEARN refuses stacked hints", learn_refuses_stacked),
    ("UNSAT refuses stacked hints", unsat_refuses_stacked),
];

#[test]
fn the_judge_finds_every_unsound_deviant() {
    for (name, deviation) in UNSOUND {
        let found = found_out(deviation, 2_000);
        println!("{name}: found out in {found} of 2000 histories");
        assert!(found > 0, "{name} is not found out");
    }
}

#[test]
fn the_true_checker_is_not() {
    assert_eq!(found_out(|_, _, _| None, 2_000), 0);
}

/// The frames of a trace, without lines that are none.
fn frames_of(trace: &[u8]) -> Vec<Vec<i32>> {
    let lines = lines_of(trace).filter(|&(_, closed)| closed);
    let frames = lines.filter_map(|(line, _)| {
        let mut words = Vec::new();
        read_words(line, &mut words).map(|()| words)
    });
    frames.collect()
}

/// Whether a deviant answers some frame otherwise than the true checker does.
fn differs(deviation: Deviation, frames: &[Vec<i32>]) -> bool {
    let mut checker = opened();
    let mut deviant = Deviant {
        checker: opened(),
        deviation,
    };
    let mut frames = frames.iter();
    frames.any(|frame| checker.step(frame) != deviant.step(frame))
}

#[test]
fn the_comparison_finds_every_deviant() {
    let all = CLASSES
        .iter()
        .flat_map(|class| (0..2).map(|seed| class.trace(seed)));
    let all: Vec<Vec<Vec<i32>>> = all.map(|trace| frames_of(&trace)).collect();
    for (name, deviation) in UNSOUND.into_iter().chain(TOO_STRICT) {
        let found = all
            .iter()
            .filter(|frames| differs(deviation, frames))
            .count();
        println!("{name}: found out in {found} of {} traces", all.len());
        assert!(found > 0, "{name} is not found out");
    }
}

#[test]
fn each_trace_about_stacked_hints_finds_those_that_deviate_there() {
    let class = find_class("stacked-hints").expect("a class of this name");
    let deviations = UNSOUND.into_iter().chain(TOO_STRICT);
    let deviations: Vec<_> = deviations
        .filter(|(name, _)| name.contains("stacked"))
        .collect();
    assert_eq!(deviations.len(), 4);
    for seed in 0..60 {
        let frames = frames_of(&class.trace(seed));
        for (name, deviation) in &deviations {
            assert!(differs(*deviation, &frames), "{name}, seed {seed}");
        }
    }
}
