//! Frames to say in a state: the simulated solver's, spoilt ones, and odd ones.

use super::states::mix_for;
use crate::frames::{weaken, Group};
use crate::random::Random;
use crate::state::State;
use crate::terms::LONGEST_FRAME;
use crate::traces::moves::{any_word, next_move, Mix};
use crate::traces::spoil::{any_id, spoilt};
use std::collections::VecDeque;

/// Who says frames: a solver with a plan, now and then somebody who spoils it.
pub struct Asker {
    mix: Mix,
    planned: VecDeque<Vec<i32>>,
}

impl Asker {
    pub fn new(state: &State, random: &mut Random) -> Asker {
        Asker {
            mix: mix_for(state, random),
            planned: VecDeque::new(),
        }
    }

    /// The next frame. What is planned stays planned when it is not said.
    pub fn next_frame(&mut self, state: &State, random: &mut Random) -> Vec<i32> {
        if random.one_in(8) {
            return odd(state, random);
        }
        if self.planned.is_empty() {
            self.planned.extend(next_move(state, random, &self.mix));
        }
        let planned = self.planned.front().cloned().unwrap_or_default();
        if random.one_in(4) {
            return spoilt(&planned, state, random);
        }
        self.planned.pop_front();
        planned
    }
}

/// A frame that no plan has.
fn odd(state: &State, random: &mut Random) -> Vec<i32> {
    match random.below(7) {
        0 => Vec::new(),
        1 => long(random),
        2 => (0..random.between(1, 9))
            .map(|_| any_word(random))
            .collect(),
        3 => weaken_without_hints(state, random),
        _ => about_any_clause(state, random),
    }
}

/// A frame of the longest length, or one word too long. UNSAT with opposed assumptions reads
/// no hint; of the others most are refused for what they say.
fn long(random: &mut Random) -> Vec<i32> {
    let length = LONGEST_FRAME + random.below(2);
    let mut frame = match random.below(3) {
        0 => vec![9, 2, 1, -1],
        1 => vec![random.between(1, 9) as i32, 1, 1],
        _ => vec![5, 1],
    };
    frame.resize_with(length, || any_word(random));
    frame
}

/// An operation on a clause of any place.
fn about_any_clause(state: &State, random: &mut Random) -> Vec<i32> {
    let id = any_id(state, random);
    let literal = random.literals(state.vars, 1)[0];
    match random.below(9) {
        0 => vec![1, state.highest.saturating_add(1)],
        1 => vec![1, id, literal],
        2 => vec![2, id, 1, literal, any_id(state, random)],
        3 => vec![3, id],
        4 => vec![4, id],
        5 => vec![5, id, any_id(state, random)],
        6 => vec![6, id, 1, witness_for(id, state, random)],
        7 => vec![7, id],
        _ => vec![8, 1, literal],
    }
}

/// WEAKEN with every group that it needs, each without hints: opposite literals are all that
/// can prove one.
fn weaken_without_hints(state: &State, random: &mut Random) -> Vec<i32> {
    let id = any_id(state, random);
    let literal = witness_for(id, state, random);
    let needs = |clause: &[i32]| clause.contains(&-literal) && !clause.contains(&literal);
    let others = state.irredundant.iter();
    let groups: Vec<Group> = others
        .filter(|(&other, clause)| other != id && needs(clause))
        .map(|(&other, _)| (other, Vec::new()))
        .collect();
    weaken(id, &[literal], &groups)
}

/// A literal of the clause, if there is such, or any.
fn witness_for(id: i32, state: &State, random: &mut Random) -> i32 {
    let clause = state
        .irredundant
        .get(&id)
        .and_then(|clause| random.pick(clause));
    match clause {
        Some(&literal) => literal,
        None => random.literals(state.vars, 1)[0],
    }
}
