//! States to lay out: some that a history reaches, and some that none does, which are states
//! all the same.

use crate::checker::{Checker, Checks};
use crate::random::Random;
use crate::state::{Record, State};
use crate::terms::{variable, MOST_ENTRIES, MOST_LITERALS, MOST_VARIABLES, MOST_WORDS};
use crate::traces::moves::{next_move, Mix};

/// A size from 1 to `most`: an end of the range, a small one, or any.
fn any_size(most: usize, random: &mut Random) -> usize {
    match random.below(8) {
        0 => random.between(1, 3),
        1 => most - random.below(2),
        2 => random.between(1, most),
        _ => random.between(1, most.min(60)),
    }
}

/// How long lists may be: mostly `few` literals, now and then as many as a list may have.
fn any_longest(few: usize, random: &mut Random) -> usize {
    let most = if random.one_in(6) { MOST_LITERALS } else { few };
    random.between(1, most)
}

/// An empty state of any V and sizes within the bounds.
pub fn any_empty(random: &mut Random) -> State {
    let most = MOST_VARIABLES as usize;
    // Lists longer than 256 need more variables than that; the longest answer needs all.
    let vars = match random.below(16) {
        0 => most,
        1..=3 => random.between(MOST_LITERALS + 1, most),
        _ => any_size(most, random),
    };
    let entries = any_size(MOST_ENTRIES, random);
    // Some words for each entry, or the one kind of room would always be full before the other.
    let words = match random.below(3) {
        0 => any_size(MOST_WORDS, random),
        _ => MOST_WORDS.min(entries * random.between(1, 8)),
    };
    State::empty(vars as i32, entries, words)
}

/// What a solver at work in this state is like.
pub fn mix_for(state: &State, random: &mut Random) -> Mix {
    let longest = any_longest(6, random);
    // Over few variables clauses meet often.
    let most = if random.one_in(2) { 8 } else { 40 };
    Mix {
        used: random.between(1, most.min(state.vars as usize)) as i32,
        shortest: 1,
        longest,
        crowded: random.between(1, state.entries),
    }
}

/// A state that a history of the simulated solver reaches.
pub fn reached(random: &mut Random) -> State {
    let mut checker = Checker::with_state(any_empty(random));
    let mix = mix_for(checker.state(), random);
    for _ in 0..random.between(1, 40) {
        for frame in next_move(checker.state(), random, &mix) {
            checker.step(&frame);
        }
    }
    fitted(checker.state().clone(), random)
}

/// The state with the sizes it came with, or with hardly any room left: then what is free lies in
/// pieces, and the next clause or witness needs them all.
fn fitted(mut state: State, random: &mut Random) -> State {
    if random.one_in(3) {
        state.words = (state.held_words() + random.below(4)).clamp(1, state.words);
    }
    if random.one_in(3) {
        state.entries = (state.clauses() + random.below(3)).clamp(1, state.entries);
    }
    state
}

/// Any state at all.
pub fn any_state(random: &mut Random) -> State {
    let mut state = any_empty(random);
    let count = match random.below(3) {
        0 => state.entries,
        1 => random.between(0, state.entries.min(9)),
        _ => random.between(0, state.entries),
    };
    let longest = any_longest(7, random);
    // Ids run up to 2,147,483,647 in some states.
    if random.one_in(6) {
        state.highest = i32::MAX - 10 * count as i32 - random.below(20) as i32;
    }
    for _ in 0..count {
        state.highest += if random.one_in(4) {
            random.between(1, 9) as i32
        } else {
            1
        };
        let id = state.highest;
        put_any_clause(id, longest, &mut state, random);
    }
    random.shuffle(&mut state.stack);
    if random.one_in(3) {
        state.highest = state.highest.saturating_add(random.below(50) as i32);
    }
    fitted(state, random)
}

/// A clause that fits what is left of the words, in any place.
fn put_any_clause(id: i32, longest: usize, state: &mut State, random: &mut Random) {
    let left = state.words - state.held_words();
    let length = random.below(longest + 1).min(left);
    let clause = random.literals(state.vars, length);
    match random.below(8) {
        0 | 1 => drop(state.learned.insert(id, clause)),
        2 | 3 if !clause.is_empty() && clause.len() < left => {
            let mut witness = any_witness(&clause, state.vars, random);
            // The first is in the clause, so what is cut off is never all of those.
            witness.truncate(left - clause.len());
            random.shuffle(&mut witness);
            state.stack.push(Record {
                id,
                clause,
                witness,
            });
        }
        _ => drop(state.irredundant.insert(id, clause)),
    }
}

/// A witness of a clause: its first literal is one of the clause, each other is or is not.
fn any_witness(clause: &[i32], vars: i32, random: &mut Random) -> Vec<i32> {
    let mut witness = vec![clause[random.below(clause.len())]];
    let more = any_longest(4, random) - 1;
    for literal in random.literals(vars, more) {
        if variable(literal) != variable(witness[0]) {
            witness.push(literal);
        }
    }
    witness
}
