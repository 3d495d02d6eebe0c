//! A state laid out in tables: entries in any order, literals anywhere, and what is nobody's
//! filled with any words.

use super::tables::{Carried, Entry, Tables, IRREDUNDANT, LEARNED, STACKED};
use crate::random::Random;
use crate::state::State;
use crate::terms::MOST_ENTRIES;

/// One clause to lay: its place, and its literals with those of its witness behind them.
struct Piece {
    id: i32,
    place: u32,
    length: usize,
    words: Vec<i32>,
}

/// Tables that are the state, as the random numbers will have it. The state must fit the sizes
/// it names.
pub fn lay(state: &State, random: &mut Random) -> Tables {
    let mut pieces = pieces(state);
    random.shuffle(&mut pieces);
    let mut tables = Tables {
        entries: (0..state.entries).map(|_| any_entry(random)).collect(),
        pool: (0..state.words).map(|_| random.draw() as i32).collect(),
        carried: carry(state, random),
    };
    let mut gaps = gaps(&pieces, state.words, random);
    // Clauses lie in the pool in another order than their entries in the table.
    let mut order: Vec<usize> = (0..pieces.len()).collect();
    random.shuffle(&mut order);
    let mut start = 0;
    for place in order {
        let piece = &pieces[place];
        start += gaps.pop().unwrap_or(0);
        tables.entries[place] = entry(piece, start, random);
        tables.pool[start..start + piece.words.len()].copy_from_slice(&piece.words);
        start += piece.words.len();
    }
    tables
}

fn pieces(state: &State) -> Vec<Piece> {
    let piece = |id, place, clause: &[i32], witness: &[i32]| Piece {
        id,
        place,
        length: clause.len(),
        words: [clause, witness].concat(),
    };
    let irredundant = state.irredundant.iter();
    let learned = state.learned.iter();
    irredundant
        .map(|(&id, clause)| piece(id, IRREDUNDANT, clause, &[]))
        .chain(learned.map(|(&id, clause)| piece(id, LEARNED, clause, &[])))
        .chain(
            state
                .stack
                .iter()
                .map(|record| piece(record.id, STACKED, &record.clause, &record.witness)),
        )
        .collect()
}

fn entry(piece: &Piece, start: usize, random: &mut Random) -> Entry {
    // "Parts of length 0 overlap nothing": such an entry may start anywhere.
    let anywhere = piece.words.is_empty() && random.one_in(2);
    Entry {
        id: piece.id as u32,
        place: piece.place,
        start: if anywhere {
            random.draw() as u32
        } else {
            start as u32
        },
        length: piece.length as u32,
        witness: (piece.words.len() - piece.length) as u32,
    }
}

/// How many words lie unused before each piece: none at all, or parts of what is left over.
fn gaps(pieces: &[Piece], words: usize, random: &mut Random) -> Vec<usize> {
    let held: usize = pieces.iter().map(|piece| piece.words.len()).sum();
    let mut left = if random.one_in(3) { 0 } else { words - held };
    let mut gaps = Vec::with_capacity(pieces.len());
    for _ in pieces {
        let gap = if left == 0 || random.one_in(2) {
            0
        } else {
            random.between(0, left.min(1 + 2 * words / (pieces.len() + 1)))
        };
        left -= gap;
        gaps.push(gap);
    }
    gaps
}

/// What lies behind the held entries: nothing, or numbers that look like an entry, or any.
fn any_entry(random: &mut Random) -> Entry {
    match random.below(3) {
        0 => Entry::default(),
        1 => Entry {
            id: random.between(1, 9) as u32,
            place: random.below(3) as u32,
            start: random.below(9) as u32,
            length: random.below(4) as u32,
            witness: random.below(2) as u32,
        },
        _ => Entry {
            id: random.draw() as u32,
            place: random.draw() as u32,
            start: random.draw() as u32,
            length: random.draw() as u32,
            witness: random.draw() as u32,
        },
    }
}

fn carry(state: &State, random: &mut Random) -> Carried {
    let mut stack = [0; MOST_ENTRIES];
    if random.one_in(2) {
        stack = stack.map(|_| random.draw() as u32);
    }
    for (slot, record) in stack.iter_mut().zip(&state.stack) {
        *slot = record.id as u32;
    }
    Carried {
        vars: state.vars as u32,
        highest: state.highest as u32,
        count: state.clauses() as u32,
        words: state.held_words() as u32,
        depth: state.stack.len() as u32,
        stack,
    }
}
