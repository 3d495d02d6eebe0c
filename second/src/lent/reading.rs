//! Which tables are a state, and which.
//!
//! "The tables ... are a state exactly when V is 1 to 2,048, held ids are distinct, positive and
//! not above the highest accepted, every clause and witness obeys Terms within V, only stacked
//! clauses have witnesses, all literals lie inside the pool with no overlap, the stack lists each
//! stacked clause once, and every kept count equals what is held."

use super::tables::{Carried, Entry, IRREDUNDANT, LEARNED, STACKED};
use crate::state::{Record, State};
use crate::terms::{is_literal, variable, MOST_LITERALS, MOST_VARIABLES};
use std::collections::BTreeMap;
use std::ops::Range;

/// A clause as its entry holds it.
struct Held<'p> {
    id: i32,
    place: u32,
    clause: &'p [i32],
    witness: &'p [i32],
}

/// The state that the tables are, if they are one. Lent sizes are not judged here.
pub fn state_of(entries: &[Entry], pool: &[i32], carried: &Carried) -> Option<State> {
    let vars = i32::try_from(carried.vars).ok()?;
    if !(1..=MOST_VARIABLES).contains(&vars) {
        return None;
    }
    let mut state = State::empty(vars, entries.len(), pool.len());
    // Ids end at 2,147,483,647, so a highest id above that was never accepted.
    state.highest = i32::try_from(carried.highest).ok()?;
    let held = entries.get(..usize::try_from(carried.count).ok()?)?;
    if !lie_apart(held, pool.len()) || words_of(held) != u64::from(carried.words) {
        return None;
    }
    let mut stacked = BTreeMap::new();
    for entry in held {
        place_clause(held_by(entry, pool, &state)?, &mut state, &mut stacked)?;
    }
    state.stack = listed(carried, stacked)?;
    Some(state)
}

fn words_of(held: &[Entry]) -> u64 {
    held.iter().map(Entry::words).sum()
}

/// The part of the pool that an entry takes, if it lies inside. An entry without any words may
/// start anywhere.
fn part(entry: &Entry, words: usize) -> Option<Range<usize>> {
    if entry.words() == 0 {
        return Some(0..0);
    }
    let start = u64::from(entry.start);
    let end = start + entry.words();
    (end <= words as u64).then_some(start as usize..end as usize)
}

/// The part of the pool that the clause of an entry takes, whatever the tables hold. Past the
/// table's end there is no clause; of a part that ends past the pool there is what lies inside.
pub fn clause_part(entries: &[Entry], words: usize, entry: usize) -> Range<usize> {
    match entries.get(entry) {
        Some(entry) => inside(entry.start.into(), entry.length, words),
        None => 0..0,
    }
}

/// The same for the witness, which follows the clause.
pub fn witness_part(entries: &[Entry], words: usize, entry: usize) -> Range<usize> {
    match entries.get(entry) {
        Some(entry) => {
            let start = u64::from(entry.start) + u64::from(entry.length);
            inside(start, entry.witness, words)
        }
        None => 0..0,
    }
}

fn inside(start: u64, length: u32, words: usize) -> Range<usize> {
    let within = |place: u64| place.min(words as u64) as usize;
    within(start)..within(start + u64::from(length))
}

/// "all literals lie inside the pool with no overlap"
fn lie_apart(held: &[Entry], words: usize) -> bool {
    let mut taken = vec![false; words];
    held.iter().all(|entry| {
        let Some(part) = part(entry, words) else {
            return false;
        };
        let free = !taken[part.clone()].contains(&true);
        taken[part].fill(true);
        free
    })
}

/// The clause of an entry, with its witness, if both obey Terms.
fn held_by<'p>(entry: &Entry, pool: &'p [i32], state: &State) -> Option<Held<'p>> {
    let id = i32::try_from(entry.id).ok()?;
    if !(1..=state.highest).contains(&id) {
        return None;
    }
    let words = &pool[part(entry, pool.len())?];
    let (clause, witness) = words.split_at(entry.length as usize);
    let terms = is_list(clause, state.vars) && is_list(witness, state.vars);
    let held = Held {
        id,
        place: entry.place,
        clause,
        witness,
    };
    (terms && witness_fits(&held)).then_some(held)
}

/// "0 to 256 literals in which no variable occurs twice, with either sign"
fn is_list(literals: &[i32], vars: i32) -> bool {
    let mut seen = vec![false; vars as usize + 1];
    literals.len() <= MOST_LITERALS
        && literals.iter().all(|&literal| {
            is_literal(literal, vars) && !std::mem::replace(&mut seen[variable(literal)], true)
        })
}

/// "only stacked clauses have witnesses", and such a one has "at least one of them in the
/// clause".
fn witness_fits(held: &Held<'_>) -> bool {
    match held.place {
        IRREDUNDANT | LEARNED => held.witness.is_empty(),
        STACKED => held
            .witness
            .iter()
            .any(|literal| held.clause.contains(literal)),
        _ => false,
    }
}

/// Puts a clause where its entry says, unless its id is held already.
fn place_clause(
    held: Held<'_>,
    state: &mut State,
    stacked: &mut BTreeMap<i32, Record>,
) -> Option<()> {
    let Held { id, clause, .. } = held;
    let twice = state.irredundant.contains_key(&id)
        || state.learned.contains_key(&id)
        || stacked.contains_key(&id);
    if twice {
        return None;
    }
    let clause = clause.to_vec();
    match held.place {
        IRREDUNDANT => drop(state.irredundant.insert(id, clause)),
        LEARNED => drop(state.learned.insert(id, clause)),
        _ => {
            let witness = held.witness.to_vec();
            stacked.insert(
                id,
                Record {
                    id,
                    clause,
                    witness,
                },
            );
        }
    }
    Some(())
}

/// "the stack lists each stacked clause once": each id it lists takes its record away, and none
/// may be left.
fn listed(carried: &Carried, mut stacked: BTreeMap<i32, Record>) -> Option<Vec<Record>> {
    let ids = carried.stack.get(..usize::try_from(carried.depth).ok()?)?;
    let records: Option<Vec<Record>> = ids
        .iter()
        .map(|&id| stacked.remove(&i32::try_from(id).ok()?))
        .collect();
    records.filter(|_| stacked.is_empty())
}
