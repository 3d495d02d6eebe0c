//! One call, held to what it must answer and leave.

use super::calls::{Calls, Numbers};
use super::expected::{expect_open, expect_step, Expected};
use super::reading::{clause_part, state_of, witness_part};
use super::tables::Tables;
use crate::state::State;
use crate::words::tell_frame;
use std::fmt;
use std::ops::Range;

/// Where a call is wrong, in words.
#[derive(Clone, Debug, PartialEq, Eq)]
pub struct Difference {
    pub call: String,
    pub found: String,
}

impl fmt::Display for Difference {
    fn fmt(&self, out: &mut fmt::Formatter<'_>) -> fmt::Result {
        write!(out, "call     {}\nfound    {}", self.call, self.found)
    }
}

/// Opens over the tables; they are left as the call left them.
pub fn judge_open(
    calls: &mut dyn Calls,
    vars: u32,
    tables: &mut Tables,
) -> Result<Expected, Difference> {
    let before = tables.clone();
    let expected = expect_open(vars, &before);
    let numbers = calls.open(vars, tables);
    let fault = wrong_numbers((expected.code, expected.detail), numbers)
        .or_else(|| wrong_tables(&expected.state, &before, tables));
    differs(fault, || format!("open V {vars}, {}", tell_tables(&before)))?;
    Ok(expected)
}

/// Says a frame over the tables; they and the buffer are left as the call left them.
pub fn judge_step(
    calls: &mut dyn Calls,
    tables: &mut Tables,
    frame: &[i32],
    model: &mut [u64],
) -> Result<Expected, Difference> {
    let (before, buffer) = (tables.clone(), model.to_vec());
    let expected = expect_step(&before, frame, &buffer);
    let numbers = calls.step(tables, frame, model);
    let fault = wrong_numbers((expected.code, expected.detail), numbers)
        .or_else(|| wrong_tables(&expected.state, &before, tables))
        .or_else(|| wrong_model(&expected, &buffer, model));
    differs(fault, || {
        let buffer = format!("buffer of {} words", buffer.len());
        format!("{}, {buffer}, {}", tell_frame(frame), tell_tables(&before))
    })?;
    Ok(expected)
}

/// Reads clause and witness of an entry, whatever the tables hold.
pub fn judge_parts(calls: &mut dyn Calls, tables: &Tables, entry: usize) -> Result<(), Difference> {
    let (entries, words) = (&tables.entries, tables.pool.len());
    let clause = calls.clause(tables, entry);
    let witness = calls.witness(tables, entry);
    let right_clause = clause_part(entries, words, entry);
    let right_witness = witness_part(entries, words, entry);
    let fault = wrong_part("clause", right_clause, clause, &tables.pool)
        .or_else(|| wrong_part("witness", right_witness, witness, &tables.pool));
    differs(fault, || {
        let held = entries.get(entry);
        format!("parts of entry {entry}, {held:?}, {}", tell_tables(tables))
    })
}

/// "handed to its readers as a part of the pool, with no copy": where it lies is compared. Where
/// no word is, it lies nowhere.
fn wrong_part(name: &str, expected: Range<usize>, found: &[i32], pool: &[i32]) -> Option<String> {
    let right = &pool[expected.clone()];
    let length = found.len();
    let elsewhere = !right.is_empty() && found.as_ptr() != right.as_ptr();
    let fault = if length != right.len() {
        "of another length"
    } else if elsewhere {
        "from elsewhere"
    } else {
        return None;
    };
    Some(format!("{name} {fault} than {expected:?}: {length} words"))
}

pub(super) fn differs(fault: Option<String>, call: impl Fn() -> String) -> Result<(), Difference> {
    match fault {
        Some(found) => Err(Difference {
            call: call(),
            found,
        }),
        None => Ok(()),
    }
}

pub(super) fn wrong_numbers((code, detail): (u32, u32), found: Numbers) -> Option<String> {
    let numbers = (code.into(), detail.into());
    (found != numbers).then(|| format!("answer {found:?} instead of {numbers:?}"))
}

/// Tables are judged by the state they spell where the call writes, else by every word.
pub(super) fn wrong_tables(
    expected: &Option<State>,
    before: &Tables,
    after: &Tables,
) -> Option<String> {
    let spelled = || state_of(&after.entries, &after.pool, &after.carried);
    let fault = match expected {
        None => (before != after).then_some("a word of the tables changed"),
        Some(state) => match spelled() {
            None => Some("the tables left are no state"),
            Some(left) => (left != *state).then_some("the tables left are another state"),
        },
    };
    fault.map(str::to_string)
}

fn wrong_model(expected: &Expected, before: &[u64], after: &[u64]) -> Option<String> {
    let right = match &expected.model {
        None => before,
        Some(mended) => mended.as_slice(),
    };
    (after != right).then(|| "another model buffer".to_string())
}

pub(super) fn tell_tables(tables: &Tables) -> String {
    let carried = &tables.carried;
    format!(
        "{} entries, {} words; carried V {}, highest {}, count {}, words {}, depth {}",
        tables.entries.len(),
        tables.pool.len(),
        carried.vars,
        carried.highest,
        carried.count,
        carried.words,
        carried.depth
    )
}
