//! Propagation by hints.

use crate::values::Values;

/// Why a target is not proved.
#[derive(Clone, Copy, Debug, PartialEq, Eq)]
pub enum Unproved {
    /// Refusal 7: the bad hint's word index.
    Hint { word: usize },
    /// Refusal 8.
    UsedUp,
}

/// Judges a target, a set of literals, against the allowed set of clauses. Each hint is an id at its word index.
pub fn prove<'c, Id>(
    values: &mut Values,
    target: impl Iterator<Item = i32>,
    hints: impl Iterator<Item = (usize, Id)>,
    allowed: impl Fn(Id) -> Option<&'c [i32]>,
) -> Result<(), Unproved> {
    values.clear();
    for literal in target {
        // "If the target holds a literal and its opposite, it is proved and no hint is read."
        if values.is_true(literal) {
            return Ok(());
        }
        values.make_true(-literal);
    }
    for (word, id) in hints {
        let clause = allowed(id).ok_or(Unproved::Hint { word })?;
        match read_hint(clause, values) {
            Reading::AllFalse => return Ok(()),
            Reading::OneOpen(literal) => values.make_true(literal),
            Reading::AnythingElse => return Err(Unproved::Hint { word }),
        }
    }
    Err(Unproved::UsedUp)
}

enum Reading {
    AllFalse,
    OneOpen(i32),
    /// "a true literal, or two open"
    AnythingElse,
}

fn read_hint(clause: &[i32], values: &Values) -> Reading {
    let mut open = None;
    for &literal in clause {
        if values.is_false(literal) {
            continue;
        }
        if open.is_some() || values.is_true(literal) {
            return Reading::AnythingElse;
        }
        open = Some(literal);
    }
    open.map_or(Reading::AllFalse, Reading::OneOpen)
}
