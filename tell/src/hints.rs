//! Hints read again, to say in words which of them does not serve, and why.
//!
//! The verdict is the program's. Where this reading comes to another one, its words are not used.

use crate::held::{Held, Place};
use crate::lists::clause;
use crate::literals::opposite;
use std::collections::HashSet;

/// Which clauses a hint may name.
#[derive(Clone, Copy)]
pub enum Allowed<'h> {
    /// LEARN, UNSAT: all that are held.
    All(&'h Held),
    /// DROP, WEAKEN: irredundant ones other than this.
    IrredundantBut(&'h Held, i32),
}

/// What hints come to.
#[derive(Debug, PartialEq, Eq)]
pub enum Reading {
    Proved,
    /// The hint at this place of the list does not serve.
    Bad(usize, String),
    UsedUp,
}

/// Takes the target's literals for false and reads the hints in order.
pub fn read(target: impl Iterator<Item = i32>, hints: &[i32], allowed: Allowed<'_>) -> Reading {
    let mut trues = HashSet::new();
    for literal in target {
        if trues.contains(&literal) {
            return Reading::Proved;
        }
        trues.insert(opposite(literal));
    }
    for (place, &id) in hints.iter().enumerate() {
        let literals = match allowed.find(id) {
            Ok(literals) => literals,
            Err(why) => return Reading::Bad(place, why),
        };
        match read_hint(id, literals, &trues) {
            Ok(Some(literal)) => drop(trues.insert(literal)),
            Ok(None) => return Reading::Proved,
            Err(why) => return Reading::Bad(place, why),
        }
    }
    Reading::UsedUp
}

/// The literal that a clause makes true; none where all are false.
fn read_hint(id: i32, literals: &[i32], trues: &HashSet<i32>) -> Result<Option<i32>, String> {
    let told = clause(literals);
    if let Some(literal) = literals.iter().find(|literal| trues.contains(literal)) {
        return Err(format!(
            "clause {id} has the true literal {literal}: {told}"
        ));
    }
    let is_open = |literal: &&i32| !trues.contains(&opposite(**literal));
    let mut open = literals.iter().filter(is_open);
    match (open.next(), open.next()) {
        (Some(one), Some(other)) => Err(format!(
            "clause {id} has two open literals, {one} and {other}: {told}"
        )),
        (one, _) => Ok(one.copied()),
    }
}

impl<'h> Allowed<'h> {
    /// The literals of the clause that a hint names, or why it may not.
    fn find(self, id: i32) -> Result<&'h [i32], String> {
        let (held, leaving) = match self {
            Allowed::All(held) => (held, None),
            Allowed::IrredundantBut(held, leaving) => (held, Some(leaving)),
        };
        let Some((place, literals)) = held.find(id) else {
            return Err(format!("no clause {id} is held"));
        };
        let told = clause(literals);
        match place {
            Place::Irredundant if leaving == Some(id) => {
                Err(format!("clause {id} is the one that goes: {told}"))
            }
            Place::Learned | Place::Stacked if leaving.is_some() => Err(format!(
                "clause {id} is {}, and only irredundant ones serve here: {told}",
                place.name()
            )),
            _ => Ok(literals),
        }
    }
}

#[cfg(test)]
mod tests {
    use super::*;
    use crate::frame::Frame;

    fn held() -> Held {
        let mut held = Held::default();
        for frame in [
            &[1, 1, 1, 2][..],
            &[1, 2, 1, -2],
            &[2, 3, 1, 1, 1, 2],
            &[1, 4, 5, 6],
            &[6, 4, 1, 5],
            &[1, 5, 7, 8],
        ] {
            held.accept(&Frame::read(frame).expect("a frame"));
        }
        held
    }

    fn bad(reading: Reading) -> (usize, String) {
        match reading {
            Reading::Bad(place, why) => (place, why),
            other => panic!("{other:?}"),
        }
    }

    #[test]
    fn hints_prove_or_are_used_up() {
        let held = held();
        let all = Allowed::All(&held);
        assert_eq!(read([1].into_iter(), &[1, 2, 99], all), Reading::Proved);
        assert_eq!(read([1].into_iter(), &[1], all), Reading::UsedUp);
        assert_eq!(read([4, -4].into_iter(), &[99], all), Reading::Proved);
        assert_eq!(read([5, 6].into_iter(), &[4], all), Reading::Proved);
    }

    #[test]
    fn a_bad_hint_is_told() {
        let held = held();
        let all = Allowed::All(&held);
        let other = Allowed::IrredundantBut(&held, 1);
        for (allowed, hints, place, told) in [
            (all, &[1, 99][..], 1, "no clause 99 is held"),
            (
                all,
                &[4],
                0,
                "clause 4 has two open literals, 5 and 6: (5 6)",
            ),
            (
                other,
                &[4],
                0,
                "clause 4 is stacked, and only irredundant ones serve here: (5 6)",
            ),
            (
                all,
                &[5],
                0,
                "clause 5 has two open literals, 7 and 8: (7 8)",
            ),
            (all, &[1, 1], 1, "clause 1 has the true literal 2: (1 2)"),
            (other, &[1], 0, "clause 1 is the one that goes: (1 2)"),
            (
                other,
                &[3],
                0,
                "clause 3 is learned, and only irredundant ones serve here: (1)",
            ),
        ] {
            let found = bad(read([1].into_iter(), hints, allowed));
            assert_eq!(found, (place, told.to_string()));
        }
    }
}
