//! Why a frame was refused: the clause, record, hint, literal or word that the detail names, spelt out.

use crate::answer::Answer;
use crate::frame::Frame;
use crate::groups::{used_up, Weakening};
use crate::held::{Held, Place};
use crate::hints::{read, Allowed, Reading};
use crate::lists::clause;
use crate::literals::{holds, is_true, opposed, opposite, ENTRIES, VARIABLES, WORDS};

/// A refused frame, before which this was held.
pub struct Refused<'r> {
    pub answer: &'r Answer,
    pub words: &'r [i32],
    pub held: &'r Held,
}

impl Refused<'_> {
    /// What is held tells more than the code; where it does not, the code and detail are all there is.
    pub fn why(&self) -> String {
        let told = match Frame::read(self.words) {
            Err(fault) => (self.answer.code == 2).then_some(fault),
            Ok(frame) => self.detail(&frame),
        };
        told.unwrap_or_else(|| {
            let (meaning, detail) = (self.answer.meaning(), self.answer.detail);
            format!("{meaning} (detail {detail}; why is not seen from what was accepted before)")
        })
    }

    fn detail(&self, frame: &Frame<'_>) -> Option<String> {
        match self.answer.code {
            3 => self.literal(frame),
            4 => Some(self.id(frame)),
            5 => self.unclean(frame),
            6 => self.no_witness(frame),
            7 | 8 => self.unproved(frame),
            9 => self.groups(frame),
            10 => self.falsified(),
            11 => self.assumption(frame),
            12 => Some(self.full()),
            13 => self.no_words(frame),
            _ => None,
        }
    }

    /// 3: a word that is no literal, no rising variable, or a variable again.
    fn literal(&self, frame: &Frame<'_>) -> Option<String> {
        let at = self.answer.detail as usize;
        let word = *self.words.get(at)?;
        let is = format!("word {at} is {word}");
        if word.unsigned_abs() > VARIABLES.unsigned_abs() {
            return Some(format!("{is}, past variable {VARIABLES}"));
        }
        let trues_at = match frame {
            Frame::Sat { trues, .. } => self.words.len() - trues.len(),
            _ => self.words.len(),
        };
        if at > trues_at && word > 0 {
            let before = self.words[at - 1];
            return Some(format!("{is}, not above {before} before it"));
        }
        if at >= trues_at {
            return Some(format!("{is}, no variable"));
        }
        if word == 0 {
            return Some(format!("{is}, no literal"));
        }
        let same = |before: &i32| before.wrapping_abs() == word.wrapping_abs();
        let begins = if matches!(frame, Frame::Add { .. }) {
            2
        } else {
            3
        };
        let first = begins + self.words.get(begins..at)?.iter().position(same)?;
        let variable = word.wrapping_abs();
        Some(format!(
            "{is}, and variable {variable} is at word {first} already"
        ))
    }

    /// 4: an id that is not new, or a clause that is elsewhere.
    fn id(&self, frame: &Frame<'_>) -> String {
        let id = self.answer.detail as i32;
        let due = match frame {
            Frame::Add { .. } | Frame::Learn { .. } => {
                let highest = self.held.highest;
                return format!("id {id} is not new: the highest so far is {highest}");
            }
            Frame::Forget { .. } | Frame::Promote { .. } => Place::Learned,
            Frame::Restore { .. } => Place::Stacked,
            _ => Place::Irredundant,
        };
        match self.held.find(id) {
            Some((place, literals)) => format!(
                "clause {id} is {}, not {}: {}",
                place.name(),
                due.name(),
                clause(literals)
            ),
            None => format!("no clause {id} is held"),
        }
    }

    /// 5: the literal that a record's witness opposes.
    fn unclean(&self, frame: &Frame<'_>) -> Option<String> {
        let record = self.held.record(self.answer.detail as i32)?;
        let (what, literals) = match frame {
            Frame::Add { clause, .. } => ("literal", *clause),
            Frame::Restore { id } => ("literal", self.held.record(*id)?.clause.as_slice()),
            Frame::Sat { assumptions, .. } => ("assumption", *assumptions),
            _ => return None,
        };
        let literal = opposed(literals, &record.witness)?;
        let (id, other, told) = (record.id, opposite(literal), record.told());
        Some(format!(
            "{what} {literal} opposes {other} in the witness of record {id}: {told}"
        ))
    }

    /// 6: a witness beside its clause.
    fn no_witness(&self, frame: &Frame<'_>) -> Option<String> {
        let Frame::Weaken { id, witness, .. } = frame else {
            return None;
        };
        let literals = self.held.irredundant.get(id)?;
        let (witness, literals) = (clause(witness), clause(literals));
        Some(format!(
            "witness {witness} has no literal of clause {id}: {literals}"
        ))
    }

    /// 7 and 8: the hint that does not serve, or that all of them were read.
    fn unproved(&self, frame: &Frame<'_>) -> Option<String> {
        let held = self.held;
        let (target, hints, allowed) = match frame {
            Frame::Weaken { .. } => return self.groups(frame),
            Frame::Learn { clause, hints, .. } => (clause.to_vec(), *hints, Allowed::All(held)),
            Frame::Drop { id, hints } => {
                let target = held.irredundant.get(id)?.clone();
                (target, *hints, Allowed::IrredundantBut(held, *id))
            }
            Frame::Unsat { assumptions, hints } => {
                let target = assumptions.iter().map(|&literal| opposite(literal));
                (target.collect(), *hints, Allowed::All(held))
            }
            _ => return None,
        };
        match read(target.into_iter(), hints, allowed) {
            Reading::Bad(place, why) if self.answer.code == 7 => {
                let word = self.words.len() - hints.len() + place;
                let hint = hints[place];
                let agrees = word == self.answer.detail as usize;
                agrees.then(|| format!("hint {hint} at word {word}: {why}"))
            }
            Reading::UsedUp if self.answer.code == 8 => Some(used_up(hints)),
            _ => None,
        }
    }

    /// 9, and 7 and 8 inside a group.
    fn groups(&self, frame: &Frame<'_>) -> Option<String> {
        let Frame::Weaken {
            id,
            witness,
            groups,
        } = *frame
        else {
            return None;
        };
        let weakening = Weakening {
            held: self.held,
            id,
            clause: self.held.irredundant.get(&id)?,
            witness,
            groups,
            at: self.words.len() - groups.len(),
        };
        let flaw = weakening.first_flaw()?;
        let agrees = (flaw.code, flaw.detail) == (self.answer.code, self.answer.detail);
        agrees.then_some(flaw.told)
    }

    /// 10: a clause without a true literal.
    fn falsified(&self) -> Option<String> {
        let id = self.answer.detail as i32;
        let literals = self.held.irredundant.get(&id)?;
        let literals = clause(literals);
        Some(format!("clause {id} has no true literal: {literals}"))
    }

    /// 11: an assumption that the offered model makes false.
    fn assumption(&self, frame: &Frame<'_>) -> Option<String> {
        let Frame::Sat { trues, assumptions } = frame else {
            return None;
        };
        let at = self.answer.detail as usize;
        let literal = *self.words.get(at)?;
        if !holds(assumptions, literal) || is_true(literal, trues) {
            return None;
        }
        let variable = literal.wrapping_abs();
        let not = if literal > 0 { "not " } else { "" };
        let why = format!("variable {variable} is {not}among the true ones");
        Some(format!("assumption {literal} at word {at} is false: {why}"))
    }

    /// 12: what fills the entries.
    fn full(&self) -> String {
        let (clauses, counts) = (self.held.clauses(), self.held.counts());
        format!("{clauses} of {ENTRIES} clauses are held: {counts}")
    }

    /// 13: what fills the words.
    fn no_words(&self, frame: &Frame<'_>) -> Option<String> {
        let new = match frame {
            Frame::Add { clause, .. } | Frame::Learn { clause, .. } => clause.len(),
            Frame::Weaken { witness, .. } => witness.len(),
            _ => return None,
        };
        let held = self.held.words();
        Some(format!(
            "{held} of {WORDS} literals are held, and this needs {new} more"
        ))
    }
}
