//! Frames and held clauses in the words of `docs/FORMAT.md`.

use crate::{Frame, Held, Operation, Place};
use std::fmt;

impl fmt::Display for Operation {
    fn fmt(&self, out: &mut fmt::Formatter<'_>) -> fmt::Result {
        out.pad(match self {
            Operation::Add => "ADD",
            Operation::Learn => "LEARN",
            Operation::Forget => "FORGET",
            Operation::Promote => "PROMOTE",
            Operation::Drop => "DROP",
            Operation::Weaken => "WEAKEN",
            Operation::Restore => "RESTORE",
            Operation::Sat => "SAT",
            Operation::Unsat => "UNSAT",
        })
    }
}

impl fmt::Display for Frame {
    fn fmt(&self, out: &mut fmt::Formatter<'_>) -> fmt::Result {
        write!(out, "{}", self.operation())?;
        // A question has a count behind its operation, the others an id.
        let asks = matches!(self.operation(), Operation::Sat | Operation::Unsat);
        let (id, rest) = self.words()[1..].split_at(usize::from(!asks));
        id.iter().try_for_each(|id| write!(out, " {id}"))?;
        match self.operation() {
            Operation::Add => write!(out, " ({})", Words(rest)),
            Operation::Forget | Operation::Promote | Operation::Restore => Ok(()),
            Operation::Learn => {
                let (clause, hints) = listed(rest);
                write!(out, " ({}), {}", Words(clause), Hints(hints))
            }
            Operation::Drop => write!(out, ", {}", Hints(rest)),
            Operation::Weaken => {
                let (witness, groups) = listed(rest);
                write!(out, ", witness {}{}", Words(witness), Groups(groups))
            }
            Operation::Sat => match listed(rest) {
                (assumed, []) => write!(out, "{}, none true", Assumed(assumed)),
                (assumed, trues) => write!(out, "{}, true {}", Assumed(assumed), Words(trues)),
            },
            Operation::Unsat => {
                let (assumed, hints) = listed(rest);
                write!(out, "{}, {}", Assumed(assumed), Hints(hints))
            }
        }
    }
}

/// A list behind its count, and what is behind it. The counts of a frame are right.
fn listed(words: &[i32]) -> (&[i32], &[i32]) {
    match words {
        [count, rest @ ..] => rest.split_at((*count as usize).min(rest.len())),
        [] => (&[], &[]),
    }
}

struct Words<'f, T>(&'f [T]);
struct Hints<'f>(&'f [i32]);
struct Groups<'f>(&'f [i32]);
struct Assumed<'f>(&'f [i32]);

impl<T: fmt::Display> fmt::Display for Words<'_, T> {
    fn fmt(&self, out: &mut fmt::Formatter<'_>) -> fmt::Result {
        let mut before = "";
        for word in self.0 {
            write!(out, "{before}{word}")?;
            before = " ";
        }
        Ok(())
    }
}

impl fmt::Display for Hints<'_> {
    fn fmt(&self, out: &mut fmt::Formatter<'_>) -> fmt::Result {
        match self.0 {
            [] => out.write_str("no hint"),
            [hint] => write!(out, "hint {hint}"),
            hints => write!(out, "hints {}", Words(hints)),
        }
    }
}

impl fmt::Display for Groups<'_> {
    fn fmt(&self, out: &mut fmt::Formatter<'_>) -> fmt::Result {
        let mut words = self.0;
        while let [id, behind @ ..] = words {
            let (hints, rest) = listed(behind);
            match hints {
                [] => write!(out, ", group {id}: no hint")?,
                hints => write!(out, ", group {id}: {}", Words(hints))?,
            }
            words = rest;
        }
        Ok(())
    }
}

impl fmt::Display for Assumed<'_> {
    fn fmt(&self, out: &mut fmt::Formatter<'_>) -> fmt::Result {
        match self.0 {
            [] => Ok(()),
            assumed => write!(out, " assuming {}", Words(assumed)),
        }
    }
}

impl fmt::Display for Place {
    fn fmt(&self, out: &mut fmt::Formatter<'_>) -> fmt::Result {
        out.pad(match self {
            Place::Irredundant => "irredundant",
            Place::Learned => "learned",
            Place::Stacked => "stacked",
        })
    }
}

impl fmt::Display for Held<'_> {
    fn fmt(&self, out: &mut fmt::Formatter<'_>) -> fmt::Result {
        write!(out, "{} {} ({})", self.place, self.id, Words(self.clause))?;
        match self.witness {
            [] => Ok(()),
            witness => write!(out, ", witness {}", Words(witness)),
        }
    }
}
