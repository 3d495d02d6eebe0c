//! WEAKEN's groups read again, to say in words which of them is missing or wrong, and why.

use crate::held::Held;
use crate::hints::{read, Allowed, Reading};
use crate::lists::{clause, count};
use crate::literals::{holds, opposite};

/// The first fault of the groups, with the detail that the program gives for it.
#[derive(Debug, PartialEq, Eq)]
pub struct Flaw {
    pub code: u32,
    pub detail: u32,
    pub told: String,
}

fn flaw(code: u32, detail: usize, told: String) -> Flaw {
    let detail = detail as u32;
    Flaw { code, detail, told }
}

/// A WEAKEN whose clause is held.
pub struct Weakening<'w> {
    pub held: &'w Held,
    pub id: i32,
    pub clause: &'w [i32],
    pub witness: &'w [i32],
    /// The groups' words, and the index of the first of them.
    pub groups: &'w [i32],
    pub at: usize,
}

impl Weakening<'_> {
    pub fn first_flaw(&self) -> Option<Flaw> {
        let (mut at, mut rest) = (self.at, self.groups);
        for (&other, touched) in &self.held.irredundant {
            if other == self.id || !self.needs_group(touched) {
                continue;
            }
            let hints = match next_group(other, touched, at, rest) {
                Ok(hints) => hints,
                Err(flaw) => return Some(flaw),
            };
            if let Some(flaw) = self.judge(other, touched, hints, at + 2) {
                return Some(flaw);
            }
            at += 2 + hints.len();
            rest = &rest[2 + hints.len()..];
        }
        let left = rest.first()?;
        let told = format!("word {at} is {left}, and no further group is due");
        Some(flaw(9, at, told))
    }

    /// It holds the opposite of a witness literal, and no witness literal.
    fn needs_group(&self, touched: &[i32]) -> bool {
        let mut literals = touched.iter();
        let met = touched.iter().any(|&literal| holds(self.witness, literal));
        !met && literals.any(|&literal| holds(self.witness, opposite(literal)))
    }

    fn judge(&self, other: i32, touched: &[i32], hints: &[i32], at: usize) -> Option<Flaw> {
        let stays = |literal: &&i32| !holds(self.witness, opposite(**literal));
        let target = self.clause.iter().chain(touched.iter().filter(stays));
        let allowed = Allowed::IrredundantBut(self.held, self.id);
        match read(target.copied(), hints, allowed) {
            Reading::Proved => None,
            Reading::Bad(place, why) => {
                let word = at + place;
                let told = format!("hint {} at word {word}: {why}", hints[place]);
                Some(flaw(7, word, told))
            }
            Reading::UsedUp => {
                let (why, touched) = (used_up(hints), clause(touched));
                let told = format!("in the group of clause {other}: {why}: {touched}");
                Some(flaw(8, other as usize, told))
            }
        }
    }
}

/// Refusal 8 of so many hints.
pub fn used_up(hints: &[i32]) -> String {
    match hints.len() {
        0 => "there is no hint".to_string(),
        number => format!("{} used up, and no clause is false", count(number, "hint")),
    }
}

/// The hints of the group that is due here.
fn next_group<'w>(
    other: i32,
    touched: &[i32],
    at: usize,
    rest: &'w [i32],
) -> Result<&'w [i32], Flaw> {
    let due = format!("the group of clause {other}");
    let told = clause(touched);
    match *rest {
        [] => Err(flaw(9, at, format!("{due} is missing: {told}"))),
        [id, ..] if id != other => {
            let told = format!("word {at} is {id}, where {due} is due: {told}");
            Err(flaw(9, at, told))
        }
        [_] => Err(flaw(9, at + 1, format!("{due} has no k: {told}"))),
        [_, k, ref behind @ ..] => {
            let hints = usize::try_from(k).ok().and_then(|k| behind.get(..k));
            hints.ok_or_else(|| {
                let left = count(behind.len(), "word");
                let told = format!("{due} has k {k} at word {}: {left} left", at + 1);
                flaw(9, at + 1, told)
            })
        }
    }
}

#[cfg(test)]
mod tests {
    use super::*;
    use crate::frame::Frame;

    /// Clause 2 needs a group when clause 1 is weakened by 3; clause 3 is the resolvent.
    fn told(groups: &[i32]) -> Option<(u32, u32, String)> {
        let mut held = Held::default();
        for frame in [
            &[1, 1, 1, 3][..],
            &[1, 2, 2, -3],
            &[1, 3, 1, 2],
            &[1, 4, 3, -3],
        ] {
            held.accept(&Frame::read(frame).expect("a frame"));
        }
        let weakening = Weakening {
            held: &held,
            id: 1,
            clause: &[1, 3],
            witness: &[3],
            groups,
            at: 4,
        };
        let flaw = weakening.first_flaw()?;
        Some((flaw.code, flaw.detail, flaw.told))
    }

    /// Groups, the code and detail that they get, and the words.
    const FLAWS: &[(&[i32], u32, u32, &str)] = &[
        (&[], 9, 4, "the group of clause 2 is missing: (2 -3)"),
        (
            &[5, 0],
            9,
            4,
            "word 4 is 5, where the group of clause 2 is due: (2 -3)",
        ),
        (&[2], 9, 5, "the group of clause 2 has no k: (2 -3)"),
        (
            &[2, 9, 1],
            9,
            5,
            "the group of clause 2 has k 9 at word 5: 1 word left",
        ),
        (
            &[2, -1],
            9,
            5,
            "the group of clause 2 has k -1 at word 5: 0 words left",
        ),
        (
            &[2, 1, 3, 7],
            9,
            7,
            "word 7 is 7, and no further group is due",
        ),
        (
            &[2, 0],
            8,
            2,
            "in the group of clause 2: there is no hint: (2 -3)",
        ),
        (
            &[2, 1, 1],
            7,
            6,
            "hint 1 at word 6: clause 1 is the one that goes: (1 3)",
        ),
    ];

    #[test]
    fn every_flaw_has_words() {
        for &(groups, code, detail, words) in FLAWS {
            assert_eq!(told(groups), Some((code, detail, words.to_string())));
        }
        assert_eq!(told(&[2, 1, 3]), None);
    }
}
