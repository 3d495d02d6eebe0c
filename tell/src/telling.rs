//! Frames, and what came of accepted ones, in words.

use crate::answer::Answer;
use crate::frame::Frame;
use crate::held::Held;
use crate::lists::{clause, count, cut};

/// A frame in words; a clause that it names by id is spelt out as it is held before.
pub fn frame(frame: &Frame<'_>, held: &Held) -> String {
    match *frame {
        Frame::Add { id, clause: lits } => format!("ADD {id} {}", clause(lits)),
        Frame::Learn {
            id,
            clause: lits,
            hints,
        } => format!("LEARN {id} {}{}", clause(lits), told_hints(hints)),
        Frame::Forget { id } => format!("FORGET {}", named(id, held)),
        Frame::Promote { id } => format!("PROMOTE {}", named(id, held)),
        Frame::Drop { id, hints } => format!("DROP {}{}", named(id, held), told_hints(hints)),
        Frame::Weaken {
            id,
            witness,
            groups,
        } => format!(
            "WEAKEN {}, witness {}{}",
            named(id, held),
            clause(witness),
            told_groups(groups)
        ),
        Frame::Restore { id } => format!("RESTORE {}", named(id, held)),
        Frame::Sat { assumptions, trues } => {
            let trues = match trues {
                [] => "none true".to_string(),
                _ => format!("true {}", cut(trues)),
            };
            format!("SAT{}, {trues}", assuming(assumptions))
        }
        Frame::Unsat { assumptions, hints } => {
            format!("UNSAT{}{}", assuming(assumptions), told_hints(hints))
        }
    }
}

/// An id with its clause, where one is held.
fn named(id: i32, held: &Held) -> String {
    match held.find(id) {
        Some((_, literals)) => format!("{id} {}", clause(literals)),
        None => id.to_string(),
    }
}

fn assuming(assumptions: &[i32]) -> String {
    match assumptions {
        [] => String::new(),
        _ => format!(" assuming {}", cut(assumptions)),
    }
}

fn told_hints(hints: &[i32]) -> String {
    match hints {
        [] => ", no hint".to_string(),
        [hint] => format!(", hint {hint}"),
        _ => format!(", hints {}", cut(hints)),
    }
}

/// Groups as far as their counts are right; what is left over as it is.
fn told_groups(mut words: &[i32]) -> String {
    let mut told = String::new();
    while let [id, k, rest @ ..] = words {
        let parts = usize::try_from(*k)
            .ok()
            .and_then(|k| rest.split_at_checked(k));
        let Some((hints, behind)) = parts else {
            break;
        };
        told += &format!(", group {id}{}", told_hints(hints).replacen(',', ":", 1));
        words = behind;
    }
    match words {
        [] => told,
        _ => format!("{told}, then {}", cut(words)),
    }
}

/// What an accepted frame did.
pub fn accepted(frame: &Frame<'_>, answer: &Answer) -> String {
    match frame {
        Frame::Add { id, .. } => format!("accepted: clause {id} is irredundant"),
        Frame::Learn { id, .. } => format!("accepted: clause {id} is learned"),
        Frame::Forget { id } | Frame::Drop { id, .. } => format!("accepted: clause {id} is gone"),
        Frame::Promote { id } => format!("accepted: clause {id} is irredundant now"),
        Frame::Weaken { id, .. } => format!("accepted: clause {id} is on top of the stack"),
        Frame::Restore { id } => format!("accepted: clause {id} is irredundant again"),
        Frame::Sat { .. } => {
            let changed = match answer.detail {
                0 => "nothing mended".to_string(),
                changed => format!("{} mended", count(changed as usize, "variable")),
            };
            let model = match answer.model.as_slice() {
                [] => "no variable is true".to_string(),
                model => format!("the model is {}", cut(model)),
            };
            format!("accepted: {changed}, {model}")
        }
        Frame::Unsat { assumptions, .. } => match assumptions {
            [] => "accepted: the added clauses have no model".to_string(),
            _ => "accepted: the added clauses have no model under these assumptions".to_string(),
        },
    }
}

#[cfg(test)]
mod tests {
    use super::*;

    fn told(words: &[i32]) -> String {
        let mut held = Held::default();
        held.accept(&Frame::read(&[1, 1, 1, 2]).expect("a frame"));
        frame(&Frame::read(words).expect("a frame"), &held)
    }

    #[test]
    fn every_frame_has_words() {
        for (words, expected) in [
            (&[1, 4, 1, -3][..], "ADD 4 (1 -3)"),
            (&[2, 3, 1, 1, 1, 2], "LEARN 3 (1), hints 1 2"),
            (&[2, 3, 1, 1], "LEARN 3 (1), no hint"),
            (&[3, 7], "FORGET 7"),
            (&[4, 1], "PROMOTE 1 (1 2)"),
            (&[5, 1, 3], "DROP 1 (1 2), hint 3"),
            (
                &[6, 1, 1, 1, 2, 1, 3, 4, 2, 5, 6, 8, 0],
                "WEAKEN 1 (1 2), witness (1), group 2: hint 3, group 4: hints 5 6, group 8: no hint",
            ),
            (&[6, 1, 1, 1, 2, 9], "WEAKEN 1 (1 2), witness (1), then 2 9"),
            (&[7, 1], "RESTORE 1 (1 2)"),
            (&[8, 0], "SAT, none true"),
            (&[8, 1, -1, 2, 3], "SAT assuming -1, true 2 3"),
            (&[9, 1, 2, 1, 2], "UNSAT assuming 2, hints 1 2"),
            (&[9, 0], "UNSAT, no hint"),
        ] {
            assert_eq!(told(words), expected);
        }
    }

    #[test]
    fn a_model_is_told() {
        let answer = |detail, model: &[i32]| Answer {
            code: 0,
            detail,
            model: model.to_vec(),
        };
        let sat = Frame::read(&[8, 0]).expect("a frame");
        assert_eq!(
            accepted(&sat, &answer(1, &[2, 3])),
            "accepted: 1 variable mended, the model is 2 3"
        );
        assert_eq!(
            accepted(&sat, &answer(0, &[])),
            "accepted: nothing mended, no variable is true"
        );
    }
}
