//! The nine frames, and why words are none of them.

use crate::lists::count;
use crate::literals::MOST_LITERALS;

const NAMES: [&str; 9] = [
    "ADD", "LEARN", "FORGET", "PROMOTE", "DROP", "WEAKEN", "RESTORE", "SAT", "UNSAT",
];

/// The name of an operation 1 to 9.
pub fn operation_name(operation: i32) -> Option<&'static str> {
    let row = usize::try_from(operation).ok()?.checked_sub(1)?;
    NAMES.get(row).copied()
}

/// A frame whose counts are right. Hints, groups and true variables run to its end.
#[derive(Clone, Copy, Debug, PartialEq, Eq)]
pub enum Frame<'f> {
    Add {
        id: i32,
        clause: &'f [i32],
    },
    Learn {
        id: i32,
        clause: &'f [i32],
        hints: &'f [i32],
    },
    Forget {
        id: i32,
    },
    Promote {
        id: i32,
    },
    Drop {
        id: i32,
        hints: &'f [i32],
    },
    Weaken {
        id: i32,
        witness: &'f [i32],
        groups: &'f [i32],
    },
    Restore {
        id: i32,
    },
    Sat {
        assumptions: &'f [i32],
        trues: &'f [i32],
    },
    Unsat {
        assumptions: &'f [i32],
        hints: &'f [i32],
    },
}

impl<'f> Frame<'f> {
    /// Reads words; where they are no frame, why.
    pub fn read(words: &'f [i32]) -> Result<Frame<'f>, String> {
        let Some(&operation) = words.first() else {
            return Err("empty".to_string());
        };
        match operation {
            8 | 9 => Frame::question(operation, words),
            1..=7 => Frame::about_a_clause(operation, words),
            _ => Err(format!("unknown operation {operation}")),
        }
    }

    /// SAT and UNSAT.
    fn question(operation: i32, words: &'f [i32]) -> Result<Frame<'f>, String> {
        let (assumptions, rest) = counted(words, 1, "a", 0)?;
        Ok(match operation {
            8 => Frame::Sat {
                assumptions,
                trues: rest,
            },
            _ => Frame::Unsat {
                assumptions,
                hints: rest,
            },
        })
    }

    /// The seven others have an id.
    fn about_a_clause(operation: i32, words: &'f [i32]) -> Result<Frame<'f>, String> {
        let exactly_two = matches!(operation, 3 | 4 | 7);
        if exactly_two && words.len() != 2 {
            return Err(format!("{}, not 2", has_words(words)));
        }
        let [_, id, rest @ ..] = words else {
            return Err(format!("{} and no id", has_words(words)));
        };
        let id = *id;
        if id <= 0 {
            return Err(format!("the id is not positive: {id}"));
        }
        match operation {
            1 => add(id, rest),
            2 => {
                counted(words, 2, "n", 0).map(|(clause, hints)| Frame::Learn { id, clause, hints })
            }
            3 => Ok(Frame::Forget { id }),
            4 => Ok(Frame::Promote { id }),
            5 => Ok(Frame::Drop { id, hints: rest }),
            6 => counted(words, 2, "w", 1).map(|(witness, groups)| Frame::Weaken {
                id,
                witness,
                groups,
            }),
            _ => Ok(Frame::Restore { id }),
        }
    }
}

fn add(id: i32, clause: &[i32]) -> Result<Frame<'_>, String> {
    if clause.len() > MOST_LITERALS {
        let literals = count(clause.len(), "literal");
        return Err(format!("ADD has {literals}, more than 256"));
    }
    Ok(Frame::Add { id, clause })
}

/// The list that the word at this place counts, and what is behind it.
fn counted<'f>(
    words: &'f [i32],
    at: usize,
    letter: &str,
    least: i32,
) -> Result<(&'f [i32], &'f [i32]), String> {
    let Some(&number) = words.get(at) else {
        return Err(format!("{} and no {letter}", has_words(words)));
    };
    if number < least {
        return Err(format!("{letter} is {number}, less than {least}"));
    }
    let length = number as usize;
    if length > MOST_LITERALS {
        return Err(format!("{letter} is {number}, more than 256"));
    }
    let behind = &words[at + 1..];
    behind.split_at_checked(length).ok_or_else(|| {
        let left = count(behind.len(), "word");
        format!("{letter} is {number}, past the end of the frame: {left} left")
    })
}

fn has_words(words: &[i32]) -> String {
    let name = words
        .first()
        .and_then(|&operation| operation_name(operation));
    let name = name.unwrap_or("the frame");
    format!("{name} has {}", count(words.len(), "word"))
}

#[cfg(test)]
mod tests {
    use super::*;

    #[test]
    fn frames_are_read() {
        assert_eq!(
            Frame::read(&[2, 3, 2, 1, -2, 7, 8]),
            Ok(Frame::Learn {
                id: 3,
                clause: &[1, -2],
                hints: &[7, 8]
            })
        );
        assert_eq!(
            Frame::read(&[6, 1, 1, 3, 2, 1, 3]),
            Ok(Frame::Weaken {
                id: 1,
                witness: &[3],
                groups: &[2, 1, 3]
            })
        );
        assert_eq!(
            Frame::read(&[8, 0]),
            Ok(Frame::Sat {
                assumptions: &[],
                trues: &[]
            })
        );
    }

    #[test]
    fn faults_have_words() {
        let many: Vec<i32> = [1, 1].into_iter().chain(1..=257).collect();
        for (words, told) in [
            (&[][..], "empty"),
            (&[10], "unknown operation 10"),
            (&[0, 1], "unknown operation 0"),
            (&[3, 1, 2], "FORGET has 3 words, not 2"),
            (&[7], "RESTORE has 1 word, not 2"),
            (&[1], "ADD has 1 word and no id"),
            (&[5, 0], "the id is not positive: 0"),
            (&[4, -3], "the id is not positive: -3"),
            (&[2, 1], "LEARN has 2 words and no n"),
            (&[9], "UNSAT has 1 word and no a"),
            (&[2, 1, 300], "n is 300, more than 256"),
            (&[2, 1, -1], "n is -1, less than 0"),
            (&[6, 1, 0, 1], "w is 0, less than 1"),
            (&[8, 2, 1], "a is 2, past the end of the frame: 1 word left"),
            (&many, "ADD has 257 literals, more than 256"),
        ] {
            assert_eq!(Frame::read(words), Err(told.to_string()));
        }
    }
}
