//! What is held: replayed from the frames that the program accepted.
//!
//! Nothing here is asked whether a frame is right. It only says which clause an id names.

use crate::frame::Frame;
use crate::lists::{clause, count};
use crate::literals::{ENTRIES, WORDS};
use std::collections::BTreeMap;

/// The three places of docs/FORMAT.md.
#[derive(Clone, Copy, Debug, PartialEq, Eq)]
pub enum Place {
    Irredundant,
    Learned,
    Stacked,
}

impl Place {
    pub fn name(self) -> &'static str {
        match self {
            Place::Irredundant => "irredundant",
            Place::Learned => "learned",
            Place::Stacked => "stacked",
        }
    }
}

#[derive(Clone, Debug, PartialEq, Eq)]
pub struct Record {
    pub id: i32,
    pub clause: Vec<i32>,
    pub witness: Vec<i32>,
}

impl Record {
    /// Clause and witness.
    pub fn told(&self) -> String {
        format!("{} witness {}", clause(&self.clause), clause(&self.witness))
    }
}

#[derive(Debug, Default)]
pub struct Held {
    /// The highest id accepted.
    pub highest: i32,
    /// By rising id.
    pub irredundant: BTreeMap<i32, Vec<i32>>,
    pub learned: BTreeMap<i32, Vec<i32>>,
    /// From bottom to top.
    pub stack: Vec<Record>,
}

impl Held {
    /// Does what an accepted frame does.
    pub fn accept(&mut self, frame: &Frame<'_>) {
        match *frame {
            Frame::Add { id, clause } => {
                self.highest = id;
                self.irredundant.insert(id, clause.to_vec());
            }
            Frame::Learn { id, clause, .. } => {
                self.highest = id;
                self.learned.insert(id, clause.to_vec());
            }
            Frame::Forget { id } => drop(self.learned.remove(&id)),
            Frame::Drop { id, .. } => drop(self.irredundant.remove(&id)),
            Frame::Promote { id } => {
                let promoted = self.learned.remove(&id);
                self.irredundant.extend(promoted.map(|clause| (id, clause)));
            }
            Frame::Weaken { id, witness, .. } => {
                let weakened = self.irredundant.remove(&id);
                self.stack.extend(weakened.map(|clause| Record {
                    id,
                    clause,
                    witness: witness.to_vec(),
                }));
            }
            Frame::Restore { id } => {
                if let Some(place) = self.stack.iter().rposition(|record| record.id == id) {
                    let record = self.stack.remove(place);
                    self.irredundant.insert(id, record.clause);
                }
            }
            Frame::Sat { .. } | Frame::Unsat { .. } => {}
        }
    }

    /// Where a clause stands, and its literals.
    pub fn find(&self, id: i32) -> Option<(Place, &[i32])> {
        let irredundant = self.irredundant.get(&id);
        let learned = self.learned.get(&id);
        let found = irredundant.map(|clause| (Place::Irredundant, clause.as_slice()));
        let found = found.or(learned.map(|clause| (Place::Learned, clause.as_slice())));
        found.or_else(|| {
            let record = self.record(id)?;
            Some((Place::Stacked, record.clause.as_slice()))
        })
    }

    pub fn record(&self, id: i32) -> Option<&Record> {
        self.stack.iter().rev().find(|record| record.id == id)
    }

    /// How many clauses the three places hold.
    pub fn clauses(&self) -> usize {
        self.irredundant.len() + self.learned.len() + self.stack.len()
    }

    /// How many literals and witness literals are held.
    pub fn words(&self) -> usize {
        let places = self.irredundant.values().chain(self.learned.values());
        let records = self.stack.iter();
        places.map(Vec::len).sum::<usize>()
            + records
                .map(|record| record.clause.len() + record.witness.len())
                .sum::<usize>()
    }

    /// How many clauses stand in each place.
    pub fn counts(&self) -> String {
        format!(
            "{} irredundant, {} learned, {} stacked",
            self.irredundant.len(),
            self.learned.len(),
            self.stack.len()
        )
    }

    /// Everything, a clause a line.
    pub fn told(&self, indent: &str) -> String {
        let mut told = format!(
            "{indent}held: {} of {ENTRIES} ({}), {} of {WORDS}, highest id {}\n",
            count(self.clauses(), "clause"),
            self.counts(),
            count(self.words(), "literal"),
            self.highest
        );
        let mut tell = |id: &i32, place: &str, literals: &str| {
            told += &format!("{indent}  {place} {id} {literals}\n");
        };
        for (id, literals) in &self.irredundant {
            tell(id, "irredundant", &clause(literals));
        }
        for (id, literals) in &self.learned {
            tell(id, "learned", &clause(literals));
        }
        for (depth, record) in self.stack.iter().rev().enumerate() {
            let top = if depth == 0 { ", the top" } else { "" };
            tell(&record.id, "stacked", &(record.told() + top));
        }
        told
    }
}

#[cfg(test)]
mod tests {
    use super::*;

    fn held(frames: &[&[i32]]) -> Held {
        let mut held = Held::default();
        for frame in frames {
            held.accept(&Frame::read(frame).expect("a frame"));
        }
        held
    }

    #[test]
    fn accepted_frames_move_clauses() {
        let held = held(&[
            &[1, 1, 1, 3],
            &[1, 2, 2, -3],
            &[2, 3, 2, 1, 2, 1, 2],
            &[4, 3],
            &[6, 1, 1, 3, 2, 1, 3],
            &[6, 2, 1, -3],
            &[7, 2],
            &[2, 9, 1, 5, 1],
            &[3, 9],
            &[2, 10, 1, 5, 1],
        ]);
        assert_eq!(held.find(1), Some((Place::Stacked, &[1, 3][..])));
        assert_eq!(held.find(2), Some((Place::Irredundant, &[2, -3][..])));
        assert_eq!(held.find(3), Some((Place::Irredundant, &[1, 2][..])));
        assert_eq!(held.find(9), None);
        assert_eq!(
            held.told("  "),
            "  held: 4 clauses of 1024 (2 irredundant, 1 learned, 1 stacked), 8 literals of 8192, highest id 10\n\
             \x20   irredundant 2 (2 -3)\n\
             \x20   irredundant 3 (1 2)\n\
             \x20   learned 10 (5)\n\
             \x20   stacked 1 (1 3) witness (3), the top\n"
        );
    }

    #[test]
    fn what_cannot_be_followed_is_left() {
        let held = held(&[&[3, 1], &[4, 1], &[5, 1], &[6, 1, 1, 1], &[7, 1]]);
        assert_eq!(held.clauses(), 0);
    }
}
