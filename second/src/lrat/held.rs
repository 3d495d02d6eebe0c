//! The clauses held, within the lent sizes: "Room of clauses .. that went is used again".

use super::refusal::Refusal;
use std::collections::HashMap;

pub struct Held {
    entries: usize,
    words: usize,
    clauses: HashMap<i64, Vec<i32>>,
    /// How many literals they have together.
    literals: usize,
}

impl Held {
    pub fn within(entries: usize, words: usize) -> Held {
        Held {
            entries,
            words,
            clauses: HashMap::with_capacity(entries),
            literals: 0,
        }
    }

    /// Whether there is room for another clause of so many literals: "12, then 13".
    pub fn has_room(&self, literals: usize) -> Result<(), Refusal> {
        if self.clauses.len() == self.entries {
            return Err(Refusal::Entries);
        }
        if self.literals + literals > self.words {
            return Err(Refusal::Words);
        }
        Ok(())
    }

    /// Holds a clause that there is room for, under an id that is not held.
    pub fn keep(&mut self, id: i64, clause: Vec<i32>) {
        self.literals += clause.len();
        self.clauses.insert(id, clause);
    }

    /// Lets a clause go, if it is held.
    pub fn delete(&mut self, id: i64) -> Result<(), Refusal> {
        let clause = self.clauses.remove(&id).ok_or(Refusal::NotHeld)?;
        self.literals -= clause.len();
        Ok(())
    }

    pub fn find(&self, id: i64) -> Option<&[i32]> {
        self.clauses.get(&id).map(Vec::as_slice)
    }
}
