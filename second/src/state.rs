//! A state as plain data: V, the highest id, the three places and the lent sizes.

use std::collections::BTreeMap;

/// Clauses by rising id, each with its literals in the order they came.
pub type Place = BTreeMap<i32, Vec<i32>>;

/// "A record is a clause and its witness".
#[derive(Clone, Debug, PartialEq, Eq)]
pub struct Record {
    pub id: i32,
    pub clause: Vec<i32>,
    pub witness: Vec<i32>,
}

/// Everything that answers depend on.
#[derive(Clone, Debug, PartialEq, Eq)]
pub struct State {
    pub vars: i32,
    /// The highest id accepted since opening.
    pub highest: i32,
    pub irredundant: Place,
    pub learned: Place,
    /// From bottom to top.
    pub stack: Vec<Record>,
    /// How many clauses may be held.
    pub entries: usize,
    /// How many literals and witness literals may be held.
    pub words: usize,
}

impl State {
    /// "an empty state with highest id 0"
    pub fn empty(vars: i32, entries: usize, words: usize) -> State {
        State {
            vars,
            highest: 0,
            irredundant: Place::new(),
            learned: Place::new(),
            stack: Vec::new(),
            entries,
            words,
        }
    }

    /// The clause of an id, in whichever of the three places it is.
    pub fn find(&self, id: i32) -> Option<&[i32]> {
        let clause = self.irredundant.get(&id).or_else(|| self.learned.get(&id));
        clause.map(Vec::as_slice).or_else(|| self.find_stacked(id))
    }

    /// The clause of an id, if it is stacked.
    pub fn find_stacked(&self, id: i32) -> Option<&[i32]> {
        let record = self.stack.iter().find(|record| record.id == id);
        record.map(|record| record.clause.as_slice())
    }

    /// How many clauses the three places hold.
    pub fn clauses(&self) -> usize {
        self.irredundant.len() + self.learned.len() + self.stack.len()
    }

    /// How many literals and witness literals are held.
    pub fn held_words(&self) -> usize {
        let places = self.irredundant.values().chain(self.learned.values());
        let records = self.stack.iter();
        places.map(Vec::len).sum::<usize>()
            + records
                .map(|record| record.clause.len() + record.witness.len())
                .sum::<usize>()
    }
}
