//! What a caller lends and carries.

use crate::terms::MOST_ENTRIES;

/// The place of an irredundant clause; any number above `STACKED` is no place.
pub const IRREDUNDANT: u32 = 0;
pub const LEARNED: u32 = 1;
pub const STACKED: u32 = 2;

/// "An assignment ... is held by value as 32 words of 64 bits", and so is the model buffer.
pub const MODEL_WORDS: usize = 32;

/// "The entry of a clause says its place and where its literals lie." The `witness` literals
/// of a stacked clause follow its own.
#[derive(Clone, Copy, Debug, Default, PartialEq, Eq)]
pub struct Entry {
    pub id: u32,
    pub place: u32,
    pub start: u32,
    pub length: u32,
    pub witness: u32,
}

impl Entry {
    /// How many words the entry takes of the pool.
    pub fn words(&self) -> u64 {
        u64::from(self.length) + u64::from(self.witness)
    }
}

/// "V, the highest id accepted and whatever else the caller holds": how many entries are held,
/// at the front of the table; how many literals and witness literals they have; how many ids of
/// `stack`, from bottom to top, are the stack's.
#[derive(Clone, Debug, PartialEq, Eq)]
pub struct Carried {
    pub vars: u32,
    pub highest: u32,
    pub count: u32,
    pub words: u32,
    pub depth: u32,
    pub stack: [u32; MOST_ENTRIES],
}

/// All that a call is lent, except for the frame and the model buffer.
#[derive(Clone, Debug, PartialEq, Eq)]
pub struct Tables {
    pub entries: Vec<Entry>,
    pub pool: Vec<i32>,
    pub carried: Carried,
}
