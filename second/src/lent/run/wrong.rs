//! Tables that are mostly no state, drawn from those of the history.

use super::History;
use crate::lent::damage::DAMAGES;
use crate::lent::reading::state_of;
use crate::lent::tables::Tables;
use crate::random::Random;
use crate::terms::{MOST_ENTRIES, MOST_WORDS};

/// Sizes out of range.
pub(super) const SIZES: [&str; 4] = [
    "no entries",
    "too many entries",
    "no words",
    "too many words",
];

impl History<'_> {
    /// Tables to hand to a call of a name: with one of the named damages, if they can have it, with
    /// sizes out of range, or with some words changed.
    pub(super) fn wrong_tables(&mut self, call: &'static str) -> Option<Tables> {
        let (name, tables) = match self.random.below(8) {
            0..=5 => self.damaged()?,
            6 => {
                let name = SIZES[self.random.below(SIZES.len())];
                (name, self.resized(name))
            }
            _ => self.with_any_words(),
        };
        self.tally.wrong(call, name);
        Some(tables)
    }

    fn damaged(&mut self) -> Option<(&'static str, Tables)> {
        let mut tables = self.tables.clone();
        let (name, damage) = DAMAGES[self.random.below(DAMAGES.len())];
        damage(&mut tables, &mut self.random)?;
        Some((name, tables))
    }

    /// Some words changed to others; what comes out may well be a state.
    fn with_any_words(&mut self) -> (&'static str, Tables) {
        let mut tables = self.tables.clone();
        for _ in 0..self.random.between(1, 3) {
            change_any_word(&mut tables, &mut self.random);
        }
        let is_state = state_of(&tables.entries, &tables.pool, &tables.carried).is_some();
        let name = if is_state {
            "any words, and a state"
        } else {
            "any words, and no state"
        };
        (name, tables)
    }

    /// The tables with sizes out of range. What is held is still held where the table grows; where
    /// nothing is lent, now and then nothing is held, and only the size is wrong.
    pub(super) fn resized(&mut self, kind: &str) -> Tables {
        let mut tables = self.tables.clone();
        let more = self.random.between(1, 3);
        if kind.starts_with("no ") && self.random.one_in(2) {
            let carried = &mut tables.carried;
            (carried.count, carried.words, carried.depth) = (0, 0, 0);
        }
        match kind {
            "no entries" => tables.entries.clear(),
            "too many entries" => tables
                .entries
                .resize(MOST_ENTRIES + more, Default::default()),
            "no words" => tables.pool.clear(),
            _ => tables.pool.resize(MOST_WORDS + more, 1),
        }
        tables
    }
}

/// One word of the entries, the pool or what is carried becomes another near it, or any.
fn change_any_word(tables: &mut Tables, random: &mut Random) {
    let held = (tables.carried.count as usize).clamp(1, tables.entries.len());
    let entry = &mut tables.entries[random.below(held)];
    let carried = &mut tables.carried;
    let words: [&mut u32; 11] = [
        &mut entry.id,
        &mut entry.place,
        &mut entry.start,
        &mut entry.length,
        &mut entry.witness,
        &mut carried.vars,
        &mut carried.highest,
        &mut carried.count,
        &mut carried.words,
        &mut carried.depth,
        &mut carried.stack[random.below(8)],
    ];
    let which = random.below(words.len() + 3);
    if let Some(word) = words.into_iter().nth(which) {
        *word = changed(*word, random);
    } else {
        let word = random.below(tables.pool.len());
        tables.pool[word] = changed(tables.pool[word] as u32, random) as i32;
    }
}

fn changed(word: u32, random: &mut Random) -> u32 {
    match random.below(4) {
        0 => word.wrapping_add(1),
        1 => word.wrapping_sub(1),
        2 => random.below(5) as u32,
        _ => random.draw() as u32,
    }
}
