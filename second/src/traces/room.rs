//! Codes 12 and 13: tables filled to the last entry and the last word, freed and filled again.

use super::author::Author;
use super::moves::any_word;
use crate::frames::{add, drop_clause, forget, learn, restore, sat, weaken};
use crate::terms::MOST_LITERALS;

/// A clause that fills up: every variable has one sign in all of them, so that each is clean
/// and can be weakened with any witness of its own literals and without groups.
fn filler(author: &mut Author<'_>, length: usize) -> Vec<i32> {
    let odd_is_negative = |literal: &i32| match literal.abs() {
        odd if odd % 2 == 1 => -odd,
        even => even,
    };
    author
        .literals(length)
        .iter()
        .map(odd_is_negative)
        .collect()
}

fn add_filler(author: &mut Author<'_>, length: usize) -> (i32, Vec<i32>) {
    let clause = filler(author, length);
    let id = author.new_id();
    author.say(&add(id, &clause));
    (id, clause)
}

/// Says frames that need an entry or words while the tables are full, at fault elsewhere too.
fn press(author: &mut Author<'_>) {
    for _ in 0..6 {
        let length = author.random.below(4);
        let clause = filler(author, length);
        let opposite: Vec<i32> = clause.iter().map(|literal| -literal).collect();
        let id = author.new_id();
        let old = author.random.between(1, author.state().highest as usize) as i32;
        let hint = any_word(&mut author.random);
        let frame = match author.random.below(5) {
            0 => add(id, &clause),
            1 => add(id, &opposite),
            2 => learn(id, &clause, &[hint]),
            3 => learn(old, &clause, &[hint]),
            _ => weaken(old, &clause, &[(hint, vec![])]),
        };
        author.say(&frame);
    }
}

/// Fills all entries, a few of them learned and stacked, with clauses of one length.
pub fn entries(author: &mut Author<'_>) {
    let length = author.random.below(9);
    let (first, clause) = add_filler(author, length);
    let mut learned = Vec::new();
    let mut stacked = Vec::new();
    while author.state().clauses() < author.state().entries {
        match author.random.below(10) {
            0 => {
                let id = author.new_id();
                author.say(&learn(id, &clause, &[first]));
                learned.push(id);
            }
            1 if length > 0 && length < 8 => {
                let (id, clause) = add_filler(author, length);
                author.say(&weaken(id, &clause[..1], &[]));
                stacked.push(id);
            }
            _ => drop(add_filler(author, length)),
        }
    }
    press(author);
    for round in 0..4 {
        let freed = match (round % 2, learned.pop()) {
            (0, Some(id)) => forget(id),
            _ => restore(stacked.pop().unwrap_or(first)),
        };
        author.say(&freed);
        press(author);
        add_filler(author, length);
        press(author);
    }
}

/// Fills all words, mostly with the longest clauses; the last one fits to the word.
pub fn words(author: &mut Author<'_>) {
    let mut ids = fill_words(author);
    author.say(&sat(&[], &[]));
    for _ in 0..6 {
        press(author);
        press_words(author, &ids);
        let twin = free_words(author, &ids);
        press_words(author, &ids);
        author.say(&restore(twin));
        ids.extend(fill_words(author));
    }
}

fn fill_words(author: &mut Author<'_>) -> Vec<(i32, Vec<i32>)> {
    let mut added = Vec::new();
    let mut left = author.state().words - author.state().held_words();
    while left > 0 {
        let longest = left.min(MOST_LITERALS);
        let length = if author.random.one_in(3) {
            author.random.between(1, longest)
        } else {
            longest
        };
        added.push(add_filler(author, length));
        left -= length;
    }
    added
}

/// WEAKEN where words do not suffice: 6 comes before 13, and 13 before the groups. An empty
/// clause fits nevertheless.
fn press_words(author: &mut Author<'_>, ids: &[(i32, Vec<i32>)]) {
    let (id, clause) = &ids[author.random.below(ids.len())];
    let length = author.random.between(1, clause.len());
    let opposite: Vec<i32> = clause[..length].iter().map(|literal| -literal).collect();
    author.say(&weaken(*id, &opposite, &[]));
    let foreign = any_word(&mut author.random);
    author.say(&weaken(*id, &clause[..length], &[(foreign, vec![])]));
    author.say(&weaken(*id, &clause[..length], &[]));
    let new = author.new_id();
    author.say(&add(new, &[]));
    author.say(&drop_clause(new, &[]));
}

/// Frees the words of a clause, which follows from an empty one, and fills them again in part
/// by another clause, its id handed back, and in part by its witness.
fn free_words(author: &mut Author<'_>, ids: &[(i32, Vec<i32>)]) -> i32 {
    let (id, clause) = &ids[author.random.below(ids.len())];
    let empty = author.new_id();
    author.say(&learn(empty, &[], &[*id]));
    author.say(&add(empty, &[]));
    author.say(&drop_clause(*id, &[empty]));
    let (new, same) = (author.new_id(), clause.len());
    let shorter = author.random.between(0, same);
    let refilled = filler(author, shorter);
    author.say(&add(new, &refilled));
    if shorter > 0 {
        author.say(&weaken(new, &refilled, &[]));
        author.say(&weaken(new, &refilled[..1], &[]));
    }
    new
}
