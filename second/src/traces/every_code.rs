//! One short trace in which every operation gives every code that it can: document 01's whole
//! example first, then what the example does not reach. The same bytes every time, so that they
//! can lie in the repository beside their answers.

use super::author::Author;
use crate::frames::{add, drop_clause, forget, learn, promote, restore, sat, unsat, weaken};
use crate::lines::opened;
use crate::terms::MOST_LITERALS;

pub fn every_code() -> Vec<u8> {
    let mut checker = opened();
    let mut author = Author::new(&mut checker, 0);
    example(&mut author);
    counts(&mut author);
    literals(&mut author);
    places(&mut author);
    proofs(&mut author);
    stack(&mut author);
    stacked_hints(&mut author);
    fill_words(&mut author);
    fill_entries(&mut author);
    author.write_raw(b"0000000800000000");
    author.into_lines()
}

fn say_all(author: &mut Author<'_>, frames: &[Vec<i32>]) {
    for frame in frames {
        author.say(frame);
    }
}

/// The id after the highest.
fn next(author: &Author<'_>) -> i32 {
    author.state().highest + 1
}

/// Leaves the clauses 1 (1 2) and 2 (-1).
fn example(author: &mut Author<'_>) {
    let frames = [
        add(1, &[1, 2]),
        weaken(1, &[1], &[]),
        sat(&[], &[]),
        add(2, &[-1]),
        restore(1),
        add(2, &[-1]),
    ];
    say_all(author, &frames);
}

/// Code 2, by lines that are no frames and by frames that are too short or too long.
fn counts(author: &mut Author<'_>) {
    author.write_raw(b"\n");
    author.write_raw(b"000000080000000A\n");
    author.write_raw(b"00000008 00000000\n");
    author.write_raw(b"000000080000000\n");
    for operation in 0..=10 {
        author.say(&[operation]);
        author.say(&[operation, -1]);
    }
    say_all(author, &[vec![3, 1, 1], vec![4, 1, 1], vec![7, 1, 1]]);
    say_all(author, &[vec![2, 3, 2, 5], vec![6, 1, 0], vec![9, 1]]);
}

/// Code 3, in every list of literals.
fn literals(author: &mut Author<'_>) {
    let frames = [
        add(3, &[3, 0]),
        add(3, &[3, i32::MIN]),
        add(3, &[3, 4, -3]),
        learn(3, &[2_049], &[]),
        weaken(1, &[1, 2, 1], &[]),
        sat(&[0], &[]),
        sat(&[1], &[5, 4]),
        sat(&[], &[2_048, 2_049]),
        unsat(&[1, -2_049], &[]),
    ];
    say_all(author, &frames);
}

/// Code 4, in every operation that names a clause.
fn places(author: &mut Author<'_>) {
    let frames = [
        add(2, &[5]),
        learn(1, &[5], &[]),
        forget(1),
        promote(1),
        drop_clause(9, &[]),
        weaken(9, &[1], &[]),
        restore(2),
    ];
    say_all(author, &frames);
}

/// Codes 7 and 8, and what is accepted, in every operation with hints but WEAKEN.
fn proofs(author: &mut Author<'_>) {
    let frames = [
        learn(3, &[2], &[1]),
        learn(3, &[2], &[1, 9]),
        learn(3, &[2], &[2, 1]),
        learn(4, &[2, 6], &[3]),
        forget(4),
        unsat(&[-2], &[1]),
        unsat(&[-2], &[1, 1]),
        unsat(&[-2], &[3]),
        unsat(&[4, -4], &[]),
        drop_clause(1, &[3]),
        promote(3),
        drop_clause(3, &[2]),
        drop_clause(3, &[3]),
        drop_clause(3, &[2, 1]),
    ];
    say_all(author, &frames);
}

/// The stack: groups, cleanness, mending. Leaves (11 13) and (12 -13) stacked, and the clause
/// (11 12).
fn stack(author: &mut Author<'_>) {
    let one = next(author);
    let (other, both) = (one + 1, one + 2);
    let frames = [
        add(one, &[11, 13]),
        add(other, &[12, -13]),
        learn(both, &[11, 12], &[one, other]),
        promote(both),
        weaken(one, &[12], &[]),
        weaken(one, &[13], &[]),
        weaken(one, &[13], &[(both, vec![])]),
        weaken(one, &[13], &[(other, vec![])]),
        weaken(one, &[13], &[(other, vec![one])]),
        weaken(one, &[13], &[(other, vec![both])]),
        weaken(other, &[-13], &[(1, vec![])]),
        weaken(other, &[-13], &[]),
        add(both + 1, &[-13]),
        restore(one),
        sat(&[], &[2, 12]),
        sat(&[-1, 2, 2], &[2, 11]),
        sat(&[-13], &[2, 12]),
        sat(&[3], &[2, 12]),
        sat(&[], &[]),
    ];
    say_all(author, &frames);
}

/// Stacked clauses as hints, and the same ones restored. Leaves the stack empty and the clauses
/// (11 13), (12 -13) and (11 -12 14).
fn stacked_hints(author: &mut Author<'_>) {
    let both = author.state().highest;
    let (one, other, learned, needing) = (both - 2, both - 1, both + 1, both + 2);
    let frames = [
        unsat(&[-11, -13], &[one]),
        learn(learned, &[11, 13], &[one]),
        forget(learned),
        unsat(&[-11, -13], &[learned]),
        drop_clause(both, &[one, other]),
        add(needing, &[11, -12, 14]),
        weaken(both, &[12], &[(needing, vec![one, other])]),
        restore(other),
        restore(one),
        unsat(&[-11, -13], &[one]),
        drop_clause(both, &[one, other]),
    ];
    say_all(author, &frames);
}

fn widest() -> Vec<i32> {
    (101..).take(MOST_LITERALS).collect()
}

/// Code 13: the widest clauses, and one that fits to the word.
fn fill_words(author: &mut Author<'_>) {
    let first = next(author);
    while author.state().held_words() < author.state().words {
        let left = author.state().words - author.state().held_words();
        let length = left.min(MOST_LITERALS);
        let id = next(author);
        author.say(&add(id, &widest()[..length]));
    }
    let id = next(author);
    let frames = [
        add(id, &[7]),
        learn(id, &widest(), &[first]),
        weaken(first, &[101], &[]),
    ];
    say_all(author, &frames);
}

/// Code 12: empty clauses take entries and no words. Then room that was freed is used again.
fn fill_entries(author: &mut Author<'_>) {
    let wide = author.state().highest;
    let empty = next(author);
    while author.state().clauses() < author.state().entries {
        let id = next(author);
        author.say(&add(id, &[]));
    }
    let id = next(author);
    let frames = [
        add(id, &[]),
        add(id, &[7]),
        learn(id, &[], &[empty]),
        unsat(&[], &[empty]),
        drop_clause(wide, &[empty]),
        learn(id, &[7], &[empty]),
        add(id + 1, &[]),
        forget(id),
        add(id + 1, &[7]),
    ];
    say_all(author, &frames);
}
