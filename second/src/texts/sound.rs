//! Classes of sound texts.

use super::field::FIELDS;
use super::layout::{any_style, lay, Style, COMMENTED, CR, CRLF, FREE, PLAIN};
use super::rules::{Draft, Rules};
use crate::random::Random;
use crate::terms::MOST_VARIABLES;

/// Rules in any style.
pub fn written(rules: &Rules, random: &mut Random) -> Vec<u8> {
    lay(&Draft::of(rules).marks(), any_style(random), random)
}

fn laid(style: &Style, random: &mut Random) -> Vec<u8> {
    let mut draft = Draft::of(&Rules::any(random));
    if random.one_in(4) {
        draft.pad(random);
    }
    lay(&draft.marks(), style, random)
}

pub fn plain(_: u64, random: &mut Random) -> Vec<u8> {
    let draft = Draft::of(&Rules::any(random));
    lay(&draft.marks(), &PLAIN, random)
}

pub fn free(_: u64, random: &mut Random) -> Vec<u8> {
    laid(&FREE, random)
}

pub fn crlf(_: u64, random: &mut Random) -> Vec<u8> {
    let style = [&CRLF, &CR][random.below(2)];
    laid(style, random)
}

pub fn comments(_: u64, random: &mut Random) -> Vec<u8> {
    let text = laid(&COMMENTED, random);
    if !random.one_in(16) {
        return text;
    }
    // A comment of more bytes than 16 bits count.
    let long = b" p cnf 1 1 \r".repeat(random.between(5_500, 6_500));
    [b"c", &long[..], b"\n", &text].concat()
}

/// Hundreds of clauses, some of them long.
pub fn large(_: u64, random: &mut Random) -> Vec<u8> {
    let (clauses, longest) = match random.below(3) {
        0 => (random.between(40, 90), 256),
        _ => (random.between(200, 1_500), 6),
    };
    let vars = random.between(300, MOST_VARIABLES as usize) as i32;
    let draft = Draft::of(&Rules::drawn(vars, clauses, 1, longest, random));
    let style = [&PLAIN, &FREE, &CRLF, &COMMENTED][random.below(4)];
    lay(&draft.marks(), style, random)
}

/// Small CNFs of the field.
pub fn field(_: u64, random: &mut Random) -> Vec<u8> {
    let field = &FIELDS[random.below(FIELDS.len())];
    let size = random.between(1, field.usual / 4);
    let style = [&PLAIN, &CRLF, &COMMENTED][random.below(3)];
    lay(&Draft::of(&field.rules(size)).marks(), style, random)
}

/// Clauses that are more than 8 bits count, or 16, and as many as declared but for those bits. A
/// variable comes again when a count of so many bits does.
pub fn many_clauses(_: u64, random: &mut Random) -> Vec<u8> {
    let round = match random.below(8) {
        0 => 1 << 16,
        _ => 1 << 8,
    };
    let clauses = round * random.between(1, 2) + random.between(1, 40);
    let declared = match random.below(4) {
        0 => clauses - round,
        1 => clauses + round,
        _ => clauses,
    };
    let mut text = format!("p cnf 9 {declared}\n").into_bytes();
    let shift = random.below(40);
    for clause in 0..clauses {
        if clause % round == shift {
            text.extend(b"5 -7 ");
        }
        text.extend(if clause % 16 == 0 { b"0\n" } else { b"0 " });
    }
    text
}
