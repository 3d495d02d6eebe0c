//! Classes of texts with one fault, or sound right beside it.

use super::layout::{any_comment, any_style, lay, Mark};
use super::pen::Pen;
use super::plant::{follows, planted, planted_into};
use super::rules::{Draft, Rules, CLAUSES, VARIABLES};
use super::words::{any_no_cnf, any_no_number, any_other_count, any_variable_count, any_word};
use crate::dimacs::Kind;
use crate::random::Random;
use crate::terms::{MOST_LITERALS, MOST_VARIABLES};

fn laid(draft: Draft, random: &mut Random) -> Vec<u8> {
    lay(&draft.marks(), any_style(random), random)
}

pub fn no_problem_line(_: u64, random: &mut Random) -> Vec<u8> {
    let mut draft = Draft::of(&Rules::any(random));
    match random.below(4) {
        0 => draft.problem.clear(),
        1 => draft.problem[0] = any_word(random),
        2 => draft.problem.insert(0, any_word(random)),
        _ => draft.before.push(Mark::Word(any_word(random))),
    }
    laid(draft, random)
}

/// Nothing but blanks and comments, or hardly more.
pub fn empty(_: u64, random: &mut Random) -> Vec<u8> {
    let mut text = Vec::new();
    for _ in 0..random.below(6) {
        match random.below(3) {
            0 => text.extend([any_comment(random), b"\n".to_vec()].concat()),
            _ => text.push(b" \t\r\n"[random.below(4)]),
        }
    }
    let is_line_begun = matches!(text.last(), None | Some(b'\n'));
    match random.below(8) {
        0 if is_line_begun => text.extend(any_comment(random)),
        1 => text.extend(b"p"),
        2 => text.extend(b" c"),
        3 => text.extend(b"p cnf 3 0"),
        _ => {}
    }
    text
}

pub fn second_problem_line(_: u64, random: &mut Random) -> Vec<u8> {
    planted(&[Kind::SecondProblemLine], random)
}

pub fn malformed(_: u64, random: &mut Random) -> Vec<u8> {
    planted(&[Kind::Malformed], random)
}

pub fn past_count(_: u64, random: &mut Random) -> Vec<u8> {
    planted(&[Kind::PastCount], random)
}

pub fn variable_twice(_: u64, random: &mut Random) -> Vec<u8> {
    planted(&[Kind::VariableTwice], random)
}

/// Problem lines in every shape, right ones too.
pub fn problem_lines(_: u64, random: &mut Random) -> Vec<u8> {
    let mut draft = Draft::of(&Rules::any(random));
    let place = random.between(1, 3);
    match random.below(9) {
        0 => draft.problem.truncate(place),
        1 => {
            draft.problem.truncate(place);
            draft.clauses.clear();
        }
        2 => draft.problem[place] = any_no_number(random),
        7 => draft.problem[1] = any_no_cnf(random),
        3 => {
            let sign = ["-", "+"][random.below(2)].as_bytes();
            let count = &mut draft.problem[place.max(VARIABLES)];
            *count = [sign, count].concat();
        }
        4 => draft.problem.push(any_word(random)),
        5 => break_line(&mut draft, place),
        6 => draft.problem.insert(place, b"p".to_vec()),
        _ => {}
    }
    laid(draft, random)
}

/// The words behind the break stand on a line of their own.
fn break_line(draft: &mut Draft, place: usize) {
    let behind = draft.problem.split_off(place);
    draft.clauses.insert(0, vec![Mark::Line(behind)]);
}

pub fn variable_counts(_: u64, random: &mut Random) -> Vec<u8> {
    let mut draft = Draft::of(&Rules::any(random));
    match random.below(4) {
        0 => draft = Draft::of(&Rules::drawn(1, random.below(4), 0, 1, random)),
        1 => draft.problem[VARIABLES] = MOST_VARIABLES.to_string().into_bytes(),
        _ => draft.problem[VARIABLES] = any_variable_count(random),
    }
    laid(draft, random)
}

pub fn clause_counts(_: u64, random: &mut Random) -> Vec<u8> {
    let mut draft = Draft::of(&Rules::any(random));
    let clauses = draft.clauses.len();
    if !random.one_in(5) {
        draft.problem[CLAUSES] = any_other_count(clauses, random);
    }
    laid(draft, random)
}

/// The last clause unclosed, or closed in a comment alone.
pub fn unclosed(_: u64, random: &mut Random) -> Vec<u8> {
    let mut draft = Draft::of(&Rules::any(random));
    if let Some(last) = draft.clauses.last_mut() {
        last.pop();
    }
    match random.below(3) {
        0 => {
            let clauses = draft.clauses.len();
            draft.problem[CLAUSES] = any_other_count(clauses, random);
        }
        1 => draft.problem[CLAUSES] = draft.clauses.len().saturating_sub(1).to_string().into(),
        _ => {}
    }
    laid(draft, random)
}

/// Clauses of 0, 1, 255, 256, 257 and more literals, some with another fault behind them.
pub fn long_clauses(_: u64, random: &mut Random) -> Vec<u8> {
    const FAULTS: [Kind; 4] = [
        Kind::SecondProblemLine,
        Kind::Malformed,
        Kind::PastCount,
        Kind::VariableTwice,
    ];
    let rules = Rules::with_room(random);
    let mut draft = Draft::of(&rules);
    let place = random.below(draft.clauses.len());
    let most = MOST_LITERALS;
    let lengths = [
        0,
        1,
        most - 1,
        most,
        most,
        most,
        most + 1,
        most + 2,
        300,
        500,
    ];
    let length = lengths[random.below(lengths.len())];
    let fault = FAULTS.get(random.below(2 * FAULTS.len()));
    let mut pen = Pen::new(rules.vars, random);
    (0..length).for_each(|_| pen.literal());
    if let Some(&kind) = fault {
        pen.fault(kind);
    }
    draft.clauses[place] = pen.close();
    laid(draft, random)
}

/// A fault near the end of a large text: where positions take more than 16 bits, too.
pub fn deep_faults(_: u64, random: &mut Random) -> Vec<u8> {
    let clauses = match random.below(8) {
        0 => random.between(4_000, 8_000),
        _ => random.between(100, 900),
    };
    let vars = random.between(2 * MOST_LITERALS, MOST_VARIABLES as usize);
    let rules = Rules::drawn(vars as i32, clauses, 1, 5, random);
    let kinds: Vec<Kind> = Kind::ALL
        .into_iter()
        .filter(|&kind| follows(Kind::SecondProblemLine, kind))
        .collect();
    let kind = kinds[random.below(kinds.len())];
    planted_into(&rules, &[kind], clauses - random.between(1, 5), random)
}
