//! Texts with two faults: one behind the other, in every order that can be, and both at one place.

use super::layout::{any_style, lay, lay_open, Mark};
use super::pen::Pen;
use super::plant::{follows, planted};
use super::rules::{Draft, Rules, CLAUSES, VARIABLES};
use super::words::{any_no_number, any_other_count};
use crate::dimacs::Kind;
use crate::random::Random;

/// Every pair of faults that can stand one behind the other.
pub fn all_pairs() -> Vec<[Kind; 2]> {
    let behind = |first| Kind::ALL.map(|second| [first, second]);
    let pairs = Kind::ALL.into_iter().flat_map(behind);
    pairs
        .filter(|&[first, second]| follows(first, second))
        .collect()
}

/// Each pair in its turn, so that as many seeds as there are pairs have them all.
pub fn pairs(seed: u64, random: &mut Random) -> Vec<u8> {
    let pairs = all_pairs();
    planted(&pairs[(seed % pairs.len() as u64) as usize], random)
}

type OnePlace = fn(&mut Random) -> Vec<u8>;

/// Both faults at one place, and the one that the list's order, or a decided point, tells.
pub const ONE_PLACE: [(Kind, OnePlace); 13] = [
    (Kind::MissingProblemLine, no_line_and_malformed),
    (Kind::MissingProblemLine, no_line_and_no_word),
    (Kind::SecondProblemLine, second_line_and_malformed),
    (Kind::SecondProblemLine, second_line_and_too_long),
    (Kind::Malformed, cut_line_and_second_line),
    (Kind::Malformed, cut_line_and_no_word),
    (Kind::Malformed, malformed_and_past_count),
    (Kind::Malformed, malformed_and_variable_count),
    (Kind::Malformed, |random| {
        at_the_257th(Kind::Malformed, random)
    }),
    (Kind::PastCount, |random| {
        at_the_257th(Kind::PastCount, random)
    }),
    (Kind::VariableTwice, |random| {
        at_the_257th(Kind::VariableTwice, random)
    }),
    (Kind::Unclosed, unclosed_and_clause_count),
    (Kind::Unclosed, unclosed_and_too_many),
];

/// Each in its turn.
pub fn one_place(seed: u64, random: &mut Random) -> Vec<u8> {
    let (_, write) = ONE_PLACE[(seed % ONE_PLACE.len() as u64) as usize];
    write(random)
}

fn laid(draft: Draft, random: &mut Random) -> Vec<u8> {
    lay(&draft.marks(), any_style(random), random)
}

fn few(random: &mut Random) -> Draft {
    Draft::of(&Rules::few(random))
}

/// The word found instead of a problem line is malformed, too.
fn no_line_and_malformed(random: &mut Random) -> Vec<u8> {
    let mut draft = few(random);
    draft.before.push(Mark::Word(any_no_number(random)));
    laid(draft, random)
}

fn no_line_and_no_word(random: &mut Random) -> Vec<u8> {
    lay(&[], any_style(random), random)
}

/// A second problem line is no problem line either.
fn second_line_and_malformed(random: &mut Random) -> Vec<u8> {
    let mut draft = few(random);
    let line = Mark::Line(vec![b"p".to_vec(), any_no_number(random)]);
    let place = random.below(draft.clauses.len());
    draft.clauses[place].insert(0, line);
    laid(draft, random)
}

/// p first on its line where the 257th literal would stand.
fn second_line_and_too_long(random: &mut Random) -> Vec<u8> {
    at_the_257th(Kind::SecondProblemLine, random)
}

fn at_the_257th(kind: Kind, random: &mut Random) -> Vec<u8> {
    let rules = Rules::with_room(random);
    let mut draft = Draft::of(&rules);
    let place = random.below(draft.clauses.len());
    let mut pen = Pen::new(rules.vars, random);
    pen.fill();
    pen.fault(kind);
    draft.clauses[place] = pen.close();
    laid(draft, random)
}

/// Another p where the problem line should go on.
fn cut_line_and_second_line(random: &mut Random) -> Vec<u8> {
    let mut draft = few(random);
    let whole = Mark::Line(draft.problem.clone());
    draft.problem.truncate(random.between(1, CLAUSES));
    draft.clauses.insert(0, vec![whole]);
    laid(draft, random)
}

fn cut_line_and_no_word(random: &mut Random) -> Vec<u8> {
    let mut draft = few(random);
    draft.problem.truncate(random.between(1, CLAUSES));
    draft.clauses.clear();
    laid(draft, random)
}

/// A number past the count as far as it is one.
fn malformed_and_past_count(random: &mut Random) -> Vec<u8> {
    let mut draft = few(random);
    let place = random.below(draft.clauses.len());
    draft.clauses[place].insert(1, Mark::word("9999999999999x"));
    laid(draft, random)
}

/// A variable count that is out of bounds as far as it is one.
fn malformed_and_variable_count(random: &mut Random) -> Vec<u8> {
    let mut draft = few(random);
    let words = ["-1", "-0", "+0", "2049x", "0-", "-99999999999999999999"];
    draft.problem[VARIABLES] = words[random.below(words.len())].into();
    laid(draft, random)
}

fn unclosed_and_clause_count(random: &mut Random) -> Vec<u8> {
    let mut draft = few(random);
    let clauses = draft.clauses.len() - 1;
    draft.clauses[clauses].pop();
    draft.problem[CLAUSES] = any_other_count(clauses, random);
    laid(draft, random)
}

/// All clauses that are declared, and one more that is not closed.
fn unclosed_and_too_many(random: &mut Random) -> Vec<u8> {
    let mut draft = few(random);
    let clauses = draft.clauses.len() - 1;
    draft.problem[CLAUSES] = clauses.saturating_sub(1).to_string().into();
    draft.clauses[clauses].pop();
    laid(draft, random)
}

/// The word with the fault, each fault in its turn, ends where the text ends, or right before it.
pub fn last_byte(seed: u64, random: &mut Random) -> Vec<u8> {
    let kind = Kind::ALL[(seed % Kind::ALL.len() as u64) as usize];
    let mut text = lay_open(&ending_with(kind, random), any_style(random), random);
    let behind: [&[u8]; 8] = [b"", b"", b"", b"\n", b"\r", b" ", b"\r\n", b"\t"];
    text.extend(behind[random.below(behind.len())]);
    text
}

/// The words of a text up to that with the fault.
fn ending_with(kind: Kind, random: &mut Random) -> Vec<Mark> {
    let rules = match kind {
        Kind::TooLong => Rules::with_room(random),
        _ => Rules::few(random),
    };
    let mut draft = Draft::of(&rules);
    let clauses = draft.clauses.len();
    match kind {
        Kind::MissingProblemLine => return vec![Mark::word("x")],
        Kind::VariableCount => {
            draft.problem.truncate(VARIABLES);
            draft.problem.push(b"0".to_vec());
            draft.clauses.clear();
        }
        Kind::ClauseCount => draft.problem[CLAUSES] = any_other_count(clauses, random),
        Kind::Unclosed => drop(draft.clauses[clauses - 1].pop()),
        _ => {
            let mut pen = Pen::new(rules.vars, random);
            pen.literals(3);
            pen.fault(kind);
            draft.clauses.push(pen.leave_open());
        }
    }
    draft.marks()
}
