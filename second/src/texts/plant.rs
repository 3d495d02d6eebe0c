//! Faults planted into sound rules, one or several in a given order of their places.

use super::layout::{any_style, lay, Mark};
use super::pen::Pen;
use super::rules::{Draft, Rules, CLAUSES, VARIABLES};
use super::words::{any_no_cnf, any_other_count, any_variable_count, any_word};
use crate::dimacs::Kind;
use crate::random::Random;

/// A text in which these faults stand, each behind the one before it. `follows` says which may.
pub fn planted(kinds: &[Kind], random: &mut Random) -> Vec<u8> {
    let rules = match kinds.contains(&Kind::TooLong) {
        true => Rules::with_room(random),
        false => Rules::few(random),
    };
    planted_into(&rules, kinds, 0, random)
}

/// The same in these rules, where faults of clauses stand from the given one on.
pub fn planted_into(rules: &Rules, kinds: &[Kind], from: usize, random: &mut Random) -> Vec<u8> {
    let mut draft = Draft::of(rules);
    let in_clauses = plant_in_line(kinds, &mut draft, random);
    plant_in_clauses(&in_clauses, rules.vars, &mut draft.clauses[from..], random);
    plant_at_end(kinds, &mut draft, random);
    lay(&draft.marks(), any_style(random), random)
}

/// Whether a fault can stand behind another: nothing stands before the word that is found instead
/// of a problem line, little before the variable count, and nothing behind the text's length.
pub fn follows(first: Kind, second: Kind) -> bool {
    let at_end = matches!(first, Kind::Unclosed | Kind::ClauseCount);
    let can_stand_behind = match second {
        Kind::MissingProblemLine => false,
        Kind::VariableCount => matches!(first, Kind::MissingProblemLine | Kind::Malformed),
        _ => true,
    };
    !at_end && can_stand_behind
}

/// Plants the faults of the problem line and before it; hands back those that are left for the
/// clauses.
fn plant_in_line(kinds: &[Kind], draft: &mut Draft, random: &mut Random) -> Vec<Kind> {
    let mut in_clauses = Vec::new();
    for (place, &kind) in kinds.iter().enumerate() {
        match kind {
            Kind::MissingProblemLine => draft.before.push(Mark::Word(any_word(random))),
            Kind::VariableCount => draft.problem[VARIABLES] = any_variable_count(random),
            Kind::Malformed if kinds[place..].contains(&Kind::VariableCount) => {
                draft.problem[1] = any_no_cnf(random);
            }
            Kind::Malformed if in_clauses.is_empty() && random.one_in(4) => {
                draft.problem.push(b"x".to_vec());
            }
            Kind::Unclosed | Kind::ClauseCount => {}
            _ => in_clauses.push(kind),
        }
    }
    in_clauses
}

/// Each fault in a clause behind that of the one before it, or behind it in the same clause.
fn plant_in_clauses(kinds: &[Kind], vars: i32, clauses: &mut [Vec<Mark>], random: &mut Random) {
    let mut places: Vec<usize> = kinds.iter().map(|_| random.below(clauses.len())).collect();
    places.sort_unstable();
    for (place, clause) in clauses.iter_mut().enumerate() {
        let planted = places.iter().zip(kinds).filter(|(&at, _)| at == place);
        let here: Vec<Kind> = planted.map(|(_, &kind)| kind).collect();
        if !here.is_empty() {
            *clause = faulty_clause(&here, vars, random);
        }
    }
}

/// A clause with these faults, one behind the other.
fn faulty_clause(kinds: &[Kind], vars: i32, random: &mut Random) -> Vec<Mark> {
    let mut pen = Pen::new(vars, random);
    pen.literals(4);
    for &kind in kinds {
        pen.fault(kind);
        pen.literals(3);
    }
    pen.close()
}

fn plant_at_end(kinds: &[Kind], draft: &mut Draft, random: &mut Random) {
    let mut clauses = draft.clauses.len();
    if kinds.contains(&Kind::Unclosed) {
        clauses -= 1;
        draft.clauses[clauses].pop();
        draft.problem[CLAUSES] = clauses.to_string().into_bytes();
    }
    if kinds.contains(&Kind::ClauseCount) {
        draft.problem[CLAUSES] = any_other_count(clauses, random);
    }
}
