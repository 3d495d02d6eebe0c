//! Classes of sound proofs, and what is refused right beside them.

use super::draft::{Draft, Step};
use super::layout::{any_style, lay, lines_of, Style, CRLF, FREE, PLAIN};
use super::plant::planted;
use super::solver::Addition;
use super::Pair;
use crate::lrat::Refusal;
use crate::random::Random;
use crate::terms::{MOST_LITERALS, MOST_VARIABLES};
use crate::texts::{find_field, Rules};

fn in_style(draft: &Draft, style: &Style, random: &mut Random) -> Pair {
    let proof = lay(&lines_of(draft), style, random);
    Pair::with_proof(&draft.rules, proof, random)
}

pub fn plain(_: u64, random: &mut Random) -> Pair {
    let vars = random.between(1, 20) as i32;
    in_style(&Draft::over(vars, random), &PLAIN, random)
}

pub fn deletions(_: u64, random: &mut Random) -> Pair {
    let vars = random.between(1, 200) as i32;
    let mut draft = Draft::over(vars, random);
    draft.delete_unneeded(random);
    in_style(&draft, &PLAIN, random)
}

pub fn free(_: u64, random: &mut Random) -> Pair {
    let style = [&FREE, &FREE, &CRLF][random.below(3)];
    in_style(&Draft::any(random), style, random)
}

pub fn gaps(_: u64, random: &mut Random) -> Pair {
    let mut draft = Draft::any(random);
    draft.spread_ids(random);
    Pair::of(&draft, random)
}

/// Pigeons and holes, few enough for the small solver.
pub fn pigeonholes(_: u64, random: &mut Random) -> Pair {
    let holes = random.between(1, 3);
    let rules = find_field("pigeonhole").map(|field| field.rules(holes));
    let draft = rules.and_then(|rules| Draft::of(rules, random));
    let mut draft = draft.unwrap_or_else(|| Draft::over(9, random));
    if random.one_in(2) {
        draft.delete_unneeded(random);
    }
    Pair::of(&draft, random)
}

/// Hints behind the conflict are not read, but a negative one is seen.
pub fn unread_hints(_: u64, random: &mut Random) -> Pair {
    let mut draft = Draft::any(random);
    let sees_negative = random.one_in(3);
    for step in &mut draft.steps {
        if let Step::Add(addition) = step {
            for _ in 0..random.below(4) {
                let any = [1, 9, 3_000, usize::MAX / 4][random.below(4)];
                let hint = random.between(1, any) as i64;
                let is_negative = sees_negative && random.one_in(2);
                addition.hints.push(if is_negative { -hint } else { hint });
            }
        }
    }
    Pair::of(&draft, random)
}

/// Anything may stand behind the empty clause: right lines, faults of every kind, bytes that are no line.
pub fn behind_the_end(seed: u64, random: &mut Random) -> Pair {
    let draft = Draft::any(random);
    let mut proof = lay(&lines_of(&draft), any_style(random), random);
    proof.push(b'\n');
    let kinds = Refusal::OF_A_LINE;
    match seed as usize % (kinds.len() + 2) {
        0 => proof.extend(b"\n\n\nc\n"),
        1 => proof.extend((0..random.below(60)).map(|_| random.draw() as u8)),
        kind => proof.extend(planted(&[kinds[kind - 2]], random).proof),
    }
    Pair::with_proof(&draft.rules, proof, random)
}

/// The rules hold the empty clause: a line must say so all the same.
pub fn empty_clause(_: u64, random: &mut Random) -> Pair {
    let clauses = random.below(6);
    let mut rules = Rules::drawn(9, clauses, 1, 3, random);
    let place = random.below(clauses + 1);
    rules.clauses.insert(place, Vec::new());
    let (id, empty) = (rules.clauses.len() as i64 + 1, place as i64 + 1);
    let add = |id, literals, hints| {
        Step::Add(Addition {
            id,
            literals,
            hints,
        })
    };
    let other = random.between(1, rules.clauses.len()) as i64;
    let steps = match random.below(6) {
        0 => vec![],
        1 => vec![add(id, random.literals(9, 2), vec![empty])],
        2 => vec![add(id, vec![], vec![other])],
        3 => vec![add(id, vec![], vec![])],
        4 => vec![
            add(id, vec![3], vec![empty]),
            add(id + 1, vec![], vec![empty]),
        ],
        _ => vec![add(id, vec![], vec![empty])],
    };
    Pair::of(&Draft { rules, steps }, random)
}

/// Clauses of up to 256 literals pass; longer ones are refused 33.
pub fn long_clauses(_: u64, random: &mut Random) -> Pair {
    let vars = random.between(MOST_LITERALS + 40, MOST_VARIABLES as usize) as i32;
    let mut draft = Draft::over(vars, random);
    let length = MOST_LITERALS - 1 + random.below(3);
    let place = random.below(draft.rules.clauses.len());
    let mut literals = draft.rules.clauses[place].clone();
    for literal in random.literals(vars, vars as usize) {
        let is_new = literals.iter().all(|word| word.abs() != literal.abs());
        if literals.len() < length && is_new {
            literals.push(literal);
        }
    }
    random.shuffle(&mut literals);
    draft.add_first(literals, vec![place as i64 + 1]);
    Pair::of(&draft, random)
}
