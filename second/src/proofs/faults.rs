//! Classes of refused proofs, and of sound ones right beside them.

use super::draft::{Draft, Moment, Step};
use super::layout::{any_style, lay, lines_of, word, Word, PLAIN};
use super::plant::{all_pairs, faulty_line, planted};
use super::solver::Addition;
use super::Pair;
use crate::dimacs::Kind;
use crate::lrat::Refusal;
use crate::random::Random;
use crate::texts::{self, numbers::past_a_power};

pub fn malformed(_: u64, random: &mut Random) -> Pair {
    planted(&[Refusal::Malformed], random)
}

pub fn past_count(_: u64, random: &mut Random) -> Pair {
    planted(&[Refusal::PastCount], random)
}

pub fn against_terms(_: u64, random: &mut Random) -> Pair {
    planted(&[Refusal::AgainstTerms], random)
}

/// Ids at or below the highest, those of gone clauses among them.
pub fn ids_not_above(_: u64, random: &mut Random) -> Pair {
    planted(&[Refusal::IdNotAbove], random)
}

pub fn not_held(_: u64, random: &mut Random) -> Pair {
    planted(&[Refusal::NotHeld], random)
}

pub fn negative_hints(_: u64, random: &mut Random) -> Pair {
    planted(&[Refusal::NegativeHint], random)
}

/// Proofs that fail in every way, and some that do not after all.
pub fn unproved(_: u64, random: &mut Random) -> Pair {
    if random.one_in(4) {
        return planted(&[Refusal::Unproved], random);
    }
    let mut draft = Draft::any(random);
    let additions = draft.additions();
    let place = additions[random.below(additions.len())];
    let moment = draft.moment(place);
    if let Step::Add(addition) = &mut draft.steps[place] {
        spoil(addition, &moment, random);
    }
    Pair::of(&draft, random)
}

/// Changes the hints, or the clause that they prove.
fn spoil(addition: &mut Addition, moment: &Moment, random: &mut Random) {
    let hints = addition.hints.len();
    let at = random.below(hints);
    match random.below(8) {
        0 => addition.hints.truncate(at),
        1 => addition.hints.clear(),
        2 => addition.hints.reverse(),
        3 => addition.hints.insert(at, addition.hints[at]),
        4 => addition.hints.insert(at, moment.any_held(random)),
        5 => addition.hints[at] = moment.not_held(random),
        6 => addition.hints.insert(at, addition.id),
        _ => {
            random.shuffle(&mut addition.literals);
            match addition.literals.first_mut() {
                Some(literal) if random.one_in(2) => *literal = -*literal,
                _ => drop(addition.literals.pop()),
            }
        }
    }
}

/// A needed clause is gone, or deleted twice, or comes again under its old id.
pub fn gone_too_early(_: u64, random: &mut Random) -> Pair {
    let mut draft = Draft::any(random);
    let place = draft.any_place(random);
    let id = draft.moment(place).any_held(random);
    let step = Step::Delete {
        first: id,
        ids: vec![id],
    };
    draft.steps.insert(place, step.clone());
    match random.below(3) {
        0 => draft.steps.insert(place, step),
        1 => {
            let again = Addition {
                id,
                literals: vec![1],
                hints: vec![id],
            };
            draft.steps.insert(place + 1, Step::Add(again));
        }
        _ => {}
    }
    Pair::of(&draft, random)
}

/// The proof ends before its empty clause; nothing is left of it, or no line adds one.
pub fn no_empty_clause(_: u64, random: &mut Random) -> Pair {
    let mut draft = Draft::any(random);
    let last = draft.additions().pop().unwrap_or_default();
    match random.below(4) {
        0 => draft.steps.clear(),
        1 => draft.steps.truncate(random.below(last + 1)),
        2 => {
            draft.steps.truncate(last);
            for _ in 0..random.below(400) {
                let (first, ids) = (1, Vec::new());
                draft.steps.push(Step::Delete { first, ids });
            }
        }
        _ => draft.steps.truncate(last),
    }
    Pair::of(&draft, random)
}

/// Rules with a fault, each in its turn, and whatever proof: "That text's faults come first".
pub fn faulty_rules(seed: u64, random: &mut Random) -> Pair {
    let kind = Kind::ALL[(seed % Kind::ALL.len() as u64) as usize];
    let rules = texts::plant::planted(&[kind], random);
    let proof = match random.below(3) {
        0 => Vec::new(),
        1 => Pair::of(&Draft::any(random), random).proof,
        _ => malformed(seed, random).proof,
    };
    Pair::of_texts(rules, proof)
}

/// Two faults of one line, each pair in its turn.
pub fn pairs(seed: u64, random: &mut Random) -> Pair {
    let pairs = all_pairs();
    planted(&pairs[(seed % pairs.len() as u64) as usize], random)
}

/// Faults in two lines of additions: the first line decides, whatever the numbers.
pub fn two_lines(_: u64, random: &mut Random) -> Pair {
    const KINDS: [Refusal; 6] = [
        Refusal::Malformed,
        Refusal::PastCount,
        Refusal::AgainstTerms,
        Refusal::IdNotAbove,
        Refusal::NegativeHint,
        Refusal::Unproved,
    ];
    let draft = Draft::any(random);
    let additions = draft.additions();
    let mut lines = lines_of(&draft);
    for _ in 0..2 {
        let place = additions[random.below(additions.len())];
        let kind = KINDS[random.below(KINDS.len())];
        lines[place] = faulty_line(&draft, place, &[kind], random);
    }
    let proof = lay(&lines, any_style(random), random);
    Pair::with_proof(&draft.rules, proof, random)
}

/// A number far larger than the right one, which would be it if bits or digits were lost.
pub fn long_numbers(_: u64, random: &mut Random) -> Pair {
    let draft = Draft::any(random);
    let mut lines = lines_of(&draft);
    let place = random.below(lines.len());
    let at = random.below(lines[place].len());
    let changed = &mut lines[place][at];
    let first = usize::from(changed.starts_with(b"-"));
    let small: Option<u32> = std::str::from_utf8(&changed[first..])
        .ok()
        .and_then(|digits| digits.parse().ok());
    if let Some(small) = small {
        changed.splice(first.., past_a_power(small, random));
    }
    let proof = lay(&lines, any_style(random), random);
    Pair::with_proof(&draft.rules, proof, random)
}

/// Lines of many bytes: hints, blanks, zeros or deleted ids by the thousand.
pub fn long_lines(_: u64, random: &mut Random) -> Pair {
    let draft = Draft::any(random);
    let mut lines = lines_of(&draft);
    let place = random.below(lines.len());
    let last = lines[place].len() - 1;
    let many = random.between(1_000, 20_000);
    let mut proof = None;
    match random.below(4) {
        0 => drop(lines[place].splice(last..last, vec![word(1); many])),
        1 => lines[place][0] = [&b"0".repeat(many)[..], &lines[place][0]].concat(),
        2 => lines[place][last] = b"0".repeat(many),
        _ => proof = Some(with_blanks(&lines, many, random)),
    }
    let proof = proof.unwrap_or_else(|| lay(&lines, &PLAIN, random));
    Pair::with_proof(&draft.rules, proof, random)
}

/// So many blanks behind the first word.
fn with_blanks(lines: &[Vec<Word>], many: usize, random: &mut Random) -> Vec<u8> {
    let mut proof = lay(lines, &PLAIN, random);
    let first = proof.iter().position(|&byte| byte == b' ').unwrap_or(0);
    let blanks = (0..many).map(|_| b" \t\r"[random.below(3)]);
    proof.splice(first..first, blanks.collect::<Vec<u8>>());
    proof
}
