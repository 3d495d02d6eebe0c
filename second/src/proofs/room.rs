//! Tables filled to the last entry and word, and by one too many.

use super::draft::{Draft, Moment, Room, Step};
use super::plant::planted;
use super::Pair;
use crate::dimacs::Kind;
use crate::lrat::Refusal;
use crate::random::Random;
use crate::terms::{MOST_ENTRIES, MOST_LITERALS, MOST_VARIABLES, MOST_WORDS};
use crate::texts::plant::planted as planted_text;
use crate::texts::Rules;

/// The tables of the program.
pub const PROGRAM: Room = Room {
    entries: MOST_ENTRIES,
    words: MOST_WORDS,
};

/// A sound proof over so many variables that a clause can have all the literals that it may.
fn with_long_clauses(random: &mut Random) -> Draft {
    let vars = random.between(MOST_LITERALS + 1, MOST_VARIABLES as usize);
    let mut draft = Draft::over(vars as i32, random);
    if random.one_in(2) {
        draft.delete_unneeded(random);
    }
    draft
}

/// A sound proof up to a step that finds no room, of these kinds, in the tables of the program.
pub fn full_for(kinds: &[Refusal], random: &mut Random) -> (Draft, usize) {
    loop {
        let mut draft = with_long_clauses(random);
        let mut places = draft.additions();
        places.retain(|&place| finds_none(&draft, place, kinds));
        if let Some(&place) = random.pick(&places) {
            let peak = draft.moment(place).peak;
            fill_up(&mut draft, peak, kinds, random);
            return (draft, place);
        }
    }
}

/// Whether the step finds no room of these kinds in tables that are just large enough for all before it.
fn finds_none(draft: &Draft, place: usize, kinds: &[Refusal]) -> bool {
    let moment: Moment = draft.moment(place);
    let literals = match &draft.steps[place] {
        Step::Add(addition) => addition.literals.len(),
        Step::Delete { .. } => 0,
    };
    let entries = moment.held.len() == moment.peak.entries;
    let words = moment.words() + literals > moment.peak.words;
    (entries || !kinds.contains(&Refusal::Entries)) && (words || !kinds.contains(&Refusal::Words))
}

/// Fills the rules up until so much room is all that is left: of entries, of words or of both.
fn fill_up(draft: &mut Draft, needed: Room, kinds: &[Refusal], random: &mut Random) {
    let entries = PROGRAM.entries - needed.entries;
    let words = PROGRAM.words - needed.words;
    let is_full = |kind| kinds.contains(&kind);
    let count = match is_full(Refusal::Entries) {
        true => entries,
        false => random.between(40, 200),
    };
    let words = match is_full(Refusal::Words) {
        true => words,
        false => random.between(0, 4 * count),
    };
    let fillers = clauses_of(count, words, draft.rules.vars, random);
    draft.fill(fillers, random);
}

/// So many clauses with so many literals together.
fn clauses_of(count: usize, words: usize, vars: i32, random: &mut Random) -> Vec<Vec<i32>> {
    let length = |place| words / count + usize::from(place < words % count);
    (0..count)
        .map(|place| random.literals(vars, length(place)))
        .collect()
}

/// A proof that needs all of the room, and no more.
fn just_full(kind: Refusal, random: &mut Random) -> Pair {
    let mut draft = with_long_clauses(random);
    let peak = draft.moment(draft.steps.len()).peak;
    fill_up(&mut draft, peak, &[kind], random);
    Pair::of(&draft, random)
}

/// Rules that fill the tables alone, or are too many for them by few.
fn rules_alone(kind: Refusal, random: &mut Random) -> Pair {
    let past = random.below(3);
    let (count, words) = match kind {
        Refusal::Entries => (PROGRAM.entries + past, random.below(3_000)),
        _ => (random.between(40, 1_030), PROGRAM.words + past),
    };
    let clauses = clauses_of(count, words, MOST_VARIABLES, random);
    let rules = Rules {
        vars: MOST_VARIABLES,
        clauses,
    };
    let steps = match random.below(3) {
        0 => Vec::new(),
        _ => Draft::any(random).steps,
    };
    let mut pair = Pair::of(&Draft { rules, steps }, random);
    if random.one_in(4) {
        // One clause more than declared: the text's fault comes before its room.
        pair.rules.extend(b"\n0");
    }
    pair
}

fn of_kind(kind: Refusal, seed: u64, random: &mut Random) -> Pair {
    match seed % 4 {
        0 => just_full(kind, random),
        1 => rules_alone(kind, random),
        _ => planted(&[kind], random),
    }
}

pub fn entries(seed: u64, random: &mut Random) -> Pair {
    of_kind(Refusal::Entries, seed, random)
}

pub fn words(seed: u64, random: &mut Random) -> Pair {
    of_kind(Refusal::Words, seed, random)
}

fn any_kind(random: &mut Random) -> Kind {
    Kind::ALL[random.below(Kind::ALL.len())]
}

/// Small tables: just large enough, or too small by few; and sizes that nobody may lend.
pub fn small_tables(_: u64, random: &mut Random) -> Pair {
    let draft = Draft::any(random);
    let peak = draft.moment(draft.steps.len()).peak;
    let mut lent = peak;
    match random.below(8) {
        0 | 1 => {}
        2 | 3 => lent.entries -= random.between(1, lent.entries.min(3)),
        4 | 5 => lent.words -= random.between(1, lent.words.min(5)),
        6 => lent.entries = PROGRAM.entries + random.between(1, 3),
        _ => lent.words = PROGRAM.words + random.between(1, 3),
    }
    let mut pair = Pair::of(&draft, random);
    match random.below(6) {
        0 => pair.rules = planted_text(&[any_kind(random)], random),
        1 => pair.proof = b"\n".to_vec(),
        _ => {}
    }
    Pair { lent, ..pair }
}
