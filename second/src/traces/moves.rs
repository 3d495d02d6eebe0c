//! The moves of the simulated solver: one frame, or a few that belong together, each accepted
//! by document 01 unless said otherwise. A move that finds nothing to do gives none.

use super::author::new_id;
use crate::frames::{add, drop_clause, forget, learn, promote, restore, sat, unsat, weaken, Group};
use crate::random::Random;
use crate::search::{Clauses, Conflict, Named, Search};
use crate::state::{Record, State};
use crate::terms::{variable, MOST_LITERALS};
use std::collections::{BTreeMap, BTreeSet};

/// What histories a solver writes.
#[derive(Clone, Copy, Debug)]
pub struct Mix {
    /// Clauses are made of the variables 1 to this.
    pub used: i32,
    /// The shortest and the longest clause added.
    pub shortest: usize,
    pub longest: usize,
    /// Clauses are added only while fewer than this are irredundant.
    pub crowded: usize,
}

pub type Move = fn(&State, &mut Random, &Mix) -> Vec<Vec<i32>>;

/// The moves of a history, each as often as its weight.
pub const MOVES: [(usize, Move); 13] = [
    (6, add_clean),
    (1, add_any),
    (5, learn_from_conflict),
    (4, learn_resolvent),
    (3, resolve_stacked),
    (2, forget_any),
    (4, promote_any),
    (3, drop_implied),
    (7, weaken_redundant),
    (2, eliminate),
    (3, restore_any),
    (5, offer_model),
    (2, claim_unsat),
];

fn draw_move(random: &mut Random) -> Move {
    let total: usize = MOVES.iter().map(|(weight, _)| weight).sum();
    let mut drawn = random.below(total);
    for (weight, step) in MOVES {
        if drawn < weight {
            return step;
        }
        drawn -= weight;
    }
    add_any
}

/// Draws moves until one finds something to do; adding always does.
pub fn next_move(state: &State, random: &mut Random, mix: &Mix) -> Vec<Vec<i32>> {
    let moves = (0..20).map(|_| draw_move(random)(state, random, mix));
    let mut found = moves.filter(|frames| !frames.is_empty());
    found.next().unwrap_or_else(|| add_any(state, random, mix))
}

fn random_clause(random: &mut Random, mix: &Mix) -> Vec<i32> {
    let length = match random.below(24) {
        0 => 1,
        1..=7 => 2,
        8..=15 => 3,
        _ => random.between(1, mix.longest),
    };
    random.literals(mix.used, length.clamp(mix.shortest, mix.longest))
}

fn witnesses(stack: &[Record]) -> BTreeSet<i32> {
    let literals = stack.iter().flat_map(|record| &record.witness);
    literals.copied().collect()
}

/// ADD of a clause that is clean: a literal whose opposite is in a witness is turned, or left
/// out where both signs are.
fn add_clean(state: &State, random: &mut Random, mix: &Mix) -> Vec<Vec<i32>> {
    if state.irredundant.len() >= mix.crowded {
        return Vec::new();
    }
    let in_witness = witnesses(&state.stack);
    let clean = |&literal: &i32| !in_witness.contains(&-literal);
    let clause: Vec<i32> = random_clause(random, mix)
        .into_iter()
        .filter_map(|literal| [literal, -literal].into_iter().find(clean))
        .collect();
    if clause.is_empty() {
        return Vec::new();
    }
    vec![add(new_id(state, random), &clause)]
}

/// ADD of any clause, clean or not.
pub fn add_any(state: &State, random: &mut Random, mix: &Mix) -> Vec<Vec<i32>> {
    let clause = random_clause(random, mix);
    vec![add(new_id(state, random), &clause)]
}

enum Decided {
    Conflict(Conflict),
    /// The true variables.
    Model(Vec<i32>),
}

fn irredundant(state: &State) -> Clauses<'_> {
    Clauses::new(state.vars).and(&state.irredundant)
}

fn irredundant_and_learned(state: &State) -> Clauses<'_> {
    irredundant(state).and(&state.learned)
}

/// The clauses that hints of LEARN and UNSAT may name, every other time without the stacked
/// ones.
fn to_learn_from<'s>(state: &'s State, random: &mut Random) -> Clauses<'s> {
    let clauses = irredundant_and_learned(state);
    if random.one_in(2) {
        clauses.and_stacked(&state.stack)
    } else {
        clauses
    }
}

/// Decides the used variables at random until a clause is all false or none is open.
fn decide(state: &State, clauses: &Clauses<'_>, random: &mut Random, mix: &Mix) -> Decided {
    let mut search = Search::new(clauses, 0);
    let mut order = random.literals(mix.used, mix.used as usize);
    for &(_, clause) in &clauses.named {
        order.extend(clause.iter().map(|&literal| random.signed(literal)));
    }
    let mut conflict = search.propagate();
    for literal in order {
        if conflict.is_some() {
            break;
        }
        if search.is_open(literal) {
            search.decide(literal);
            conflict = search.propagate();
        }
    }
    match conflict {
        Some(clause) => Decided::Conflict(search.explain(clause)),
        None => Decided::Model((1..=state.vars).filter(|&v| search.is_true(v)).collect()),
    }
}

/// Decides until there is a conflict, a few times.
fn decide_to_conflict(state: &State, random: &mut Random, mix: &Mix) -> Option<Conflict> {
    let clauses = to_learn_from(state, random);
    (0..4).find_map(|_| match decide(state, &clauses, random, mix) {
        Decided::Conflict(conflict) => Some(conflict),
        Decided::Model(_) => None,
    })
}

/// LEARN of the opposites of the decisions that led to a conflict.
fn learn_from_conflict(state: &State, random: &mut Random, mix: &Mix) -> Vec<Vec<i32>> {
    let Some(conflict) = decide_to_conflict(state, random, mix) else {
        return Vec::new();
    };
    // Few decisions make no contradiction of the whole, so that histories stay alive.
    if conflict.decisions.len() < 2 && !random.one_in(12)
        || conflict.decisions.len() > MOST_LITERALS
    {
        return Vec::new();
    }
    let clause: Vec<i32> = conflict.decisions.iter().map(|&literal| -literal).collect();
    let hints = with_unread(conflict.hints, random);
    vec![learn(new_id(state, random), &clause, &hints)]
}

/// Hints, sometimes with words behind the proof that nobody reads.
fn with_unread(mut hints: Vec<i32>, random: &mut Random) -> Vec<i32> {
    if random.one_in(5) {
        for _ in 0..random.between(1, 4) {
            hints.push(any_word(random));
        }
    }
    hints
}

/// A word of the kinds that faults are made of.
pub fn any_word(random: &mut Random) -> i32 {
    const EDGES: [i32; 12] = [
        0,
        1,
        -1,
        2,
        -2,
        256,
        257,
        2_048,
        2_049,
        -2_049,
        i32::MAX,
        i32::MIN,
    ];
    match random.below(4) {
        0 => EDGES[random.below(EDGES.len())],
        1 => random.draw() as i32,
        2 => random.below(40) as i32 - 8,
        _ => random.literals(2_048, 1)[0],
    }
}

/// The one clause two clauses resolve to on a variable, unless it holds opposites.
fn resolvent(one: &[i32], other: &[i32], on: i32) -> Option<Vec<i32>> {
    let mut literals: BTreeSet<i32> = one.iter().copied().collect();
    literals.extend(other);
    literals.remove(&on);
    literals.remove(&-on);
    if literals.iter().any(|literal| literals.contains(&-literal)) {
        return None;
    }
    Some(literals.into_iter().collect())
}

/// A resolvent of a clause of the first list and one of the second, and hints that prove it.
fn any_resolvent(
    ones: &[Named<'_>],
    others: &[Named<'_>],
    random: &mut Random,
) -> Option<(Vec<i32>, Vec<i32>)> {
    (0..12).find_map(|_| {
        let (&(id, one), &(other_id, other)) = (random.pick(ones)?, random.pick(others)?);
        let &on = one.iter().find(|&&literal| other.contains(&-literal))?;
        let clause = resolvent(one, other, on)?;
        let fits = (1..=MOST_LITERALS).contains(&clause.len());
        fits.then(|| (clause, with_unread(vec![id, other_id], random)))
    })
}

/// LEARN of a resolvent of two clauses.
fn learn_resolvent(state: &State, random: &mut Random, _: &Mix) -> Vec<Vec<i32>> {
    let clauses = irredundant_and_learned(state).named;
    let found = any_resolvent(&clauses, &clauses, random);
    found
        .map(|(clause, hints)| learn(new_id(state, random), &clause, &hints))
        .into_iter()
        .collect()
}

/// LEARN of a resolvent of a stacked clause and any other, or UNSAT assuming its opposites.
fn resolve_stacked(state: &State, random: &mut Random, _: &Mix) -> Vec<Vec<i32>> {
    let stacked = Clauses::new(state.vars).and_stacked(&state.stack).named;
    let all = to_learn_from(state, random).named;
    let Some((clause, hints)) = any_resolvent(&stacked, &all, random) else {
        return Vec::new();
    };
    if random.one_in(3) {
        let assumptions: Vec<i32> = clause.iter().map(|&literal| -literal).collect();
        return vec![unsat(&assumptions, &hints)];
    }
    vec![learn(new_id(state, random), &clause, &hints)]
}

fn any_learned(state: &State, random: &mut Random) -> Option<i32> {
    let ids: Vec<i32> = state.learned.keys().copied().collect();
    random.pick(&ids).copied()
}

fn forget_any(state: &State, random: &mut Random, _: &Mix) -> Vec<Vec<i32>> {
    any_learned(state, random).map(forget).into_iter().collect()
}

fn promote_any(state: &State, random: &mut Random, _: &Mix) -> Vec<Vec<i32>> {
    any_learned(state, random)
        .map(promote)
        .into_iter()
        .collect()
}

/// The clauses that hints of DROP and WEAKEN may name; now and then the learned or the stacked
/// ones too, which is refused when a hint does name one.
fn to_lean_on<'s>(state: &'s State, random: &mut Random) -> Clauses<'s> {
    match random.below(5) {
        0 => irredundant_and_learned(state),
        1 => irredundant(state).and_stacked(&state.stack),
        _ => irredundant(state),
    }
}

fn any_irredundant<'s>(state: &'s State, random: &mut Random) -> Option<Named<'s>> {
    let place = state.irredundant.len().checked_sub(1)?;
    let (&id, clause) = state.irredundant.iter().nth(random.between(0, place))?;
    Some((id, clause))
}

/// DROP of a clause that follows from the other irredundant ones.
fn drop_implied(state: &State, random: &mut Random, _: &Mix) -> Vec<Vec<i32>> {
    let clauses = to_lean_on(state, random);
    for _ in 0..8 {
        let Some((id, clause)) = any_irredundant(state, random) else {
            break;
        };
        if let Some(hints) = clauses.find_hints(clause, id) {
            return vec![drop_clause(id, &with_unread(hints, random))];
        }
    }
    Vec::new()
}

/// The groups that WEAKEN of a clause with a witness needs, with their targets.
fn targets(state: &State, id: i32, witness: &[i32]) -> Vec<(i32, Vec<i32>)> {
    let clause = &state.irredundant[&id];
    let others = state.irredundant.iter().filter(|(&other, touched)| {
        other != id
            && touched.iter().any(|literal| witness.contains(&-literal))
            && !touched.iter().any(|literal| witness.contains(literal))
    });
    others
        .map(|(&other, touched)| {
            let rest = touched
                .iter()
                .filter(|&&literal| !witness.contains(&-literal));
            (other, clause.iter().chain(rest).copied().collect())
        })
        .collect()
}

/// Every group of WEAKEN with hints found among the given clauses, if all can be proved.
fn find_groups(
    state: &State,
    id: i32,
    witness: &[i32],
    clauses: &Clauses<'_>,
) -> Option<Vec<Group>> {
    targets(state, id, witness)
        .into_iter()
        .map(|(other, target)| Some((other, clauses.find_hints(&target, id)?)))
        .collect()
}

/// A witness: one literal of the clause, or several, some of them perhaps not of the clause.
fn random_witness(clause: &[i32], random: &mut Random, mix: &Mix) -> Vec<i32> {
    let mut witness = clause.to_vec();
    random.shuffle(&mut witness);
    witness.truncate(if random.one_in(2) {
        1
    } else {
        random.between(1, clause.len().min(4))
    });
    if random.one_in(3) {
        for literal in random.literals(mix.used, 2) {
            if !witness
                .iter()
                .any(|&held| variable(held) == variable(literal))
            {
                witness.push(literal);
            }
        }
    }
    random.shuffle(&mut witness);
    witness
}

/// WEAKEN of a clause that is redundant with some witness, one that needs groups if such is
/// found.
fn weaken_redundant(state: &State, random: &mut Random, mix: &Mix) -> Vec<Vec<i32>> {
    let clauses = to_lean_on(state, random);
    let mut without_groups = None;
    for _ in 0..24 {
        let Some((id, clause)) = any_irredundant(state, random) else {
            break;
        };
        if clause.is_empty() {
            continue;
        }
        let witness = random_witness(clause, random, mix);
        let Some(mut groups) = find_groups(state, id, &witness, &clauses) else {
            continue;
        };
        for (_, hints) in &mut groups {
            *hints = with_unread(std::mem::take(hints), random);
        }
        let frame = weaken(id, &witness, &groups);
        if !groups.is_empty() {
            return vec![frame];
        }
        without_groups = Some(frame);
    }
    without_groups.into_iter().collect()
}

/// Eliminates a variable: every resolvent on it is learned and promoted, then every clause
/// that holds it is weakened.
fn eliminate(state: &State, random: &mut Random, mix: &Mix) -> Vec<Vec<i32>> {
    let variable = random.variable(mix.used);
    let on = random.signed(variable);
    let holding = |literal: i32| -> Vec<Named<'_>> {
        let mut clauses = irredundant(state).named;
        clauses.retain(|(_, clause)| clause.contains(&literal));
        clauses
    };
    let (positive, negative) = (holding(on), holding(-on));
    if positive.len() * negative.len() > 16 || positive.len() + negative.len() == 0 {
        return Vec::new();
    }
    let mut next = state.highest;
    let mut frames = Vec::new();
    let mut groups: BTreeMap<i32, Vec<Group>> = BTreeMap::new();
    for &(id, one) in &positive {
        for &(other_id, other) in &negative {
            let mut hints = Vec::new();
            if let Some(clause) = resolvent(one, other, on) {
                next = next.saturating_add(1);
                frames.push(learn(next, &clause, &[id, other_id]));
                frames.push(promote(next));
                hints.push(next);
            }
            groups.entry(id).or_default().push((other_id, hints));
        }
    }
    for &(id, _) in &positive {
        let groups = groups.remove(&id).unwrap_or_default();
        frames.push(weaken(id, &[on], &groups));
    }
    frames.extend(negative.iter().map(|&(id, _)| weaken(id, &[-on], &[])));
    frames
}

/// RESTORE of the topmost record, or of any, which need not be clean.
fn restore_any(state: &State, random: &mut Random, _: &Mix) -> Vec<Vec<i32>> {
    let record = if random.one_in(3) {
        state.stack.last()
    } else {
        random.pick(&state.stack)
    };
    record
        .map(|record| restore(record.id))
        .into_iter()
        .collect()
}

/// SAT with a model of the irredundant clauses; assumptions are clean more often than not.
fn offer_model(state: &State, random: &mut Random, mix: &Mix) -> Vec<Vec<i32>> {
    let clauses = irredundant(state);
    let model = (0..6).find_map(|_| match decide(state, &clauses, random, mix) {
        Decided::Model(model) => Some(model),
        Decided::Conflict(_) => None,
    });
    let Some(model) = model else {
        return Vec::new();
    };
    let in_witness = witnesses(&state.stack);
    let any = random.one_in(4);
    let among = if random.one_in(6) {
        state.vars
    } else {
        mix.used
    };
    let length = random.below(4);
    let assumptions: Vec<i32> = random
        .literals(among, length)
        .into_iter()
        .map(|literal| literal.abs())
        .map(|variable| {
            if model.contains(&variable) {
                variable
            } else {
                -variable
            }
        })
        .filter(|literal| any || !in_witness.contains(&-literal))
        .collect();
    vec![sat(&repeated(assumptions, random), &model)]
}

/// Assumptions, sometimes with one of them said again.
fn repeated(mut assumptions: Vec<i32>, random: &mut Random) -> Vec<i32> {
    if let (true, Some(&again)) = (random.one_in(4), random.pick(&assumptions)) {
        assumptions.push(again);
    }
    assumptions
}

/// UNSAT assuming the decisions that led to a conflict; now and then opposed assumptions.
fn claim_unsat(state: &State, random: &mut Random, mix: &Mix) -> Vec<Vec<i32>> {
    if random.one_in(8) {
        let mut assumptions = random.literals(state.vars, 3);
        assumptions.push(-assumptions[0]);
        random.shuffle(&mut assumptions);
        return vec![unsat(&assumptions, &with_unread(Vec::new(), random))];
    }
    let Some(conflict) = decide_to_conflict(state, random, mix) else {
        return Vec::new();
    };
    if conflict.decisions.len() > MOST_LITERALS / 2 {
        return Vec::new();
    }
    let assumptions = repeated(conflict.decisions, random);
    vec![unsat(&assumptions, &with_unread(conflict.hints, random))]
}
