//! A small solver that refutes rules and writes down why: each clause that it learns, with its hints in
//! the order of propagation.

use crate::random::Random;
use crate::search::{Clauses, Conflict, Search};
use crate::state::Place;
use crate::texts::Rules;

/// A line that adds a clause.
#[derive(Clone, Debug)]
pub struct Addition {
    pub id: i64,
    pub literals: Vec<i32>,
    pub hints: Vec<i64>,
}

/// Clauses held under their ids.
pub fn place_of(rules: &Rules) -> Place {
    (1..).zip(rules.clauses.iter().cloned()).collect()
}

/// Decides the variables in order, with any sign, until a clause is all false: what it leans on, or nothing if
/// all of them are decided first.
pub fn find_conflict(
    clauses: &Clauses<'_>,
    variables: &[i32],
    random: &mut Random,
) -> Option<Conflict> {
    let mut search = Search::new(clauses, 0);
    let mut variables = variables.iter();
    loop {
        if let Some(conflict) = search.propagate() {
            return Some(search.explain(conflict));
        }
        let open = variables.find(|&&variable| search.is_open(variable))?;
        search.decide(random.signed(*open));
    }
}

/// The clause that a conflict teaches: one of its decisions is wrong.
pub fn lesson(id: i32, conflict: Conflict) -> Addition {
    Addition {
        id: id.into(),
        literals: conflict.decisions.iter().map(|word| -word).collect(),
        hints: conflict.hints.into_iter().map(i64::from).collect(),
    }
}

/// Learns clauses until one is empty; nothing if the rules have a model.
pub fn refute(rules: &Rules, random: &mut Random) -> Option<Vec<Addition>> {
    let mut held = place_of(rules);
    let mut variables: Vec<i32> = (1..=rules.vars).collect();
    let mut additions = Vec::new();
    for id in rules.clauses.len() as i32 + 1.. {
        random.shuffle(&mut variables);
        let clauses = Clauses::new(rules.vars).and(&held);
        let conflict = find_conflict(&clauses, &variables, random)?;
        let addition = lesson(id, conflict);
        held.insert(id, addition.literals.clone());
        additions.push(addition);
        if held[&id].is_empty() {
            break;
        }
    }
    Some(additions)
}

/// Few variables, and clauses drawn until no model is left; some take none away. Most rules have no clause of one
/// literal, since propagation alone would soon refute them.
pub fn without_model(random: &mut Random) -> Rules {
    let vars = match random.below(12) {
        0 => 1,
        _ => random.between(3, 8) as i32,
    };
    let has_units = vars == 1 || random.one_in(4);
    let mut models: Vec<u32> = (0..1 << vars).collect();
    let mut clauses = Vec::new();
    while !models.is_empty() {
        let length = match random.below(16) {
            0 if has_units => 1,
            0..=4 => 2,
            _ => 3,
        };
        let clause = random.literals(vars, length);
        let before = models.len();
        models.retain(|model| {
            let is_true = |&word: &i32| (model >> (word.abs() - 1) & 1 == 1) == (word > 0);
            clause.iter().any(is_true)
        });
        if models.len() < before || random.one_in(6) {
            clauses.push(clause);
        }
    }
    Rules { vars, clauses }
}
