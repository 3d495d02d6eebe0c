//! A judge of demand 3 by brute force: it looks at every assignment of a few variables.
//!
//! After every step it asks:
//! - an accepted SAT hands out a model of every clause ever added and of its assumptions, and
//!   one that differs from the offered assignment only in variables of stacked witnesses;
//! - an accepted UNSAT is true of all added clauses under its assumptions;
//! - whenever no assumption is the opposite of a stacked witness literal, the added clauses
//!   and the assumptions have a common model exactly when the irredundant clauses and the
//!   assumptions have one;
//! - a refusal leaves the state as found.

use crate::answer::Answer;
use crate::assignment::Assignment;
use crate::checker::{Checker, Checks};
use crate::frame::Frame;
use crate::state::State;
use crate::terms::variable;
use crate::traces::author::Author;
use crate::traces::find_class;
use crate::words::tell_frame;
use std::collections::BTreeSet;

/// The judge looks at 2 to this power assignments at most.
pub const MOST_JUDGED: i32 = 8;

/// A set of assignments: assignment number n makes variable v true when bit v-1 of n is 1.
#[derive(Clone, Copy, Debug, PartialEq, Eq)]
struct Models([u64; 4]);

impl Models {
    fn collect(vars: i32, mut holds: impl FnMut(u32) -> bool) -> Models {
        let mut bits = [0; 4];
        for assignment in (0..1 << vars).filter(|&assignment| holds(assignment)) {
            bits[assignment as usize / 64] |= 1 << (assignment % 64);
        }
        Models(bits)
    }

    fn and(self, other: Models) -> Models {
        Models(std::array::from_fn(|word| self.0[word] & other.0[word]))
    }

    fn or(self, other: Models) -> Models {
        Models(std::array::from_fn(|word| self.0[word] | other.0[word]))
    }

    fn is_empty(self) -> bool {
        self.0 == [0; 4]
    }
}

pub struct Judge {
    vars: i32,
    all: Models,
    /// By variable, index 0 unused: the assignments that make it true, and those that do not.
    sides: Vec<(Models, Models)>,
    added: Vec<Vec<i32>>,
    added_models: Models,
}

impl Judge {
    pub fn new(vars: i32) -> Judge {
        assert!((1..=MOST_JUDGED).contains(&vars), "too many to look at all");
        let all = Models::collect(vars, |_| true);
        let side = |variable: i32, side: u32| {
            Models::collect(vars, |number| number >> (variable - 1) & 1 == side)
        };
        let mut sides = vec![(all, all)];
        sides.extend((1..=vars).map(|variable| (side(variable, 1), side(variable, 0))));
        Judge {
            vars,
            all,
            sides,
            added: Vec::new(),
            added_models: all,
        }
    }

    fn models_of_literal(&self, literal: i32) -> Models {
        let (positive, negative) = self.sides[variable(literal)];
        if literal > 0 {
            positive
        } else {
            negative
        }
    }

    fn models_of_clause(&self, clause: &[i32]) -> Models {
        let literals = clause.iter().map(|&l| self.models_of_literal(l));
        literals.fold(Models([0; 4]), Models::or)
    }

    /// Judges a step by its frame, its answer and the state after it.
    pub fn judge_step(
        &mut self,
        frame: &[i32],
        answer: &Answer,
        state: &State,
    ) -> Result<(), String> {
        if !answer.is_accepted() {
            return Ok(());
        }
        match Frame::read(frame) {
            Ok(Frame::Add { clause, .. }) => {
                self.added_models = self.added_models.and(self.models_of_clause(clause.words));
                self.added.push(clause.words.to_vec());
            }
            Ok(Frame::Sat {
                assumptions,
                true_variables,
            }) => self.judge_sat(assumptions.words, true_variables.words, answer, state)?,
            Ok(Frame::Unsat { assumptions, .. }) => self.judge_unsat(assumptions.words)?,
            Ok(_) => {}
            Err(_) => return Err("a frame with wrong counts was accepted".to_string()),
        }
        self.judge_agreement(state)
    }

    fn judge_sat(
        &self,
        assumptions: &[i32],
        offered: &[i32],
        answer: &Answer,
        state: &State,
    ) -> Result<(), String> {
        let handed = answer.model.as_deref().ok_or("SAT without a model")?;
        let model = Assignment::new(self.vars, handed);
        if let Some(clause) = self.added.iter().find(|clause| !model.satisfies(clause)) {
            return Err(format!("the model breaks the added clause {clause:?}"));
        }
        if let Some(literal) = assumptions.iter().find(|&&l| !model.makes_true(l)) {
            return Err(format!("the model breaks the assumption {literal}"));
        }
        let mendable: BTreeSet<i32> = witnesses(state).map(i32::abs).collect();
        let offered = Assignment::new(self.vars, offered);
        let differs = |&v: &i32| offered.makes_true(v) != model.makes_true(v);
        match (1..=self.vars)
            .filter(differs)
            .find(|v| !mendable.contains(v))
        {
            Some(v) => Err(format!("variable {v} changed outside every witness")),
            None => Ok(()),
        }
    }

    fn judge_unsat(&self, assumptions: &[i32]) -> Result<(), String> {
        let literals = assumptions.iter().map(|&l| self.models_of_literal(l));
        if literals.fold(self.added_models, Models::and).is_empty() {
            Ok(())
        } else {
            Err("there is a model after all".to_string())
        }
    }

    fn judge_agreement(&self, state: &State) -> Result<(), String> {
        let irredundant = state.irredundant.values();
        let irredundant = irredundant
            .map(|clause| self.models_of_clause(clause))
            .fold(self.all, Models::and);
        let in_witness: BTreeSet<i32> = witnesses(state).collect();
        if self.agree(1, self.added_models, irredundant, &in_witness) {
            Ok(())
        } else {
            Err("added and irredundant clauses disagree under some assumptions".to_string())
        }
    }

    /// Whether the two sets are both empty or both not, under all assumptions on the variables
    /// from this one on that are no opposites of stacked witness literals.
    fn agree(&self, from: i32, added: Models, kept: Models, in_witness: &BTreeSet<i32>) -> bool {
        if added == kept {
            return true;
        }
        if from > self.vars {
            return added.is_empty() == kept.is_empty();
        }
        let under = |literal: i32| {
            let side = self.models_of_literal(literal);
            in_witness.contains(&-literal)
                || self.agree(from + 1, added.and(side), kept.and(side), in_witness)
        };
        self.agree(from + 1, added, kept, in_witness) && under(from) && under(-from)
    }
}

fn witnesses(state: &State) -> impl Iterator<Item = i32> + '_ {
    let records = state.stack.iter();
    records.flat_map(|record| record.witness.iter().copied())
}

/// A checker under the eyes of the judge.
pub struct Judged<C> {
    checker: C,
    judge: Judge,
    pub steps: u64,
    /// What the judge found first.
    pub broken: Option<String>,
}

impl<C: Checks> Judged<C> {
    pub fn new(checker: C) -> Judged<C> {
        let judge = Judge::new(checker.state().vars);
        Judged {
            checker,
            judge,
            steps: 0,
            broken: None,
        }
    }
}

impl<C: Checks> Checks for Judged<C> {
    fn step(&mut self, frame: &[i32]) -> Answer {
        let before = self.checker.state().clone();
        let answer = self.checker.step(frame);
        let after = self.checker.state();
        self.steps += 1;
        let mut verdict = self.judge.judge_step(frame, &answer, after);
        if !answer.is_accepted() && before != *after {
            verdict = Err("a refusal changed the state".to_string());
        }
        if let (None, Err(found)) = (&self.broken, verdict) {
            let told = tell_frame(frame);
            self.broken = Some(format!("step {}: {told}: {found}", self.steps));
        }
        answer
    }

    fn state(&self) -> &State {
        self.checker.state()
    }
}

/// Judges the small history of a seed, told to what `wrap` makes of a new checker. The seed
/// also decides V and the lent sizes.
pub fn judge_history<C: Checks>(seed: u64, wrap: impl FnOnce(Checker) -> C) -> Judged<C> {
    const SIZES: [(usize, usize); 4] = [(1_024, 8_192), (1_024, 8_192), (12, 8_192), (1_024, 40)];
    let vars = 3 + (seed % 6) as i32;
    let (entries, words) = SIZES[(seed / 6 % 4) as usize];
    let checker = Checker::open(vars, entries, words).expect("sizes within bounds");
    let mut judged = Judged::new(wrap(checker));
    let small = find_class("small").expect("a class of this name");
    (small.write)(&mut Author::new(&mut judged, seed));
    judged
}
