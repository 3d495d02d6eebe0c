//! Proofs as steps, before anything is wrong with them and before they are written.

use super::solver::{refute, without_model, Addition};
use crate::random::Random;
use crate::terms::MOST_VARIABLES;
use crate::texts::Rules;
use std::collections::BTreeMap;

#[derive(Clone, Debug)]
pub enum Step {
    Add(Addition),
    Delete { first: i64, ids: Vec<i64> },
}

/// Rules and the steps of a sound proof.
#[derive(Clone, Debug)]
pub struct Draft {
    pub rules: Rules,
    pub steps: Vec<Step>,
}

/// Entries and words.
#[derive(Clone, Copy, Debug, PartialEq, Eq)]
pub struct Room {
    pub entries: usize,
    pub words: usize,
}

/// What is held before a step.
#[derive(Clone, Debug)]
pub struct Moment {
    pub highest: i64,
    /// The length of each clause held, by id.
    pub held: BTreeMap<i64, usize>,
    /// The most that was held up to then.
    pub peak: Room,
}

impl Moment {
    fn of(rules: &Rules) -> Moment {
        let lengths = rules.clauses.iter().map(Vec::len);
        let mut moment = Moment {
            highest: rules.clauses.len() as i64,
            held: (1..).zip(lengths).collect(),
            peak: Room {
                entries: 0,
                words: 0,
            },
        };
        moment.note_peak();
        moment
    }

    /// How many words the clauses held take.
    pub fn words(&self) -> usize {
        self.held.values().sum()
    }

    fn note_peak(&mut self) {
        self.peak.entries = self.peak.entries.max(self.held.len());
        self.peak.words = self.peak.words.max(self.words());
    }

    fn take(&mut self, step: &Step) {
        match step {
            Step::Add(addition) => {
                self.highest = addition.id;
                self.held.insert(addition.id, addition.literals.len());
            }
            Step::Delete { ids, .. } => self.held.retain(|id, _| !ids.contains(id)),
        }
        self.note_peak();
    }

    /// An id that no held clause has.
    pub fn not_held(&self, random: &mut Random) -> i64 {
        let any = random.between(1, self.highest as usize + 3) as i64;
        let far = self.highest + random.between(1, 9) as i64;
        match self.held.contains_key(&any) {
            true => far,
            false => any,
        }
    }

    /// An id of a held clause, or 1.
    pub fn any_held(&self, random: &mut Random) -> i64 {
        let ids: Vec<i64> = self.held.keys().copied().collect();
        random.pick(&ids).copied().unwrap_or(1)
    }
}

impl Draft {
    /// A refutation of rules without a model.
    pub fn of(rules: Rules, random: &mut Random) -> Option<Draft> {
        let additions = refute(&rules, random)?;
        Some(Draft {
            rules,
            steps: additions.into_iter().map(Step::Add).collect(),
        })
    }

    /// A small one without deletions, over so many variables.
    pub fn over(vars: i32, random: &mut Random) -> Draft {
        loop {
            let rules = without_model(random);
            if let Some(mut draft) = Draft::of(rules, random) {
                draft.rename(vars.max(draft.rules.vars), random);
                return draft;
            }
        }
    }

    /// A small one, with deletions as often as not.
    pub fn any(random: &mut Random) -> Draft {
        let vars = match random.below(4) {
            0 | 1 => random.between(1, 9),
            2 => random.between(9, 99),
            _ => random.between(100, MOST_VARIABLES as usize),
        };
        let mut draft = Draft::over(vars as i32, random);
        if random.one_in(3) {
            draft.repeat_a_rule(random);
        }
        if random.one_in(2) {
            draft.delete_unneeded(random);
        }
        draft
    }

    /// Begins with a clause of the rules again, or with what follows from it: the same and more literals.
    fn repeat_a_rule(&mut self, random: &mut Random) {
        let place = random.below(self.rules.clauses.len());
        let mut literals = self.rules.clauses[place].clone();
        let most = random.below(4);
        for literal in random.literals(self.rules.vars, most) {
            if literals.iter().all(|word| word.abs() != literal.abs()) {
                literals.push(literal);
            }
        }
        random.shuffle(&mut literals);
        self.add_first(literals, vec![place as i64 + 1]);
    }

    /// Gives the variables other names, up to V.
    fn rename(&mut self, vars: i32, random: &mut Random) {
        let names = random.literals(vars, self.rules.vars as usize);
        let rename = |word: &mut i32| {
            let name = names[word.unsigned_abs() as usize - 1];
            *word = if *word < 0 { -name } else { name };
        };
        self.rules.vars = vars;
        self.rules.clauses.iter_mut().flatten().for_each(&rename);
        for step in &mut self.steps {
            if let Step::Add(addition) = step {
                addition.literals.iter_mut().for_each(&rename);
            }
        }
    }

    /// Gives the clauses other ids.
    fn renumber(&mut self, rename: impl Fn(i64) -> i64) {
        for step in &mut self.steps {
            let ids = match step {
                Step::Add(addition) => {
                    addition.id = rename(addition.id);
                    &mut addition.hints
                }
                Step::Delete { ids, .. } => ids,
            };
            ids.iter_mut().for_each(|id| *id = rename(*id));
        }
    }

    /// Leaves gaps between the added ids, up to the greatest id there is.
    pub fn spread_ids(&mut self, random: &mut Random) {
        let mut id = self.rules.clauses.len() as i64;
        let mut names: BTreeMap<i64, i64> = (1..=id).map(|id| (id, id)).collect();
        let gaps = [1, 9, 3_000, 20_000_000];
        for step in &self.steps {
            if let Step::Add(addition) = step {
                let most = gaps[random.below(gaps.len())];
                id += random.between(1, most) as i64;
                let is_last = addition.literals.is_empty() && random.one_in(4);
                id = if is_last { i32::MAX.into() } else { id };
                names.insert(addition.id, id);
            }
        }
        self.renumber(|id| names[&id]);
    }

    /// Another addition before all steps.
    pub fn add_first(&mut self, literals: Vec<i32>, hints: Vec<i64>) {
        let rules = self.rules.clauses.len() as i64;
        self.renumber(|id| if id > rules { id + 1 } else { id });
        let id = rules + 1;
        self.steps.insert(
            0,
            Step::Add(Addition {
                id,
                literals,
                hints,
            }),
        );
    }

    /// More clauses among the rules, which no step needs.
    pub fn fill(&mut self, fillers: Vec<Vec<i32>>, random: &mut Random) {
        let (rules, more) = (self.rules.clauses.len() as i64, fillers.len() as i64);
        self.renumber(|id| if id > rules { id + more } else { id });
        self.rules.clauses.extend(fillers);
        let mut order: Vec<usize> = (0..self.rules.clauses.len()).collect();
        random.shuffle(&mut order);
        let old = self.rules.clauses.clone();
        let mut names = BTreeMap::new();
        for (place, &from) in order.iter().enumerate() {
            self.rules.clauses[place] = old[from].clone();
            names.insert(from as i64 + 1, place as i64 + 1);
        }
        self.renumber(|id| names.get(&id).copied().unwrap_or(id));
    }

    /// Deletes clauses when no step needs them any more, in lines of one or several.
    pub fn delete_unneeded(&mut self, random: &mut Random) {
        let needed = self.last_needs();
        let mut unneeded = Vec::new();
        let mut steps = Vec::new();
        for (place, step) in std::mem::take(&mut self.steps).into_iter().enumerate() {
            steps.push(step);
            let now = needed.iter().filter(|(_, &last)| last == place);
            unneeded.extend(now.map(|(&id, _)| id));
            if !unneeded.is_empty() && random.one_in(2) {
                random.shuffle(&mut unneeded);
                let kept = random.below(unneeded.len());
                let ids = unneeded.split_off(kept);
                let first = any_first(ids[0], random);
                steps.push(Step::Delete { first, ids });
            }
        }
        self.steps = steps;
    }

    /// The place of the last step that names each id.
    fn last_needs(&self) -> BTreeMap<i64, usize> {
        let rules = 1..=self.rules.clauses.len() as i64;
        let mut last: BTreeMap<i64, usize> = rules.map(|id| (id, 0)).collect();
        for (place, step) in self.steps.iter().enumerate() {
            if let Step::Add(addition) = step {
                last.insert(addition.id, place);
                last.extend(addition.hints.iter().map(|&hint| (hint, place)));
            }
        }
        last
    }

    /// What is held before the step of this place.
    pub fn moment(&self, place: usize) -> Moment {
        let mut moment = Moment::of(&self.rules);
        for step in &self.steps[..place] {
            moment.take(step);
        }
        moment
    }

    /// The places of the steps that add.
    pub fn additions(&self) -> Vec<usize> {
        let is_addition = |&place: &usize| matches!(self.steps[place], Step::Add(_));
        (0..self.steps.len()).filter(is_addition).collect()
    }

    /// A place for another step that is read: behind the empty clause none is.
    pub fn any_place(&self, random: &mut Random) -> usize {
        let end = self.additions().pop().unwrap_or_default();
        random.between(0, end)
    }
}

/// A deletion's "own first id is not judged".
pub fn any_first(usual: i64, random: &mut Random) -> i64 {
    match random.below(8) {
        0 => 0,
        1 => -usual,
        2 => i64::MAX - random.below(9) as i64,
        3 => random.below(2_000) as i64,
        _ => usual,
    }
}
