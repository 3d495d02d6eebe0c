//! The simulated solver's own propagation: it looks for the hints that the checker only reads.

use crate::state::{Place, Record};
use crate::terms::variable;
use crate::values::Values;

/// A clause with its id.
pub type Named<'c> = (i32, &'c [i32]);

/// Clauses to propagate with, findable by the literals they hold.
pub struct Clauses<'c> {
    vars: i32,
    pub named: Vec<Named<'c>>,
    /// By literal, see `slot`: the clauses that hold it.
    holding: Vec<Vec<usize>>,
}

fn slot(literal: i32) -> usize {
    2 * variable(literal) + usize::from(literal < 0)
}

impl<'c> Clauses<'c> {
    pub fn new(vars: i32) -> Clauses<'c> {
        Clauses {
            vars,
            named: Vec::new(),
            holding: vec![Vec::new(); 2 * (vars as usize + 1)],
        }
    }

    /// The clauses of a place besides those already there.
    pub fn and(mut self, place: &'c Place) -> Clauses<'c> {
        for (&id, clause) in place {
            self.push((id, clause));
        }
        self
    }

    /// The stacked clauses besides those already there.
    pub fn and_stacked(mut self, stack: &'c [Record]) -> Clauses<'c> {
        for record in stack {
            self.push((record.id, &record.clause));
        }
        self
    }

    fn push(&mut self, named: Named<'c>) {
        for &literal in named.1 {
            self.holding[slot(literal)].push(self.named.len());
        }
        self.named.push(named);
    }

    /// Hints that prove the target without the clause `except`, unless propagation finds none.
    pub fn find_hints(&self, target: &[i32], except: i32) -> Option<Vec<i32>> {
        let mut search = Search::new(self, except);
        for &literal in target {
            if !search.decide(-literal) {
                return Some(Vec::new());
            }
        }
        let conflict = search.propagate()?;
        Some(search.explain(conflict).hints)
    }
}

/// Why a conflict is one: the hints to it, and the decisions that they lean on.
pub struct Conflict {
    pub hints: Vec<i32>,
    pub decisions: Vec<i32>,
}

pub struct Search<'c> {
    clauses: &'c Clauses<'c>,
    /// The id of the clause that may not be used; 0 for none.
    except: i32,
    values: Values,
    decisions: Vec<i32>,
    /// What propagation made true, with the clause that did, in order.
    found: Vec<(i32, Named<'c>)>,
    /// Clauses to look at.
    due: Vec<usize>,
}

impl<'c> Search<'c> {
    pub fn new(clauses: &'c Clauses<'c>, except: i32) -> Search<'c> {
        Search {
            clauses,
            except,
            values: Values::new(clauses.vars),
            decisions: Vec::new(),
            found: Vec::new(),
            due: (0..clauses.named.len()).collect(),
        }
    }

    /// Makes a literal true; false when its opposite is true already.
    pub fn decide(&mut self, literal: i32) -> bool {
        if self.values.is_open(literal) {
            self.decisions.push(literal);
            self.make_true(literal);
        }
        self.values.is_true(literal)
    }

    pub fn is_open(&self, literal: i32) -> bool {
        self.values.is_open(literal)
    }

    pub fn is_true(&self, literal: i32) -> bool {
        self.values.is_true(literal)
    }

    fn make_true(&mut self, literal: i32) {
        self.values.make_true(literal);
        self.due.extend(&self.clauses.holding[slot(-literal)]);
    }

    /// Propagates until nothing is due any more; gives a clause that is all false, if any.
    pub fn propagate(&mut self) -> Option<Named<'c>> {
        while let Some(place) = self.due.pop() {
            let (id, clause) = self.clauses.named[place];
            if id == self.except || clause.iter().any(|&literal| self.is_true(literal)) {
                continue;
            }
            let mut open = clause.iter().filter(|&&literal| self.is_open(literal));
            match (open.next(), open.next()) {
                (None, _) => return Some((id, clause)),
                (Some(&literal), None) => {
                    self.found.push((literal, (id, clause)));
                    self.make_true(literal);
                }
                _ => {}
            }
        }
        None
    }

    /// The hints that lead to the conflict, without those it does not lean on.
    pub fn explain(&self, conflict: Named<'c>) -> Conflict {
        let mut leaned_on = Values::new(self.clauses.vars);
        let mut hints = vec![conflict.0];
        leaned_on.become_set(conflict.1);
        for &(literal, (id, clause)) in self.found.iter().rev() {
            if !leaned_on.is_open(literal) {
                hints.push(id);
                for &literal in clause {
                    leaned_on.make_true(literal);
                }
            }
        }
        hints.reverse();
        let mut decisions = self.decisions.clone();
        decisions.retain(|&literal| !leaned_on.is_open(literal));
        Conflict { hints, decisions }
    }
}

#[cfg(test)]
mod tests {
    use super::*;
    use crate::propagation::prove;
    use crate::random::Random;

    /// Hints that are found prove the target when they are read.
    #[test]
    fn found_hints_are_read_as_a_proof() {
        let mut random = Random::new(3);
        let mut proved = 0;
        for _ in 0..2_000 {
            let clauses = (1..20).map(|id| {
                let length = random.between(1, 3);
                (id, random.literals(9, length))
            });
            let place: Place = clauses.collect();
            let target = random.literals(9, 2);
            let except = random.between(0, 19) as i32;
            let Some(words) = Clauses::new(9).and(&place).find_hints(&target, except) else {
                continue;
            };
            let hints = words.iter().copied().enumerate();
            let allowed = |id: i32| place.get(&id).filter(|_| id != except);
            let reading = prove(&mut Values::new(9), target.into_iter(), hints, |id: i32| {
                allowed(id).map(Vec::as_slice)
            });
            assert_eq!(reading, Ok(()));
            proved += 1;
        }
        assert!(proved > 100, "only {proved} targets had a proof");
    }
}
