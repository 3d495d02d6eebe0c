//! Unit propagation over the clauses of a proof, with the reasons of what it finds.
//!
//! Every refutation starts without values, so any two literals of a clause can be watched when it
//! begins, and a clause that is not held now can stay in the lists.

use super::proof::Proof;
use crate::terms::variable;

/// Whether a clause counts.
#[derive(Clone, Copy, Debug, PartialEq, Eq)]
enum Standing {
    Held,
    /// It is added earlier, and deleted before the step at hand.
    Deleted,
    /// It is added at the step at hand or later: it will not be held again.
    Gone,
}

/// What a clause is under the values.
enum Look {
    Open,
    Unit(i32),
    False,
}

pub struct Propagation {
    /// The first two literals of a clause are watched.
    clauses: Vec<Vec<i32>>,
    standing: Vec<Standing>,
    /// Clauses that hints name already are tried first: so fewer are needed in the end.
    needed: Vec<bool>,
    /// The clauses that watch a literal.
    watches: Vec<Vec<usize>>,
    /// The clauses of no or one literal, which are not watched.
    short: Vec<usize>,
    /// For each literal whether it is true.
    is_true: Vec<bool>,
    /// For each variable the clause that gave it its value.
    reasons: Vec<Option<usize>>,
    trail: Vec<i32>,
}

/// The place of a literal in a list.
fn index(literal: i32) -> usize {
    2 * variable(literal) + usize::from(literal < 0)
}

impl Propagation {
    /// Nothing is held yet.
    pub fn new(proof: &Proof) -> Propagation {
        let mut watches = vec![Vec::new(); 2 * proof.vars + 2];
        let mut short = Vec::new();
        for (place, clause) in proof.clauses.iter().enumerate() {
            match clause.literals[..] {
                [one, other, ..] => {
                    watches[index(one)].push(place);
                    watches[index(other)].push(place);
                }
                _ => short.push(place),
            }
        }
        Propagation {
            clauses: proof
                .clauses
                .iter()
                .map(|clause| clause.literals.clone())
                .collect(),
            standing: vec![Standing::Gone; proof.clauses.len()],
            needed: vec![false; proof.clauses.len()],
            watches,
            short,
            is_true: vec![false; 2 * proof.vars + 2],
            reasons: vec![None; proof.vars + 1],
            trail: Vec::new(),
        }
    }

    pub fn hold(&mut self, clause: usize) {
        self.standing[clause] = Standing::Held;
    }

    pub fn delete(&mut self, clause: usize) {
        self.standing[clause] = Standing::Deleted;
    }

    /// Takes back that a clause is added.
    pub fn take_back(&mut self, clause: usize) {
        self.standing[clause] = Standing::Gone;
    }

    pub fn need(&mut self, clause: usize) {
        self.needed[clause] = true;
    }

    pub fn is_needed(&self, clause: usize) -> bool {
        self.needed[clause]
    }

    /// The clauses that refute that all literals of a clause are false, in the order in which each
    /// gives a value, the last one none; those tried first that the solver names.
    pub fn refute(&mut self, literals: &[i32], named: &[usize]) -> Option<Vec<usize>> {
        for literal in self.trail.drain(..) {
            self.is_true[index(literal)] = false;
        }
        for &literal in literals {
            self.assign(-literal, None);
        }
        let conflict = self
            .conflict_among(named)
            .or_else(|| self.conflict_of_all())?;
        Some(self.reasons_of(conflict))
    }

    fn assign(&mut self, literal: i32, reason: Option<usize>) {
        self.is_true[index(literal)] = true;
        self.reasons[variable(literal)] = reason;
        self.trail.push(literal);
    }

    fn is_false(&self, literal: i32) -> bool {
        self.is_true[index(-literal)]
    }

    fn look(&self, clause: usize) -> Look {
        let mut left = self.clauses[clause]
            .iter()
            .filter(|&&literal| !self.is_false(literal));
        match (left.next(), left.next()) {
            (None, _) => Look::False,
            (Some(&literal), None) if !self.is_true[index(literal)] => Look::Unit(literal),
            _ => Look::Open,
        }
    }

    /// Goes through a few clauses as often as one gives a value.
    fn conflict_among(&mut self, named: &[usize]) -> Option<usize> {
        let mut values = usize::MAX;
        while values != self.trail.len() {
            values = self.trail.len();
            for &clause in named {
                match self.look(clause) {
                    Look::False => return Some(clause),
                    Look::Unit(literal) => self.assign(literal, Some(clause)),
                    Look::Open => {}
                }
            }
        }
        None
    }

    fn conflict_of_all(&mut self) -> Option<usize> {
        let held = |&clause: &usize| self.standing[clause] == Standing::Held;
        let short: Vec<usize> = self.short.iter().copied().filter(held).collect();
        if let Some(conflict) = self.conflict_among(&short) {
            return Some(conflict);
        }
        // how many values the needed clauses have seen, and how many the others
        let (mut needed, mut others) = (0, 0);
        loop {
            let conflict = if needed < self.trail.len() {
                needed += 1;
                self.visit(self.trail[needed - 1], true)
            } else if others < self.trail.len() {
                others += 1;
                self.visit(self.trail[others - 1], false)
            } else {
                return None;
            };
            if conflict.is_some() {
                return conflict;
            }
        }
    }

    /// Visits the clauses that watch what a literal makes false: the needed ones or the others.
    fn visit(&mut self, literal: i32, needed: bool) -> Option<usize> {
        let mut watching = std::mem::take(&mut self.watches[index(-literal)]);
        let mut conflict = None;
        watching.retain(|&clause| match self.standing[clause] {
            Standing::Gone => false,
            Standing::Held if conflict.is_none() && self.needed[clause] == needed => {
                let stays = !self.watches_another(clause, -literal);
                if stays && self.conflicts(clause) {
                    conflict = Some(clause);
                }
                stays
            }
            _ => true,
        });
        self.watches[index(-literal)] = watching;
        conflict
    }

    /// Has a clause watch another literal instead of a false one, if it has one that is not false.
    /// Where it has none the false one stands second.
    fn watches_another(&mut self, clause: usize, lost: i32) -> bool {
        let literals = &mut self.clauses[clause];
        if literals[0] == lost {
            literals.swap(0, 1);
        }
        if self.is_true[index(literals[0])] {
            return false;
        }
        let is_true = &self.is_true;
        let other = (2..literals.len()).find(|&place| !is_true[index(-literals[place])]);
        if let Some(place) = other {
            literals.swap(1, place);
            self.watches[index(literals[1])].push(clause);
        }
        other.is_some()
    }

    /// A clause whose first literal alone may not be false gives a value, or is the conflict.
    fn conflicts(&mut self, clause: usize) -> bool {
        let first = self.clauses[clause][0];
        let is_open = !self.is_true[index(first)] && !self.is_false(first);
        if is_open {
            self.assign(first, Some(clause));
        }
        self.is_false(first)
    }

    /// The reasons that lead to a conflict, in the order in which they gave values, and it.
    fn reasons_of(&self, conflict: usize) -> Vec<usize> {
        let mut asked = vec![false; self.reasons.len()];
        let mut reasons = vec![conflict];
        for &literal in &self.clauses[conflict] {
            asked[variable(literal)] = true;
        }
        for &literal in self.trail.iter().rev() {
            let reason = self.reasons[variable(literal)].filter(|_| asked[variable(literal)]);
            for &other in reason.map_or(&[][..], |reason| &self.clauses[reason]) {
                asked[variable(other)] = true;
            }
            reasons.extend(reason);
        }
        reasons.reverse();
        reasons
    }
}
