//! A proof as steps over numbered clauses, whatever it was written in.

use super::reader::{Fault, Place, Reader};
use crate::dimacs;
use crate::terms::MOST_LITERALS;

pub struct Clause {
    /// By rising number, none twice.
    pub literals: Vec<i32>,
    /// Where the step that adds it stands.
    pub place: Place,
    /// What it follows from, if the solver says so.
    pub hints: Vec<usize>,
}

/// A clause is told by where it stands in the proof's list.
#[derive(Clone, Copy, Debug)]
pub enum Step {
    Add(usize),
    Delete(usize),
}

pub struct Proof {
    pub vars: usize,
    /// How many of the clauses are rules: the first ones.
    pub rules: usize,
    pub clauses: Vec<Clause>,
    pub steps: Vec<Step>,
}

impl Proof {
    /// No step yet.
    pub fn of_rules(text: &[u8]) -> Result<Proof, dimacs::Fault> {
        let (declared, frames) = dimacs::read(text)?;
        // operation and id stand before the literals
        let rules = frames.iter().map(|frame| Clause {
            literals: sorted(frame[2..].to_vec()),
            place: Place::Line(0),
            hints: Vec::new(),
        });
        let clauses: Vec<Clause> = rules.collect();
        Ok(Proof {
            vars: declared.vars as usize,
            rules: clauses.len(),
            clauses,
            steps: Vec::new(),
        })
    }

    /// Whether the last step adds the empty clause, behind which nothing matters.
    pub fn is_complete(&self) -> bool {
        matches!(self.steps.last(), Some(&Step::Add(added)) if self.clauses[added].literals.is_empty())
    }

    /// Adds a clause; tells where it stands.
    pub fn add(&mut self, literals: Vec<i32>, place: Place, hints: Vec<usize>) -> usize {
        let added = self.clauses.len();
        self.clauses.push(Clause {
            literals,
            place,
            hints,
        });
        self.steps.push(Step::Add(added));
        added
    }

    /// A proof may leave it to its reader to see that the clauses it ends with refute each other.
    pub fn complete(mut self, end: Place) -> Proof {
        if !self.is_complete() {
            self.add(Vec::new(), end, Vec::new());
        }
        self
    }

    /// The literals of a step, which the checker must be able to read.
    pub fn take_literals(&self, reader: &mut Reader<'_>) -> Result<Vec<i32>, Fault> {
        let mut literals = Vec::new();
        for number in reader.take_numbers()? {
            if number.unsigned_abs() > self.vars as u64 {
                let told = format!(
                    "variable {} is not one of the rules: the solver has made it up",
                    number.unsigned_abs()
                );
                return Err(reader.fault(told));
            }
            literals.push(number as i32);
        }
        let literals = sorted(literals);
        if literals.len() > MOST_LITERALS {
            return Err(reader.fault(format!("the clause has more than {MOST_LITERALS} literals")));
        }
        Ok(literals)
    }
}

fn sorted(mut literals: Vec<i32>) -> Vec<i32> {
    literals.sort_unstable();
    literals.dedup();
    literals
}
