//! An assignment: every variable true or false.

use crate::terms::variable;

#[derive(Clone, Debug, PartialEq, Eq)]
pub struct Assignment {
    /// By variable; index 0 stays false.
    truth: Vec<bool>,
}

impl Assignment {
    pub fn new(vars: i32, true_variables: &[i32]) -> Assignment {
        let mut truth = vec![false; vars as usize + 1];
        for &variable in true_variables {
            truth[variable as usize] = true;
        }
        Assignment { truth }
    }

    pub fn makes_true(&self, literal: i32) -> bool {
        self.truth[variable(literal)] == (literal > 0)
    }

    pub fn satisfies(&self, clause: &[i32]) -> bool {
        clause.iter().any(|&literal| self.makes_true(literal))
    }

    pub fn make_true(&mut self, literal: i32) {
        self.truth[variable(literal)] = literal > 0;
    }

    /// How many variables differ between the two.
    pub fn changed(&self, other: &Assignment) -> usize {
        let pairs = self.truth.iter().zip(&other.truth);
        pairs.filter(|(one, other)| one != other).count()
    }

    /// The true variables, rising.
    pub fn true_variables(&self) -> Vec<i32> {
        let numbered = (0..).zip(&self.truth);
        numbered
            .filter_map(|(variable, &truth)| truth.then_some(variable))
            .collect()
    }
}
