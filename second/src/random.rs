//! A small seeded generator of numbers (splitmix64).

use std::collections::BTreeSet;

#[derive(Clone, Debug)]
pub struct Random {
    state: u64,
}

impl Random {
    pub fn new(seed: u64) -> Random {
        Random { state: seed }
    }

    pub fn draw(&mut self) -> u64 {
        self.state = self.state.wrapping_add(0x9e37_79b9_7f4a_7c15);
        let mut word = self.state;
        word = (word ^ (word >> 30)).wrapping_mul(0xbf58_476d_1ce4_e5b9);
        word = (word ^ (word >> 27)).wrapping_mul(0x94d0_49bb_1331_11eb);
        word ^ (word >> 31)
    }

    /// A number from 0 to `bound` - 1; the bound is not 0.
    pub fn below(&mut self, bound: usize) -> usize {
        (self.draw() % bound as u64) as usize
    }

    /// A number from `least` to `most`.
    pub fn between(&mut self, least: usize, most: usize) -> usize {
        least + self.below(most - least + 1)
    }

    pub fn one_in(&mut self, chances: usize) -> bool {
        self.below(chances) == 0
    }

    pub fn pick<'t, T>(&mut self, things: &'t [T]) -> Option<&'t T> {
        if things.is_empty() {
            return None;
        }
        Some(&things[self.below(things.len())])
    }

    pub fn shuffle<T>(&mut self, things: &mut [T]) {
        for last in (1..things.len()).rev() {
            things.swap(last, self.below(last + 1));
        }
    }

    /// A variable from 1 to `vars`.
    pub fn variable(&mut self, vars: i32) -> i32 {
        self.between(1, vars as usize) as i32
    }

    pub fn signed(&mut self, variable: i32) -> i32 {
        if self.one_in(2) {
            -variable
        } else {
            variable
        }
    }

    /// Literals of distinct variables up to `vars`, as many as asked for or as there are.
    pub fn literals(&mut self, vars: i32, length: usize) -> Vec<i32> {
        let length = length.min(vars as usize);
        let mut literals = if 4 * length < vars as usize {
            self.few_variables(vars, length)
        } else {
            let mut all: Vec<i32> = (1..=vars).collect();
            self.shuffle(&mut all);
            all.truncate(length);
            all
        };
        for literal in &mut literals {
            *literal = self.signed(*literal);
        }
        literals
    }

    /// Draws variables until there are enough distinct ones.
    fn few_variables(&mut self, vars: i32, length: usize) -> Vec<i32> {
        let mut seen = BTreeSet::new();
        let mut variables = Vec::with_capacity(length);
        while variables.len() < length {
            let variable = self.variable(vars);
            if seen.insert(variable) {
                variables.push(variable);
            }
        }
        variables
    }
}
