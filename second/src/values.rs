//! What is known of each variable: true, false or open.
//!
//! The same notebook serves propagation (what has become true or false) and questions about
//! sets of literals (which literals, or their opposites, are in the set). It forgets in time
//! proportional to what was written, never to V.

use crate::terms::variable;

#[derive(Clone, Debug)]
pub struct Values {
    /// By variable: 1 true, -1 false, 0 open. Index 0 stays unused.
    of: Vec<i8>,
    written: Vec<usize>,
}

impl Values {
    pub fn new(vars: i32) -> Values {
        Values {
            of: vec![0; vars as usize + 1],
            written: Vec::new(),
        }
    }

    pub fn is_true(&self, literal: i32) -> bool {
        self.of[variable(literal)] == literal.signum() as i8
    }

    pub fn is_false(&self, literal: i32) -> bool {
        self.is_true(-literal)
    }

    pub fn is_open(&self, literal: i32) -> bool {
        self.of[variable(literal)] == 0
    }

    pub fn make_true(&mut self, literal: i32) {
        self.of[variable(literal)] = literal.signum() as i8;
        self.written.push(variable(literal));
    }

    /// Opens every variable.
    pub fn clear(&mut self) {
        for variable in self.written.drain(..) {
            self.of[variable] = 0;
        }
    }

    /// Forgets all else and makes exactly these literals true.
    pub fn become_set(&mut self, literals: &[i32]) {
        self.clear();
        for &literal in literals {
            self.make_true(literal);
        }
    }
}
