//! Rules as their authors mean them, before anything is wrong with the text.

use super::layout::Mark;
use crate::random::Random;
use crate::terms::{MOST_LITERALS, MOST_VARIABLES};

#[derive(Clone, Debug)]
pub struct Rules {
    pub vars: i32,
    pub clauses: Vec<Vec<i32>>,
}

impl Rules {
    /// Rules of any size that a text of some kilobytes has room for.
    pub fn any(random: &mut Random) -> Rules {
        match random.below(8) {
            0..=3 => {
                let vars = random.between(1, 12);
                Rules::drawn(vars as i32, random.below(9), 0, 6, random)
            }
            4 | 5 => {
                let vars = random.between(9, 60);
                Rules::drawn(vars as i32, random.between(2, 30), 1, 10, random)
            }
            6 => Rules::drawn(1, random.below(5), 0, 1, random),
            _ => Rules::drawn(MOST_VARIABLES, random.between(1, 12), 0, 40, random),
        }
    }

    /// Rules with at least a clause of two literals, and so small that a fault is soon met.
    pub fn few(random: &mut Random) -> Rules {
        let vars = random.between(3, 40);
        Rules::drawn(vars as i32, random.between(1, 8), 2, 6, random)
    }

    /// Rules over so many variables that a clause can be too long.
    pub fn with_room(random: &mut Random) -> Rules {
        let vars = random.between(2 * MOST_LITERALS, MOST_VARIABLES as usize);
        Rules::drawn(vars as i32, random.between(1, 5), 2, 6, random)
    }

    /// Two clauses that are too long together: no variable is in both.
    pub fn long_neighbours(random: &mut Random) -> Rules {
        let length = random.between(MOST_LITERALS + 1, 2 * MOST_LITERALS);
        let mut first = random.literals(MOST_VARIABLES, length);
        let second = first.split_off(length / 2);
        Rules {
            vars: MOST_VARIABLES,
            clauses: vec![first, second],
        }
    }

    /// So many clauses, of `least` to `most` literals each or as many as there are variables.
    pub fn drawn(
        vars: i32,
        clauses: usize,
        least: usize,
        most: usize,
        random: &mut Random,
    ) -> Rules {
        let mut clause = || {
            let length = random.between(least, most);
            random.literals(vars, length)
        };
        let clauses = (0..clauses).map(|_| clause()).collect();
        Rules { vars, clauses }
    }
}

/// A text in the making: the problem line and the words of each clause.
#[derive(Clone, Debug)]
pub struct Draft {
    /// What stands before the problem line.
    pub before: Vec<Mark>,
    /// The words of the problem line; none if there is no such line.
    pub problem: Vec<Vec<u8>>,
    /// The words of each clause, and the 0 that closes it.
    pub clauses: Vec<Vec<Mark>>,
}

/// Where V and the clause count stand in the problem line.
pub const VARIABLES: usize = 2;
pub const CLAUSES: usize = 3;

impl Draft {
    pub fn of(rules: &Rules) -> Draft {
        let clause = |clause: &Vec<i32>| {
            let literals = clause.iter().chain([&0]);
            literals.map(|word| Mark::word(word.to_string())).collect()
        };
        let (vars, clauses) = (rules.vars.to_string(), rules.clauses.len().to_string());
        let problem = ["p", "cnf", &vars, &clauses];
        Draft {
            before: Vec::new(),
            problem: problem.map(|word| word.as_bytes().to_vec()).to_vec(),
            clauses: rules.clauses.iter().map(clause).collect(),
        }
    }

    /// All of it in order.
    pub fn marks(self) -> Vec<Mark> {
        let mut marks = self.before;
        if !self.problem.is_empty() {
            marks.push(Mark::Line(self.problem));
        }
        marks.extend(self.clauses.into_iter().flatten());
        marks
    }

    /// The words of the clauses, each by the place of its clause and its own.
    pub fn words(&mut self) -> impl Iterator<Item = &mut Vec<u8>> {
        self.clauses
            .iter_mut()
            .flatten()
            .filter_map(|mark| match mark {
                Mark::Word(word) => Some(word),
                Mark::Behind(_) | Mark::Line(_) => None,
            })
    }

    /// Leading zeros before some numbers, which are the same numbers then.
    pub fn pad(&mut self, random: &mut Random) {
        let one_in = random.between(1, 6);
        let counts = self.problem.split_at_mut(VARIABLES).1;
        counts.iter_mut().for_each(|word| pad(word, one_in, random));
        self.words().for_each(|word| pad(word, one_in, random));
    }
}

fn pad(word: &mut Vec<u8>, one_in: usize, random: &mut Random) {
    if random.one_in(one_in) {
        let zeros = [1, 2, 3, 8, 17, 20, 300][random.below(7)];
        let first = usize::from(word.starts_with(b"-"));
        word.splice(first..first, vec![b'0'; random.between(1, zeros)]);
    }
}
