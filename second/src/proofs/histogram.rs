//! How often pairs of each class had each number.

use super::{Class, Pair, CLASSES};
use std::collections::BTreeMap;
use std::fmt;

/// 0 for an accepted proof, 1 and no room, the faults of the rules and those of the proof.
pub const NUMBERS: [u32; 21] = [
    0, 1, 12, 13, 21, 22, 23, 24, 25, 26, 27, 28, 29, 31, 32, 33, 34, 35, 36, 37, 38,
];

#[derive(Clone, Debug, Default, PartialEq, Eq)]
pub struct Histogram {
    times: BTreeMap<(&'static str, u32), u64>,
}

impl Histogram {
    /// Counts a pair of a class by what the second implementation says of it in the tables lent to it.
    pub fn count_pair(&mut self, class: &Class, pair: &Pair) {
        self.count(class.name, pair.answer().0);
    }

    /// Counts one pair.
    pub fn count(&mut self, class: &'static str, number: u32) {
        *self.times.entry((class, number)).or_default() += 1;
    }

    pub fn times(&self, class: &'static str, number: u32) -> u64 {
        self.times.get(&(class, number)).copied().unwrap_or(0)
    }

    /// Over all classes.
    pub fn all(&self, number: u32) -> u64 {
        CLASSES
            .iter()
            .map(|class| self.times(class.name, number))
            .sum()
    }

    pub fn pairs(&self) -> u64 {
        self.times.values().sum()
    }

    fn row(&self, out: &mut fmt::Formatter<'_>, name: &str, times: [u64; 21]) -> fmt::Result {
        write!(out, "{name:16}")?;
        for times in times {
            match times {
                0 => write!(out, " {:>5}", ".")?,
                _ => write!(out, " {times:>5}")?,
            }
        }
        writeln!(out)
    }
}

impl fmt::Display for Histogram {
    fn fmt(&self, out: &mut fmt::Formatter<'_>) -> fmt::Result {
        write!(out, "{:16}", "")?;
        for number in NUMBERS {
            write!(out, " {number:>5}")?;
        }
        writeln!(out)?;
        for class in &CLASSES {
            let times = NUMBERS.map(|number| self.times(class.name, number));
            if times.iter().any(|&times| times > 0) {
                self.row(out, class.name, times)?;
            }
        }
        self.row(out, "all", NUMBERS.map(|number| self.all(number)))
    }
}
