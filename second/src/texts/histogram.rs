//! How often texts of each class had each number.

use super::{Class, CLASSES};
use crate::dimacs::judge;
use std::collections::BTreeMap;
use std::fmt;

/// 0 for a sound text, and the numbers of the nine faults.
pub const NUMBERS: [u32; 10] = [0, 21, 22, 23, 24, 25, 26, 27, 28, 29];

#[derive(Clone, Debug, Default, PartialEq, Eq)]
pub struct Histogram {
    times: BTreeMap<(&'static str, u32), u64>,
}

impl Histogram {
    /// Counts a text of a class by what the second implementation says of it.
    pub fn count_text(&mut self, class: &Class, text: &[u8]) {
        let number = judge(text).map_or_else(|fault| fault.kind.number(), |_| 0);
        self.count(class.name, number);
    }

    /// Counts one text.
    pub fn count(&mut self, class: &'static str, number: u32) {
        *self.times.entry((class, number)).or_default() += 1;
    }

    pub fn times(&self, class: &'static str, number: u32) -> u64 {
        self.times.get(&(class, number)).copied().unwrap_or(0)
    }

    pub fn texts(&self) -> u64 {
        self.times.values().sum()
    }

    fn row(&self, out: &mut fmt::Formatter<'_>, name: &str, times: [u64; 10]) -> fmt::Result {
        write!(out, "{name:20}")?;
        for times in times {
            match times {
                0 => write!(out, " {:>7}", ".")?,
                _ => write!(out, " {times:>7}")?,
            }
        }
        writeln!(out)
    }
}

impl fmt::Display for Histogram {
    fn fmt(&self, out: &mut fmt::Formatter<'_>) -> fmt::Result {
        write!(out, "{:20}", "")?;
        for number in NUMBERS {
            write!(out, " {number:>7}")?;
        }
        writeln!(out)?;
        for class in &CLASSES {
            let times = NUMBERS.map(|number| self.times(class.name, number));
            if times.iter().any(|&times| times > 0) {
                self.row(out, class.name, times)?;
            }
        }
        let all = |number| {
            CLASSES
                .iter()
                .map(|class| self.times(class.name, number))
                .sum()
        };
        self.row(out, "all", NUMBERS.map(all))
    }
}
