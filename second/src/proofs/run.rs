//! Generated pairs checked by another implementation, each compared.

use super::histogram::Histogram;
use super::{Class, CLASSES};
use crate::lrat::tell;
use std::fmt;
use std::ops::Range;

/// Checking proofs, whoever implements it.
pub trait ChecksProofs {
    /// Code and detail in tables of these lent sizes.
    fn check(&mut self, entries: usize, words: usize, rules: &[u8], proof: &[u8]) -> (u64, u64);
}

/// Where another checker differs, in words.
#[derive(Clone, Debug, PartialEq, Eq)]
pub struct Difference {
    pub class: &'static str,
    pub seed: u64,
    pub expected: String,
    pub found: String,
}

impl fmt::Display for Difference {
    fn fmt(&self, out: &mut fmt::Formatter<'_>) -> fmt::Result {
        writeln!(out, "class    {}, seed {}", self.class, self.seed)?;
        write!(out, "expected {}\nfound    {}", self.expected, self.found)
    }
}

/// Has a pair of every class checked for each seed: what was tried, or the first difference.
pub fn run(checks: &mut dyn ChecksProofs, seeds: Range<u64>) -> Result<Histogram, Difference> {
    let mut tally = Histogram::default();
    for seed in seeds {
        for class in &CLASSES {
            run_pair(checks, class, seed, &mut tally)?;
        }
    }
    Ok(tally)
}

/// Has the pair of a class and seed checked, in the tables lent to it.
pub fn run_pair(
    checks: &mut dyn ChecksProofs,
    class: &'static Class,
    seed: u64,
    tally: &mut Histogram,
) -> Result<(), Difference> {
    let pair = class.pair(seed);
    let (code, detail) = pair.answer();
    let found = checks.check(pair.lent.entries, pair.lent.words, &pair.rules, &pair.proof);
    tally.count(class.name, code);
    if found == (code.into(), detail) {
        return Ok(());
    }
    Err(Difference {
        class: class.name,
        seed,
        expected: tell(code, detail),
        found: match u32::try_from(found.0) {
            Ok(code) => tell(code, found.1),
            Err(_) => format!("{found:?}"),
        },
    })
}
