//! Proofs as solvers write them, brought to LRAT (document 02, request 3): DRAT, which has clauses
//! alone, and FRAT, which names the clauses that a step follows from, in no order.
//!
//! `reader` finds letters and numbers, `drat` and `frat` make a `Proof` of them. `trimming` walks it
//! from its end and keeps what is needed, with hints by `propagation`; `lrat` writes that down, each
//! clause deleted behind its last use. Nothing here is trusted: a checker reads what is written.

mod drat;
mod frat;
mod lrat;
mod proof;
mod propagation;
mod reader;
#[cfg(test)]
mod tests;
mod trimming;

pub use lrat::Lrat;
pub use reader::Fault;

use proof::Proof;
use reader::Reader;

/// How a proof is written; each as text or binary, which its bytes tell.
#[derive(Clone, Copy, Debug, PartialEq, Eq)]
pub enum Format {
    Drat,
    Frat,
}

impl Format {
    /// FRAT begins with a clause of the rules, which DRAT does not repeat.
    pub fn of(proof: &[u8]) -> Format {
        match proof.first() {
            Some(b'o') => Format::Frat,
            _ => Format::Drat,
        }
    }
}

/// Why there is no LRAT proof.
#[derive(Clone, Debug, PartialEq, Eq)]
pub enum Refusal {
    Rules(crate::dimacs::Fault),
    Proof(Fault),
}

impl std::fmt::Display for Refusal {
    fn fmt(&self, out: &mut std::fmt::Formatter<'_>) -> std::fmt::Result {
        match self {
            Refusal::Rules(fault) => write!(out, "the rules: {fault}"),
            Refusal::Proof(fault) => write!(out, "the proof: {fault}"),
        }
    }
}

/// The LRAT proof that a proof of the rules in DIMACS comes to.
pub fn convert(rules: &[u8], proof: &[u8], format: Format) -> Result<Lrat, Refusal> {
    let rules = Proof::of_rules(rules).map_err(Refusal::Rules)?;
    let reader = Reader::new(proof);
    let read = match format {
        Format::Drat => drat::read(rules, reader),
        Format::Frat => frat::read(rules, reader),
    };
    read.and_then(|proof| Ok(Lrat::new(&proof, &trimming::trim(&proof)?)))
        .map_err(Refusal::Proof)
}
