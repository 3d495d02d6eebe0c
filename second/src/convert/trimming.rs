//! What of a proof is needed: it is walked from its end, so that a clause which nothing follows
//! from is never proved.

use super::proof::{Proof, Step};
use super::propagation::Propagation;
use super::reader::Fault;

const NOT_BY_PROPAGATION: &str = "the clause does not follow by propagation. If it was added by the stronger rule (RAT), which is not taken here, \
let the solver do without: cadical --plain, or --block=0 --cover=0 --condition=0; cryptominisat5 --bva 0 --varelim 0";

/// A clause that is needed, and what it follows from, in the order of propagation.
pub struct Lemma {
    pub clause: usize,
    pub hints: Vec<usize>,
}

/// The needed clauses of a proof that ends with the empty one, in its order.
pub fn trim(proof: &Proof) -> Result<Vec<Lemma>, Fault> {
    let mut propagation = Propagation::new(proof);
    (0..proof.rules).for_each(|rule| propagation.hold(rule));
    for step in &proof.steps {
        match *step {
            Step::Add(clause) => propagation.hold(clause),
            Step::Delete(clause) => propagation.delete(clause),
        }
    }
    propagation.need(proof.clauses.len() - 1);
    let mut lemmas = Vec::new();
    for step in proof.steps.iter().rev() {
        match *step {
            Step::Delete(clause) => propagation.hold(clause),
            Step::Add(clause) => {
                propagation.take_back(clause);
                lemmas.extend(prove(clause, proof, &mut propagation)?);
            }
        }
    }
    lemmas.reverse();
    Ok(lemmas)
}

/// Proves a clause if it is needed; what it follows from is needed, too.
fn prove(
    clause: usize,
    proof: &Proof,
    propagation: &mut Propagation,
) -> Result<Option<Lemma>, Fault> {
    if !propagation.is_needed(clause) {
        return Ok(None);
    }
    let added = &proof.clauses[clause];
    let hints = propagation.refute(&added.literals, &added.hints);
    let hints = hints.ok_or_else(|| added.place.fault(NOT_BY_PROPAGATION))?;
    hints.iter().for_each(|&hint| propagation.need(hint));
    Ok(Some(Lemma { clause, hints }))
}
