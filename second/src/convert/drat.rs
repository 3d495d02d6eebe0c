//! DRAT: a line is a clause that is added, or d and one that is deleted, told by its literals. In
//! binary an added one has the letter a.

use super::proof::{Proof, Step};
use super::reader::{Fault, Reader};
use std::collections::HashMap;

/// Where the clauses of the same literals stand that are held.
type Held = HashMap<Vec<i32>, Vec<usize>>;

pub fn read(mut proof: Proof, mut reader: Reader<'_>) -> Result<Proof, Fault> {
    let mut held = Held::new();
    for (rule, clause) in proof.clauses.iter().enumerate() {
        held.entry(clause.literals.clone()).or_default().push(rule);
    }
    while !proof.is_complete() && reader.find_step() {
        let letter = reader.take_letter();
        let literals = proof.take_literals(&mut reader)?;
        match letter {
            None | Some('a') => {
                let added = proof.add(literals.clone(), reader.place(), Vec::new());
                held.entry(literals).or_default().push(added);
            }
            Some('d') => {
                let deleted = held.get_mut(&literals).and_then(Vec::pop);
                let deleted =
                    deleted.ok_or_else(|| reader.fault("the clause to delete is not held"))?;
                proof.steps.push(Step::Delete(deleted));
            }
            Some(letter) => return Err(reader.fault(format!("a step {letter} is no DRAT"))),
        }
    }
    Ok(proof.complete(reader.place()))
}
