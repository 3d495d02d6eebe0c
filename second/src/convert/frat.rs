//! FRAT: steps with ids. o repeats a rule, a adds a clause, d deletes one, r gives clauses other ids
//! and f tells one that is left; behind an a may stand l and the ids of what the clause follows from.

use super::proof::{Proof, Step};
use super::reader::{Fault, Reader};
use std::collections::HashMap;

/// What is not known here. Solvers that reason over exclusive ors or sums write steps of their own.
const UNKNOWN: &str = "is not taken; a solver must be told to reason over clauses alone, without exclusive ors (x) and sums (b)";

pub fn read(proof: Proof, mut reader: Reader<'_>) -> Result<Proof, Fault> {
    let mut reading = Reading::new(proof);
    while !reading.proof.is_complete() && reader.find_step() {
        match reader.take_letter() {
            Some('o') => reading.repeat(&mut reader)?,
            Some('a') => reading.add(&mut reader)?,
            Some('d') => reading.delete(&mut reader)?,
            Some('r') => reading.renumber(&mut reader)?,
            Some('f') => {
                reader.take_id()?;
                reader.take_numbers()?;
            }
            Some(letter) => return Err(reader.fault(format!("a step {letter} {UNKNOWN}"))),
            None => return Err(reader.fault("a step begins with a letter")),
        }
    }
    Ok(reading.proof.complete(reader.place()))
}

struct Reading {
    proof: Proof,
    /// Where the rules of the same literals stand that have no id yet, the first one last.
    rules: HashMap<Vec<i32>, Vec<usize>>,
    /// Where the clause of an id stands.
    of_id: HashMap<u64, usize>,
}

impl Reading {
    fn new(proof: Proof) -> Reading {
        let mut rules: HashMap<Vec<i32>, Vec<usize>> = HashMap::new();
        for (rule, clause) in proof.clauses.iter().enumerate().rev() {
            rules.entry(clause.literals.clone()).or_default().push(rule);
        }
        Reading {
            proof,
            rules,
            of_id: HashMap::new(),
        }
    }

    /// o: the solver numbers rules as it likes, and may clean one up before it reads the next.
    fn repeat(&mut self, reader: &mut Reader<'_>) -> Result<(), Fault> {
        let (id, literals) = self.take_clause(reader)?;
        let rule = self.rules.get_mut(&literals).and_then(Vec::pop);
        let rule = rule.ok_or_else(|| {
            reader.fault("the clause is no rule, or is told more often than it is one")
        })?;
        self.of_id.insert(id, rule);
        Ok(())
    }

    /// a, with or without what it follows from.
    fn add(&mut self, reader: &mut Reader<'_>) -> Result<(), Fault> {
        let (id, literals) = self.take_clause(reader)?;
        let mut hints = Vec::new();
        if reader.takes(b'l') {
            for hint in reader.take_numbers()? {
                let named = u64::try_from(hint)
                    .ok()
                    .and_then(|hint| self.of_id.get(&hint));
                hints.push(*named.ok_or_else(|| reader.fault(format!("{hint} is no id so far")))?);
            }
        }
        let added = self.proof.add(literals, reader.place(), hints);
        self.of_id.insert(id, added);
        Ok(())
    }

    fn delete(&mut self, reader: &mut Reader<'_>) -> Result<(), Fault> {
        let (id, _) = self.take_clause(reader)?;
        let deleted = self.of_id.remove(&id);
        let deleted = deleted.ok_or_else(|| reader.fault(format!("{id} is no id so far")))?;
        self.proof.steps.push(Step::Delete(deleted));
        Ok(())
    }

    /// r: pairs of an id so far and the one that takes its place, all at once.
    fn renumber(&mut self, reader: &mut Reader<'_>) -> Result<(), Fault> {
        let mut moved = Vec::new();
        loop {
            let from = reader.take_id()?;
            if from == 0 {
                break;
            }
            let clause = self.of_id.remove(&from);
            let clause = clause.ok_or_else(|| reader.fault(format!("{from} is no id so far")))?;
            moved.push((reader.take_id()?, clause));
        }
        self.of_id.extend(moved);
        Ok(())
    }

    fn take_clause(&self, reader: &mut Reader<'_>) -> Result<(u64, Vec<i32>), Fault> {
        let id = reader.take_id()?;
        Ok((id, self.proof.take_literals(reader)?))
    }
}
