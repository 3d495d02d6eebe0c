//! A proof judged line by line.

use super::held::Held;
use super::lines::{Line, Lines, Malformed};
use super::refusal::Refusal;
use crate::dimacs::{self, Frames};
use crate::propagation::prove;
use crate::terms::{MOST_ENTRIES, MOST_LITERALS, MOST_WORDS};
use crate::values::Values;

/// Checks a proof against a CNF text, in tables of these lent sizes: code and detail.
pub fn check(entries: usize, words: usize, cnf: &[u8], proof: &[u8]) -> (u32, u64) {
    if !(1..=MOST_ENTRIES).contains(&entries) || !(1..=MOST_WORDS).contains(&words) {
        return (1, 0);
    }
    // "That text's faults come first"
    let (declared, frames) = match dimacs::read(cnf) {
        Ok(read) => read,
        Err(fault) => return (fault.kind.number(), fault.position as u64),
    };
    let mut checker = Checker::new(declared.vars, Held::within(entries, words));
    // "no room for it is 12 or 13 with line 0"
    if let Err(refusal) = checker.load(&frames) {
        return (refusal.number(), 0);
    }
    match checker.judge(Lines::new(proof)) {
        Ok(()) => (0, 0),
        Err((refusal, line)) => (refusal.number(), line),
    }
}

struct Checker {
    vars: i64,
    held: Held,
    /// The highest id of the CNF's and the added clauses, gone ones too.
    highest: i64,
    values: Values,
}

impl Checker {
    fn new(vars: i32, held: Held) -> Checker {
        Checker {
            vars: vars.into(),
            held,
            highest: 0,
            values: Values::new(vars),
        }
    }

    /// The CNF's clauses one by one, under the ids 1, 2, 3 and so on.
    fn load(&mut self, frames: &Frames) -> Result<(), Refusal> {
        for frame in frames.iter() {
            let literals = &frame[2..];
            self.held.has_room(literals.len())?;
            self.highest += 1;
            self.held.keep(self.highest, literals.to_vec());
        }
        Ok(())
    }

    /// Judges lines up to the first empty clause; what stands behind it is not read.
    fn judge(&mut self, mut lines: Lines<'_>) -> Result<(), (Refusal, u64)> {
        let mut line = Line::default();
        let mut number = 0;
        while !lines.is_over() {
            number += 1;
            let read = lines.read(&mut line);
            let passed = read.map_err(|Malformed| Refusal::Malformed);
            passed
                .and_then(|()| self.pass(&line))
                .map_err(|refusal| (refusal, number))?;
            if !line.deletes && line.literals.is_empty() {
                return Ok(());
            }
        }
        Err((Refusal::NoEmptyClause, number))
    }

    fn pass(&mut self, line: &Line) -> Result<(), Refusal> {
        if line.deletes {
            return line.ids.iter().try_for_each(|&id| self.held.delete(id));
        }
        self.has_literals(&line.literals)?;
        if line.id <= self.highest {
            return Err(Refusal::IdNotAbove);
        }
        if line.ids.iter().any(|&hint| hint < 0) {
            return Err(Refusal::NegativeHint);
        }
        self.held.has_room(line.literals.len())?;
        // All are within the CNF's count by now.
        let clause: Vec<i32> = line.literals.iter().map(|&word| word as i32).collect();
        self.prove(&clause, &line.ids)?;
        self.held.keep(line.id, clause);
        self.highest = line.id;
        Ok(())
    }

    /// Whether these are a clause of literals: all of them are held to the count before any to Terms.
    fn has_literals(&mut self, words: &[i64]) -> Result<(), Refusal> {
        if words.iter().any(|word| word.abs() > self.vars) {
            return Err(Refusal::PastCount);
        }
        if words.len() > MOST_LITERALS {
            return Err(Refusal::AgainstTerms);
        }
        self.values.clear();
        for &word in words {
            if !self.values.is_open(word as i32) {
                return Err(Refusal::AgainstTerms);
            }
            self.values.make_true(word as i32);
        }
        Ok(())
    }

    /// "Use the propagation of document 01": any held clause may be a hint.
    fn prove(&mut self, clause: &[i32], hints: &[i64]) -> Result<(), Refusal> {
        let target = clause.iter().copied();
        let hints = hints.iter().copied().enumerate();
        let held = &self.held;
        prove(&mut self.values, target, hints, |id| held.find(id)).map_err(|_| Refusal::Unproved)
    }
}
