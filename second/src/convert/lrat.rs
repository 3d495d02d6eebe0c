//! LRAT: a line is an id, the literals of a clause, 0, the ids of its hints, 0; or an id, d, the ids
//! that are deleted, 0.

use super::proof::Proof;
use super::trimming::Lemma;
use crate::terms::{MOST_ENTRIES, MOST_WORDS};
use std::fmt;

pub struct Lrat {
    pub text: String,
    pub lines: usize,
    /// The most that is held at one time.
    pub most_clauses: usize,
    pub most_literals: usize,
}

impl Lrat {
    /// Writes needed clauses down. One is deleted as soon as nothing to come follows from it, so that
    /// as few as possible are held.
    pub fn new(proof: &Proof, lemmas: &[Lemma]) -> Lrat {
        let mut writing = Writing::new(proof, lemmas);
        writing.delete(0);
        for (place, lemma) in lemmas.iter().enumerate() {
            writing.add(lemma);
            if place + 1 < lemmas.len() {
                writing.delete(place + 1);
            }
        }
        writing.lrat
    }

    /// Whether the checker's tables have room for it.
    pub fn fits(&self) -> bool {
        self.most_clauses <= MOST_ENTRIES && self.most_literals <= MOST_WORDS
    }
}

impl fmt::Display for Lrat {
    fn fmt(&self, out: &mut fmt::Formatter<'_>) -> fmt::Result {
        let (lines, bytes) = (self.lines, self.text.len());
        let (clauses, literals) = (self.most_clauses, self.most_literals);
        write!(
            out,
            "{lines} lines, {bytes} bytes, at most {clauses} clauses and {literals} literals held"
        )
    }
}

struct Writing<'p> {
    proof: &'p Proof,
    lrat: Lrat,
    /// The ids of clauses that have one.
    ids: Vec<usize>,
    last_id: usize,
    /// For each number of lemmas the clauses that are not used behind so many.
    spent: Vec<Vec<usize>>,
    clauses: usize,
    literals: usize,
}

impl<'p> Writing<'p> {
    fn new(proof: &'p Proof, lemmas: &[Lemma]) -> Writing<'p> {
        let literals = proof.clauses[..proof.rules]
            .iter()
            .map(|rule| rule.literals.len())
            .sum();
        Writing {
            proof,
            lrat: Lrat {
                text: String::new(),
                lines: 0,
                most_clauses: proof.rules,
                most_literals: literals,
            },
            ids: (1..=proof.clauses.len()).collect(),
            last_id: proof.rules,
            spent: spent(proof, lemmas),
            clauses: proof.rules,
            literals,
        }
    }

    fn add(&mut self, lemma: &Lemma) {
        self.last_id += 1;
        self.ids[lemma.clause] = self.last_id;
        let literals = &self.proof.clauses[lemma.clause].literals;
        self.clauses += 1;
        self.literals += literals.len();
        self.lrat.most_clauses = self.lrat.most_clauses.max(self.clauses);
        self.lrat.most_literals = self.lrat.most_literals.max(self.literals);
        let hints = lemma.hints.iter().map(|&hint| self.ids[hint]);
        let line = format!("{} {}0 {}0\n", self.last_id, words(literals), words(hints));
        self.write(&line);
    }

    /// Deletes what is not used behind so many lemmas.
    fn delete(&mut self, lemmas: usize) {
        let spent = std::mem::take(&mut self.spent[lemmas]);
        if spent.is_empty() {
            return;
        }
        self.clauses -= spent.len();
        for &clause in &spent {
            self.literals -= self.proof.clauses[clause].literals.len();
        }
        let ids = spent.iter().map(|&clause| self.ids[clause]);
        let line = format!("{} d {}0\n", self.last_id, words(ids));
        self.write(&line);
    }

    fn write(&mut self, line: &str) {
        self.lrat.text.push_str(line);
        self.lrat.lines += 1;
    }
}

/// For each number of lemmas the clauses that are not used behind so many. The last lemma is not
/// among them: it is the empty clause.
fn spent(proof: &Proof, lemmas: &[Lemma]) -> Vec<Vec<usize>> {
    let mut last_use = vec![0; proof.clauses.len()];
    for (place, lemma) in lemmas.iter().enumerate() {
        for &hint in &lemma.hints {
            last_use[hint] = place + 1;
        }
    }
    let mut spent = vec![Vec::new(); lemmas.len() + 1];
    let added = lemmas
        .iter()
        .map(|lemma| lemma.clause)
        .take(lemmas.len() - 1);
    for clause in (0..proof.rules).chain(added) {
        spent[last_use[clause]].push(clause);
    }
    spent
}

/// Each with a blank behind it.
fn words<T: fmt::Display>(numbers: impl IntoIterator<Item = T>) -> String {
    numbers
        .into_iter()
        .map(|number| format!("{number} "))
        .collect()
}
