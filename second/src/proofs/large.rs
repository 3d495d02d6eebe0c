//! A large proof to time a checker with: the same bytes every time.

use super::solver::{find_conflict, lesson, place_of, refute, Addition};
use super::Pair;
use crate::random::Random;
use crate::search::Clauses;
use crate::state::Place;
use crate::texts::{find_field, Rules};

/// The variables of the clauses that have a model, and so many clauses that few models are left.
const VARIABLES: i32 = 150;
const CLAUSES: usize = 640;
/// How many clauses are learned from the same held ones.
const ROUND: usize = 16;
/// Learned clauses go when there are so many of them, or when all clauses have so many literals.
const MOST_LEARNED: usize = 300;
const MOST_HELD: usize = 7_000;

/// A sound pair with a proof of at least so many bytes: a solver's rounds of learning and deleting over several hundred
/// clauses that have a model, and at the end the refutation of a few more.
pub fn large(bytes: usize) -> Pair {
    let mut random = Random::new(1);
    let hard = with_model(&mut random);
    let easy = find_field("pigeonhole").map_or_else(|| hard.clone(), |field| field.rules(3));
    let rules = text_of(&hard, &easy);
    let mut rounds = Rounds::new(&hard, easy.clauses.len(), random);
    while rounds.proof.len() < bytes {
        rounds.learn();
        rounds.reduce();
    }
    rounds.finish(&easy);
    Pair::of_texts(rules, rounds.proof.into_bytes())
}

/// Clauses of three literals, one of them at least true in the same model.
fn with_model(random: &mut Random) -> Rules {
    let model: Vec<i32> = (1..=VARIABLES).map(|name| random.signed(name)).collect();
    let mut clauses = Vec::new();
    while clauses.len() < CLAUSES {
        let clause = random.literals(VARIABLES, 3);
        if clause.iter().any(|word| model.contains(word)) {
            clauses.push(clause);
        }
    }
    Rules {
        vars: VARIABLES,
        clauses,
    }
}

/// Both in one text, the variables of the second behind those of the first.
fn text_of(hard: &Rules, easy: &Rules) -> Vec<u8> {
    let vars = hard.vars + easy.vars;
    let clauses = hard.clauses.len() + easy.clauses.len();
    let mut text = format!("p cnf {vars} {clauses}\n");
    let easy = easy.clauses.iter().map(|clause| behind(clause));
    for clause in hard.clauses.iter().cloned().chain(easy) {
        put_numbers(&clause, &mut text);
        text.push_str("0\n");
    }
    text.into_bytes()
}

/// The literals of variables behind those that have a model.
fn behind(clause: &[i32]) -> Vec<i32> {
    let moved = clause.iter().map(|word| word + VARIABLES * word.signum());
    moved.collect()
}

fn put_numbers<T: ToString>(numbers: &[T], text: &mut String) {
    for number in numbers {
        text.push_str(&number.to_string());
        text.push(' ');
    }
}

struct Rounds {
    random: Random,
    variables: Vec<i32>,
    held: Place,
    /// The ids of the learned clauses that are held.
    learned: Vec<i32>,
    next: i32,
    proof: String,
}

impl Rounds {
    fn new(hard: &Rules, others: usize, random: Random) -> Rounds {
        Rounds {
            random,
            variables: (1..=hard.vars).collect(),
            held: place_of(hard),
            learned: Vec::new(),
            next: (hard.clauses.len() + others + 1) as i32,
            proof: String::new(),
        }
    }

    /// A round of restarts, each up to a conflict.
    fn learn(&mut self) {
        let clauses = Clauses::new(VARIABLES).and(&self.held);
        let mut lessons = Vec::new();
        for _ in 0..ROUND {
            self.random.shuffle(&mut self.variables);
            let conflict = find_conflict(&clauses, &self.variables, &mut self.random);
            lessons.extend(conflict.map(|conflict| lesson(0, conflict)));
        }
        for addition in lessons {
            self.learned.push(self.next);
            self.held.insert(self.next, addition.literals.clone());
            self.put(addition);
        }
    }

    /// Writes an addition under the next id.
    fn put(&mut self, addition: Addition) {
        put_numbers(&[self.next], &mut self.proof);
        put_numbers(&addition.literals, &mut self.proof);
        self.proof.push_str("0 ");
        put_numbers(&addition.hints, &mut self.proof);
        self.proof.push_str("0\n");
        self.next += 1;
    }

    /// Half of the learned clauses go when they are too many.
    fn reduce(&mut self) {
        let words: usize = self.held.values().map(Vec::len).sum();
        if self.learned.len() >= MOST_LEARNED || words >= MOST_HELD {
            self.random.shuffle(&mut self.learned);
            self.delete_from(self.learned.len() / 2);
        }
    }

    /// Deletes the learned clauses from this place on.
    fn delete_from(&mut self, place: usize) {
        let gone = self.learned.split_off(place);
        gone.iter().for_each(|id| drop(self.held.remove(id)));
        put_numbers(&[self.next - 1], &mut self.proof);
        self.proof.push_str("d ");
        put_numbers(&gone, &mut self.proof);
        self.proof.push_str("0\n");
    }

    /// The refutation of the clauses that have no model; their ids are behind the others'.
    fn finish(&mut self, easy: &Rules) {
        self.delete_from(0);
        let (clauses, first) = (easy.clauses.len() as i64, i64::from(self.next));
        let rename = |id| match id {
            id if id <= clauses => id + CLAUSES as i64,
            id => id - clauses - 1 + first,
        };
        for mut addition in refute(easy, &mut self.random).unwrap_or_default() {
            addition.literals = behind(&addition.literals);
            addition.hints.iter_mut().for_each(|id| *id = rename(*id));
            self.put(addition);
        }
    }
}
