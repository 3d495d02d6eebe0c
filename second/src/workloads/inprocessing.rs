//! What a solver that simplifies as it goes would send, in rounds: it learns and forgets,
//! promotes what it means to keep and drops what follows from it, eliminates variables and
//! brings others back, takes in new clauses, and answers calls under assumptions.

use super::elimination::{model_of, tie_all, Knot, VARIABLES};
use super::web::{Shape, Web};
use crate::frames::{add, drop_clause, learn, promote, sat, unsat};
use crate::random::Random;
use crate::traces::author::Author;

const ROUNDS: usize = 1_000;
const KNOTS: usize = 24;
const SIDES: usize = 8;
/// Learned clauses beyond these are forgotten at the end of a round.
const KEPT: usize = 200;
/// Redundant irredundant clauses beyond these are dropped.
const UNDROPPED: usize = 20;

struct Solver {
    web: Web,
    knots: Vec<Knot>,
    /// Added or promoted clauses that follow from the web: id and hints.
    implied: Vec<(i32, Vec<i32>)>,
}

pub fn write(author: &mut Author<'_>) {
    let shape = Shape {
        first: KNOTS as i32 * VARIABLES + 1,
        links: 300,
        sides: SIDES,
        fewest_sides: 0,
        most_sides: 3,
    };
    let mut solver = Solver {
        knots: tie_all(author, 1, KNOTS),
        web: Web::weave(author, shape),
        implied: Vec::new(),
    };
    for _ in 0..ROUNDS {
        solver.search(author);
        solver.simplify(author);
        solver.answer_calls(author);
    }
}

impl Solver {
    fn search(&mut self, author: &mut Author<'_>) {
        for _ in 0..author.random.between(20, 60) {
            let hints = author.random.between(2, 30);
            let way = self.web.any_way(hints, &mut author.random);
            self.web.learn(author, way);
        }
        while self.web.learned() > KEPT {
            self.web.forget(author);
        }
    }

    fn simplify(&mut self, author: &mut Author<'_>) {
        let place = author.random.below(KNOTS);
        self.knots[place].turn(author);
        for _ in 0..author.random.between(1, 4) {
            self.keep(author);
        }
        while self.implied.len() > UNDROPPED {
            let place = author.random.below(self.implied.len());
            let (id, hints) = self.implied.swap_remove(place);
            author.say(&drop_clause(id, &hints));
        }
    }

    /// A clause that follows becomes irredundant: learned and promoted, or added by the caller.
    fn keep(&mut self, author: &mut Author<'_>) {
        let hints = author.random.between(2, 12);
        let way = self.web.straight(hints, &mut author.random);
        let id = author.new_id();
        if author.random.one_in(2) {
            author.say(&learn(id, &way.clause, &way.hints));
            author.say(&promote(id));
        } else {
            author.say(&add(id, &way.clause));
        }
        self.implied.push((id, way.hints));
    }

    fn answer_calls(&mut self, author: &mut Author<'_>) {
        let length = author.random.below(6);
        let assumptions: Vec<i32> = (0..length)
            .map(|_| self.knots[author.random.below(KNOTS)].sure())
            .collect();
        let model = self.model(&mut author.random);
        author.say(&sat(&assumptions, &model));
        let hints = author.random.between(2, 60);
        let way = self.web.any_way(hints, &mut author.random);
        let assumptions: Vec<i32> = way.clause.iter().map(|literal| -literal).collect();
        author.say(&unsat(&assumptions, &way.hints));
    }

    /// A model of the knots, and of the web: from some node on all are true.
    fn model(&self, random: &mut Random) -> Vec<i32> {
        let mut model = model_of(&self.knots, random);
        let first = KNOTS as i32 * VARIABLES + 1;
        let end = first + self.web.links() as i32 + 1;
        let from = random.between(first as usize, end as usize) as i32;
        model.extend(from..end);
        model.extend((end..).take(SIDES).filter(|_| random.one_in(2)));
        model
    }
}
