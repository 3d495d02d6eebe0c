//! LEARN and UNSAT with hundreds of hints each: chains of propagation through the tables.

use super::web::{Shape, Web};
use crate::frames::unsat;
use crate::traces::author::Author;

const STEPS: usize = 3_000;

pub fn write(author: &mut Author<'_>) {
    let shape = Shape {
        first: 1,
        links: 1_000,
        sides: 8,
        fewest_sides: 0,
        most_sides: 4,
    };
    let mut web = Web::weave(author, shape);
    for _ in 0..STEPS {
        let hints = author.random.between(200, 900);
        let way = web.straight(hints, &mut author.random);
        if author.random.one_in(2) {
            let assumptions: Vec<i32> = way.clause.iter().map(|literal| -literal).collect();
            author.say(&unsat(&assumptions, &way.hints));
        } else {
            web.learn(author, way);
            web.forget(author);
        }
    }
}
