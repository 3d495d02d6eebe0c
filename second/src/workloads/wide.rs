//! Clauses of 200 to 256 literals: the tables hold about 30 of them.

use super::web::{Shape, Web};
use crate::frames::{add, drop_clause};
use crate::traces::author::Author;

const LEARNED: usize = 8;
const STEPS: usize = 5_000;

pub fn write(author: &mut Author<'_>) {
    let shape = Shape {
        first: 1,
        links: 22,
        sides: 254,
        fewest_sides: 198,
        most_sides: 254,
    };
    let mut web = Web::weave(author, shape);
    for _ in 0..STEPS {
        let hints = author.random.between(2, 8);
        let way = web.any_way(hints, &mut author.random);
        web.learn(author, way);
        if web.learned() > LEARNED {
            web.forget(author);
        }
        let hints = author.random.between(2, 8);
        let way = web.straight(hints, &mut author.random);
        let id = author.new_id();
        author.say(&add(id, &way.clause));
        author.say(&drop_clause(id, &way.hints));
    }
}
