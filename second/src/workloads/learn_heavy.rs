//! LEARN with up to four hints, FORGET, some hundred clauses held.

use super::web::{Shape, Web};
use crate::traces::author::Author;

const LEARNED: usize = 300;
const STEPS: usize = 120_000;

pub fn write(author: &mut Author<'_>) {
    let shape = Shape {
        first: 1,
        links: 200,
        sides: 8,
        fewest_sides: 0,
        most_sides: 3,
    };
    let mut web = Web::weave(author, shape);
    for _ in 0..STEPS {
        let hints = author.random.between(2, 4);
        let way = web.any_way(hints, &mut author.random);
        web.learn(author, way);
        if web.learned() > LEARNED {
            web.forget(author);
        }
    }
}
