//! SAT with about 1,000 words, over well-filled tables and a stack that mends.

use super::elimination::{model_of, tie_all, Knot, VARIABLES};
use crate::frames::sat;
use crate::random::Random;
use crate::terms::MOST_VARIABLES;
use crate::traces::author::Author;

const KNOTS: usize = 56;
const MODELS: usize = 2_000;
/// One in so many of the variables that no clause holds is true.
const SPARSE: usize = 4;

pub fn write(author: &mut Author<'_>) {
    let mut knots = tie_all(author, 1, KNOTS);
    for knot in knots.iter_mut().step_by(2) {
        knot.eliminate(author);
    }
    for _ in 0..MODELS {
        let model = offered(&knots, &mut author.random);
        let length = author.random.below(8);
        let assumptions: Vec<i32> = (0..length)
            .map(|_| knots[author.random.below(KNOTS)].sure())
            .collect();
        author.say(&sat(&assumptions, &model));
    }
}

fn offered(knots: &[Knot], random: &mut Random) -> Vec<i32> {
    let mut model = model_of(knots, random);
    let unused = KNOTS as i32 * VARIABLES + 1..=MOST_VARIABLES;
    model.extend(unused.filter(|_| random.one_in(SPARSE)));
    model
}
