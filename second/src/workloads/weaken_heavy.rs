//! WEAKEN with groups of hints, and RESTORE, over and over.

use super::elimination::tie_all;
use crate::traces::author::Author;

const KNOTS: usize = 56;
const TURNS: usize = 8_000;

pub fn write(author: &mut Author<'_>) {
    let mut knots = tie_all(author, 1, KNOTS);
    for _ in 0..TURNS {
        let place = author.random.below(KNOTS);
        knots[place].turn(author);
    }
}
