//! Histories: many accepted steps of the simulated solver, some spoilt frames between them.

use super::author::Author;
use super::moves::{add_any, next_move, Mix};
use super::spoil::spoilt;
use std::collections::VecDeque;

/// Says `steps` frames of the simulated solver. One in `spoil` of them is said spoilt first.
/// An empty state is given clauses to begin with.
pub fn tell(author: &mut Author<'_>, mix: &Mix, steps: usize, spoil: usize) {
    let is_empty = author.state().highest == 0;
    let opening = if is_empty { mix.crowded / 2 } else { 0 };
    let mut planned = VecDeque::new();
    for step in 0..steps {
        let (state, random) = author.desk();
        if planned.is_empty() {
            let choose = if step < opening { add_any } else { next_move };
            planned.extend(choose(state, random, mix));
        }
        let Some(frame) = planned.pop_front() else {
            continue;
        };
        if random.one_in(spoil) {
            let spoilt = spoilt(&frame, state, random);
            author.say(&spoilt);
        }
        author.say(&frame);
    }
}

/// A history over few variables, where clauses meet often.
pub fn small(author: &mut Author<'_>) {
    let used = author.random.between(3, 8) as i32;
    let mix = Mix {
        used: used.min(author.state().vars),
        shortest: 1,
        longest: 4,
        crowded: used as usize * 2,
    };
    tell(author, &mix, 60, 5);
}

/// A history that only takes accepted steps, as far as the solver knows.
pub fn straight(author: &mut Author<'_>) {
    let used = author.random.between(6, 20) as i32;
    let mix = Mix {
        used,
        shortest: 1,
        longest: 5,
        crowded: used as usize * 3,
    };
    tell(author, &mix, 200, usize::MAX);
}

/// A history over some dozen variables with spoilt frames.
pub fn mixed(author: &mut Author<'_>) {
    let used = author.random.between(8, 60) as i32;
    let mix = Mix {
        used,
        shortest: 1,
        longest: 8,
        crowded: used as usize * 2,
    };
    tell(author, &mix, 200, 4);
}

/// A history over all variables with clauses of all lengths.
pub fn wide(author: &mut Author<'_>) {
    let used = author.state().vars;
    let mix = Mix {
        used,
        shortest: 1,
        longest: 256,
        crowded: 60,
    };
    tell(author, &mix, 60, 6);
}

/// A long history in well-filled tables, for timing.
pub fn heavy(author: &mut Author<'_>) {
    let mix = Mix {
        used: 600,
        shortest: 3,
        longest: 8,
        crowded: 800,
    };
    tell(author, &mix, 2_000, 50);
}
