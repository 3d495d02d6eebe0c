//! The cost of a step by the number of clauses held: every trace of a curve has the same steps
//! and differs only in what is held meanwhile.
//!
//! At most N clauses are held, the one that a step brings counted in, so that N may be all the
//! entries there are. Which clause goes is drawn from all that may go, old and new.

use crate::frames::{add, drop_clause, forget, learn, promote};
use crate::traces::author::Author;

/// How often a clause comes and another goes.
const ROUNDS: usize = 120_000;
/// One in so many clauses held is short and lasting, for hints.
const SHORT: usize = 8;

/// A clause that a short one proves: its id and the short one's.
struct Longer {
    id: i32,
    proof: i32,
}

struct Stock {
    short: Vec<(i32, Vec<i32>)>,
    longer: Vec<Longer>,
}

type Bring = fn(&mut Author<'_>, i32, &[i32], i32);

impl Stock {
    /// Holds one clause less than `held`, the short ones spread among the others.
    fn fill(author: &mut Author<'_>, held: usize, bring: Bring) -> Stock {
        let mut stock = Stock {
            short: Vec::new(),
            longer: Vec::new(),
        };
        for place in 0..held - 1 {
            if place % SHORT == 0 {
                stock.add_short(author);
            } else {
                stock.bring(author, bring);
            }
        }
        stock
    }

    /// Every short clause has variables of its own, of which none is in what makes others long.
    fn add_short(&mut self, author: &mut Author<'_>) {
        let first = 1 + 2 * self.short.len() as i32;
        let clause = vec![first, -first - 1];
        let id = author.new_id();
        author.say(&add(id, &clause));
        self.short.push((id, clause));
    }

    /// Brings a clause that holds all literals of a short one, and one to six more.
    fn bring(&mut self, author: &mut Author<'_>, bring: Bring) {
        let (proof, short) = &self.short[author.random.below(self.short.len())];
        let length = author.random.between(1, 6);
        let more = author.random.literals(1_000, length);
        let apart = |literal: i32| literal + 1_000 * literal.signum();
        let clause: Vec<i32> = short
            .iter()
            .copied()
            .chain(more.into_iter().map(apart))
            .collect();
        let id = author.new_id();
        bring(author, id, &clause, *proof);
        self.longer.push(Longer { id, proof: *proof });
    }

    fn take_any(&mut self, author: &mut Author<'_>) -> Longer {
        let place = author.random.below(self.longer.len());
        self.longer.swap_remove(place)
    }
}

fn say_add(author: &mut Author<'_>, id: i32, clause: &[i32], _: i32) {
    author.say(&add(id, clause));
}

fn say_learn(author: &mut Author<'_>, id: i32, clause: &[i32], proof: i32) {
    author.say(&learn(id, clause, &[proof]));
}

fn say_promoted(author: &mut Author<'_>, id: i32, clause: &[i32], proof: i32) {
    say_learn(author, id, clause, proof);
    author.say(&promote(id));
}

/// A clause comes, and any goes by DROP, all that are held being irredundant.
fn come_and_drop(author: &mut Author<'_>, held: usize, bring: Bring) {
    let mut stock = Stock::fill(author, held, bring);
    for _ in 0..ROUNDS {
        stock.bring(author, bring);
        let gone = stock.take_any(author);
        author.say(&drop_clause(gone.id, &[gone.proof]));
    }
}

pub fn add_drop(author: &mut Author<'_>, held: usize) {
    come_and_drop(author, held, say_add);
}

pub fn learn_promote_drop(author: &mut Author<'_>, held: usize) {
    come_and_drop(author, held, say_promoted);
}

/// FORGET takes learned clauses alone: seven in eight of those held are learned.
pub fn learn_forget(author: &mut Author<'_>, held: usize) {
    let mut stock = Stock::fill(author, held, say_learn);
    for _ in 0..ROUNDS {
        stock.bring(author, say_learn);
        let gone = stock.take_any(author);
        author.say(&forget(gone.id));
    }
}
