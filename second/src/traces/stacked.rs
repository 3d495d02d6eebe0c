//! Hints that name stacked clauses: LEARN and UNSAT may name one, DROP and WEAKEN may not.

use super::author::Author;
use super::spoil::any_id;
use crate::frames::{add, drop_clause, forget, learn, restore, unsat, weaken};
use crate::random::Random;
use std::collections::VecDeque;

/// Links (a b), (-b c), (-c d) .. and clauses that follow from them. Links are weakened from the
/// first on, each with its first literal as witness, and restored from the last weakened one: so
/// WEAKEN needs no group, and RESTORE is clean.
struct Way {
    /// a, b, c, d ..: one more than links.
    nodes: Vec<i32>,
    links: Vec<i32>,
    /// How many links are stacked.
    stacked: usize,
    /// An irredundant clause of the first and the last node, which all links prove.
    implied: i32,
    /// An irredundant clause that all links allow to be weakened with this witness, and the
    /// clauses that it needs groups for.
    weakened: i32,
    witness: i32,
    needing: [i32; 2],
}

fn say_add(author: &mut Author<'_>, clause: &[i32]) -> i32 {
    let id = author.new_id();
    author.say(&add(id, clause));
    id
}

fn lay_way(author: &mut Author<'_>) -> Way {
    let length = author.random.between(2, 9);
    let mut nodes = author.literals(length + 3);
    let (witness, beside) = (nodes[length + 1], nodes[length + 2]);
    nodes.truncate(length + 1);
    let (first, last) = (nodes[0], nodes[length]);
    let links = (0..length).map(|place| say_add(author, &link(&nodes, place)));
    let links = links.collect();
    Way {
        links,
        stacked: 0,
        implied: say_add(author, &[first, last]),
        weakened: say_add(author, &[witness, first]),
        needing: [
            say_add(author, &[last, -witness]),
            say_add(author, &[beside, -witness, last]),
        ],
        witness,
        nodes,
    }
}

fn link(nodes: &[i32], place: usize) -> [i32; 2] {
    let from = if place == 0 { nodes[0] } else { -nodes[place] };
    [from, nodes[place + 1]]
}

/// One of the hints replaced by the id of any clause, held or gone.
fn with_any_id(hints: &[i32], author: &mut Author<'_>) -> Vec<i32> {
    let (state, random) = author.desk();
    let mut hints = hints.to_vec();
    let place = random.below(hints.len());
    hints[place] = any_id(state, random);
    hints
}

impl Way {
    /// The first links as hints. From either end each of them has one open literal, and the last
    /// one taken has none.
    fn hints(&self, length: usize, random: &mut Random) -> Vec<i32> {
        let mut left: VecDeque<i32> = self.links[..length].iter().copied().collect();
        let taken = std::iter::from_fn(|| {
            if random.one_in(2) {
                left.pop_front()
            } else {
                left.pop_back()
            }
        });
        taken.collect()
    }

    /// Weakens or restores links until another number of them is stacked.
    fn shift(&mut self, author: &mut Author<'_>) {
        let stacked = author.random.between(0, self.links.len());
        while self.stacked < stacked {
            let witness = link(&self.nodes, self.stacked)[0];
            author.say(&weaken(self.links[self.stacked], &[witness], &[]));
            self.stacked += 1;
        }
        while self.stacked > stacked {
            self.stacked -= 1;
            author.say(&restore(self.links[self.stacked]));
        }
    }

    /// LEARN and UNSAT of what only the first links prove: the first of them stacked, there is no
    /// other way. What is learned serves until it is forgotten.
    fn claim(&self, author: &mut Author<'_>) {
        let length = author.random.between(1, self.links.len() - 1);
        let target = [self.nodes[0], self.nodes[length]];
        let assumptions = target.map(|literal| -literal);
        let hints = self.hints(length, &mut author.random);
        let spoilt = with_any_id(&hints, author);
        author.say(&unsat(&assumptions, &spoilt));
        author.say(&unsat(&assumptions, &hints));
        for hints in [spoilt, hints] {
            let id = author.new_id();
            if author.say(&learn(id, &target, &hints)).is_accepted() {
                author.say(&unsat(&assumptions, &[id]));
                author.say(&forget(id));
                author.say(&unsat(&assumptions, &[id]));
                author.say(&learn(id + 1, &target, &[id]));
            }
        }
    }

    /// DROP and WEAKEN of what all links prove, refused while one is stacked. What went is brought
    /// back.
    fn simplify(&mut self, author: &mut Author<'_>) {
        let hints = self.hints(self.links.len(), &mut author.random);
        for hints in [with_any_id(&hints, author), hints.clone()] {
            if author.say(&drop_clause(self.implied, &hints)).is_accepted() {
                let (first, last) = (self.nodes[0], self.nodes[self.links.len()]);
                self.implied = say_add(author, &[first, last]);
            }
        }
        // Where the implied clause proves the first group, the second one is read, too.
        let groups = self.needing.map(|needing| {
            if author.random.one_in(2) {
                (needing, vec![self.implied])
            } else {
                (needing, hints.clone())
            }
        });
        let frame = weaken(self.weakened, &[self.witness], &groups);
        if author.say(&frame).is_accepted() {
            author.say(&restore(self.weakened));
        }
    }
}

/// Links that go to the stack and come back, and in between every operation that reads hints.
pub fn stacked_hints(author: &mut Author<'_>) {
    let mut way = lay_way(author);
    for _ in 0..12 {
        way.shift(author);
        way.claim(author);
        way.simplify(author);
    }
}
