//! Variables that a solver eliminates and brings back, each in a knot of clauses of its own.
//!
//! With p the variable, a knot has (p a a'), (-p b b'), (a a' t) and (-t b b'), four of each and
//! every a and b of its own. The last two kinds are the resolvents on p, cut in two by t: they
//! prove each group that WEAKEN of (p a a') with the witness p needs.

use crate::frames::{add, restore, weaken, Group};
use crate::random::Random;
use crate::traces::author::Author;

/// How many clauses of each of the four kinds a knot has.
const EACH: usize = 4;
/// How many variables a knot has: p, t, the pairs a and the pairs b.
pub const VARIABLES: i32 = 2 + 4 * EACH as i32;

pub struct Knot {
    first: i32,
    is_eliminated: bool,
    positive: Vec<i32>,
    negative: Vec<i32>,
    to_t: Vec<i32>,
    from_t: Vec<i32>,
}

impl Knot {
    /// Adds the clauses of a knot whose variables are `first` and those after it.
    pub fn tie(author: &mut Author<'_>, first: i32) -> Knot {
        let (p, t) = (first, first + 1);
        let mut add_each = |start: fn(usize) -> i32, literal: i32| -> Vec<i32> {
            let pairs = (0..EACH).map(|place| first + start(place));
            pairs
                .map(|pair| say_add(author, &[literal, pair, pair + 1]))
                .collect()
        };
        Knot {
            first,
            is_eliminated: false,
            positive: add_each(a, p),
            negative: add_each(b, -p),
            to_t: add_each(a, t),
            from_t: add_each(b, -t),
        }
    }

    /// Weakens the clauses that hold p, then those that hold its opposite, which then need no
    /// groups any more.
    pub fn eliminate(&mut self, author: &mut Author<'_>) {
        for (&id, &to_t) in self.positive.iter().zip(&self.to_t) {
            let resolvents = self.negative.iter().zip(&self.from_t);
            let groups: Vec<Group> = resolvents
                .map(|(&other, &from_t)| (other, vec![to_t, from_t]))
                .collect();
            author.say(&weaken(id, &[self.first], &groups));
        }
        for &id in &self.negative {
            author.say(&weaken(id, &[-self.first], &[]));
        }
        self.is_eliminated = true;
    }

    /// Restores from the knot's topmost record to its lowest: so each is clean.
    fn bring_back(&mut self, author: &mut Author<'_>) {
        for &id in self.negative.iter().rev().chain(self.positive.iter().rev()) {
            author.say(&restore(id));
        }
        self.is_eliminated = false;
    }

    /// Eliminates the variable, or brings it back where that was done.
    pub fn turn(&mut self, author: &mut Author<'_>) {
        if self.is_eliminated {
            self.bring_back(author);
        } else {
            self.eliminate(author);
        }
    }

    /// True variables of a model of the knot's irredundant clauses, rising. Where p is
    /// eliminated it is often false although the stacked clauses need it.
    pub fn model(&self, random: &mut Random) -> Vec<i32> {
        let (p, t) = (self.first, self.first + 1);
        let are_a_true = random.one_in(2);
        let must_p = !are_a_true && !self.is_eliminated;
        let mut trues = Vec::new();
        trues.extend((must_p || random.one_in(2)).then_some(p));
        trues.extend((!are_a_true || random.one_in(2)).then_some(t));
        if are_a_true {
            trues.extend(self.first + a(0)..self.first + b(0));
        }
        trues.extend(self.first + b(0)..self.first + VARIABLES);
        trues
    }

    /// A literal that every model makes true and no witness opposes.
    pub fn sure(&self) -> i32 {
        self.first + b(0)
    }
}

/// Where the first variable of a pair a lies behind the knot's first.
fn a(place: usize) -> i32 {
    2 + 2 * place as i32
}

/// Where the first variable of a pair b lies behind the knot's first.
fn b(place: usize) -> i32 {
    a(EACH + place)
}

fn say_add(author: &mut Author<'_>, clause: &[i32]) -> i32 {
    let id = author.new_id();
    author.say(&add(id, clause));
    id
}

/// Knots side by side from a first variable on.
pub fn tie_all(author: &mut Author<'_>, first: i32, knots: usize) -> Vec<Knot> {
    let firsts = (first..).step_by(VARIABLES as usize).take(knots);
    firsts.map(|first| Knot::tie(author, first)).collect()
}

/// The true variables of a model of all knots, rising.
pub fn model_of(knots: &[Knot], random: &mut Random) -> Vec<i32> {
    knots.iter().flat_map(|knot| knot.model(random)).collect()
}
