//! A web of implications: a link is a clause (-x y sides) from one node to a later one. The
//! links along a way, read as hints, prove the clause from the way's first node to its last.

use crate::frames::{add, forget, learn};
use crate::random::Random;
use crate::traces::author::Author;
use std::collections::BTreeSet;

/// What a web is made of. Its variables are `first` and those after it.
pub struct Shape {
    pub first: i32,
    /// Each node but the last has one link, to the next node.
    pub links: usize,
    /// Literals besides the two nodes are drawn from this many, each of one sign, so that
    /// none of them ever opposes another.
    pub sides: usize,
    pub fewest_sides: usize,
    pub most_sides: usize,
}

struct Link {
    id: i32,
    from: usize,
    to: usize,
    sides: Vec<i32>,
}

pub struct Web {
    shape: Shape,
    /// Irredundant: the one at place i goes from node i to the next.
    lasting: Vec<Link>,
    learned: Vec<Link>,
}

/// Hints along links, and the clause that they prove.
pub struct Way {
    from: usize,
    to: usize,
    pub hints: Vec<i32>,
    pub clause: Vec<i32>,
}

impl Web {
    /// Adds the links in random order: a way then leaps through the tables.
    pub fn weave(author: &mut Author<'_>, shape: Shape) -> Web {
        let mut order: Vec<usize> = (0..shape.links).collect();
        author.random.shuffle(&mut order);
        let mut web = Web {
            shape,
            lasting: Vec::new(),
            learned: Vec::new(),
        };
        for from in order {
            let sides = web.any_sides(&mut author.random);
            let id = author.new_id();
            let clause = web.clause(from, from + 1, &sides, &mut author.random);
            author.say(&add(id, &clause));
            web.lasting.push(Link {
                id,
                from,
                to: from + 1,
                sides,
            });
        }
        web.lasting.sort_by_key(|link| link.from);
        web
    }

    fn any_sides(&self, random: &mut Random) -> Vec<i32> {
        let first = self.shape.first + self.shape.links as i32 + 1;
        let mut sides: Vec<i32> = (first..).take(self.shape.sides).collect();
        random.shuffle(&mut sides);
        sides.truncate(random.between(self.shape.fewest_sides, self.shape.most_sides));
        sides
    }

    fn node(&self, place: usize) -> i32 {
        self.shape.first + place as i32
    }

    fn clause(&self, from: usize, to: usize, sides: &[i32], random: &mut Random) -> Vec<i32> {
        let mut clause = [&[-self.node(from), self.node(to)], sides].concat();
        random.shuffle(&mut clause);
        clause
    }

    pub fn links(&self) -> usize {
        self.lasting.len()
    }

    pub fn learned(&self) -> usize {
        self.learned.len()
    }

    fn way(&self, links: &[&Link], random: &mut Random) -> Way {
        let (from, to) = (links[0].from, links[links.len() - 1].to);
        let sides: BTreeSet<i32> = links.iter().flat_map(|link| &link.sides).copied().collect();
        let sides: Vec<i32> = sides.into_iter().collect();
        Way {
            from,
            to,
            hints: links.iter().map(|link| link.id).collect(),
            clause: self.clause(from, to, &sides, random),
        }
    }

    /// A way over irredundant links alone.
    pub fn straight(&self, length: usize, random: &mut Random) -> Way {
        let from = random.between(0, self.lasting.len() - length);
        let links: Vec<&Link> = self.lasting[from..from + length].iter().collect();
        self.way(&links, random)
    }

    /// A way over irredundant and learned links.
    pub fn any_way(&self, length: usize, random: &mut Random) -> Way {
        let mut node = random.between(0, self.lasting.len() - 2 * length);
        let mut links = Vec::new();
        while links.len() < length && node < self.lasting.len() {
            let link = self.any_link(node, random);
            node = link.to;
            links.push(link);
        }
        self.way(&links, random)
    }

    /// A learned link from the node if one is met in a few looks, else the lasting one.
    fn any_link(&self, node: usize, random: &mut Random) -> &Link {
        let place = random.below(self.learned.len() + 1);
        let mut few = self.learned.iter().skip(place).take(32);
        let short = |link: &&Link| link.from == node && link.to < node + 8;
        few.find(short).unwrap_or(&self.lasting[node])
    }

    /// LEARN of the way's clause, which ways may use from now on.
    pub fn learn(&mut self, author: &mut Author<'_>, way: Way) {
        let id = author.new_id();
        author.say(&learn(id, &way.clause, &way.hints));
        let nodes = [-self.node(way.from), self.node(way.to)];
        let mut sides = way.clause;
        sides.retain(|literal| !nodes.contains(literal));
        self.learned.push(Link {
            id,
            from: way.from,
            to: way.to,
            sides,
        });
    }

    /// FORGET of any learned link.
    pub fn forget(&mut self, author: &mut Author<'_>) {
        let place = author.random.below(self.learned.len());
        let link = self.learned.swap_remove(place);
        author.say(&forget(link.id));
    }
}
