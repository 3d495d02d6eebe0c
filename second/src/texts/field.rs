//! CNFs of the field: such as solvers are tried on. Each is the same every time.

use super::rules::Rules;
use crate::random::Random;

pub struct Field {
    pub name: &'static str,
    pub about: &'static str,
    /// The size if none is asked for.
    pub usual: usize,
    /// Up to this size V is at most 2,048, and the text is sound.
    pub sound: usize,
    /// The largest size that is written.
    pub most: usize,
    rules: fn(usize) -> Rules,
}

pub const FIELDS: [Field; 4] = [
    Field {
        name: "pigeonhole",
        about: "SIZE holes and one pigeon more",
        usual: 8,
        sound: 44,
        most: 100,
        rules: pigeonhole,
    },
    Field {
        name: "parity",
        about: "a chain of SIZE exclusive ors from false to true",
        usual: 100,
        sound: 1_023,
        most: 100_000,
        rules: parity,
    },
    Field {
        name: "random-3-sat",
        about: "SIZE variables, 4.26 clauses of three literals for each",
        usual: 200,
        sound: 2_048,
        most: 100_000,
        rules: random_3_sat,
    },
    Field {
        name: "implications",
        about: "SIZE flags that imply or bar each other, some of them set",
        usual: 300,
        sound: 2_048,
        most: 100_000,
        rules: implications,
    },
];

/// The field of a name.
pub fn find_field(name: &str) -> Option<&'static Field> {
    FIELDS.iter().find(|field| field.name == name)
}

/// How a text of the field is written besides.
#[derive(Clone, Copy, Debug, Default)]
pub struct Variant {
    /// Lines end with CR and LF.
    pub crlf: bool,
    /// Comment lines stand before the problem line and among the clauses.
    pub comments: bool,
}

impl Field {
    pub fn rules(&self, size: usize) -> Rules {
        (self.rules)(size)
    }

    pub fn text(&self, size: usize, variant: Variant) -> Vec<u8> {
        let rules = self.rules(size);
        let mut lines = Vec::new();
        if variant.comments {
            lines.push(format!("c {}: {}", self.name, self.about));
            lines.push(format!("c SIZE is {size}"));
        }
        lines.push(format!("p cnf {} {}", rules.vars, rules.clauses.len()));
        for (place, clause) in rules.clauses.iter().enumerate() {
            if variant.comments && place % 20 == 0 {
                lines.push(format!("c from clause {} on", place + 1));
            }
            let literals: String = clause.iter().map(|word| format!("{word} ")).collect();
            lines.push(literals + "0");
        }
        let end = if variant.crlf { "\r\n" } else { "\n" };
        let closed = lines.into_iter().map(|line| line + end);
        closed.collect::<String>().into_bytes()
    }
}

/// Every pigeon has a hole, and no hole has two.
fn pigeonhole(holes: usize) -> Rules {
    let sits = |pigeon: usize, hole: usize| (pigeon * holes + hole + 1) as i32;
    let pigeons = 0..holes + 1;
    let mut clauses: Vec<Vec<i32>> = Vec::new();
    for pigeon in pigeons.clone() {
        clauses.push((0..holes).map(|hole| sits(pigeon, hole)).collect());
    }
    for hole in 0..holes {
        for one in pigeons.clone() {
            clauses.extend((0..one).map(|other| vec![-sits(one, hole), -sits(other, hole)]));
        }
    }
    Rules {
        vars: (holes * (holes + 1)) as i32,
        clauses,
    }
}

/// Variable 1 is false, 2i + 1 is 2i - 1 or 2i but not both, and the last one is true.
fn parity(ors: usize) -> Rules {
    let mut clauses = vec![vec![-1]];
    for one in (1..).step_by(2).take(ors) {
        let (other, both) = (one + 1, one + 2);
        clauses.extend([
            vec![one, other, -both],
            vec![-one, -other, -both],
            vec![one, -other, both],
            vec![-one, other, both],
        ]);
    }
    let last = 2 * ors as i32 + 1;
    clauses.push(vec![last]);
    Rules {
        vars: last,
        clauses,
    }
}

fn random_3_sat(vars: usize) -> Rules {
    let mut random = Random::new(vars as u64);
    Rules::drawn(vars as i32, vars * 426 / 100, 3, 3, &mut random)
}

fn implications(flags: usize) -> Rules {
    let mut random = Random::new(flags as u64);
    let vars = flags as i32;
    let mut clauses = Vec::new();
    for flag in 1..=vars {
        for _ in 0..random.between(1, 3) {
            let other = random.variable(vars);
            if other != flag {
                let bars = random.one_in(5);
                clauses.push(vec![-flag, if bars { -other } else { other }]);
            }
        }
        if random.one_in(40) {
            clauses.push(vec![random.signed(flag)]);
        }
    }
    Rules { vars, clauses }
}
