//! Workloads: traces to time a line program with, each heavy in one kind of work. A workload is
//! the same bytes every time, and all but `reading` consist of frames that are accepted.

mod curves;
mod elimination;
mod hint_heavy;
mod inprocessing;
mod learn_heavy;
mod reading;
mod sat_heavy;
mod weaken_heavy;
mod web;
mod wide;

use crate::lines::opened;
use crate::terms::MOST_ENTRIES;
use crate::traces::author::Author;
use std::fmt;

/// A kind of workload.
pub struct Kind {
    pub name: &'static str,
    pub about: &'static str,
    write: Write,
}

#[derive(Clone, Copy)]
enum Write {
    /// One trace.
    Mix(fn(&mut Author<'_>)),
    /// A trace for each number of clauses held.
    Curve(fn(&mut Author<'_>, usize)),
}

const fn kind(name: &'static str, about: &'static str, write: Write) -> Kind {
    Kind { name, about, write }
}

pub const KINDS: [Kind; 10] = [
    kind(
        "learn-heavy",
        "LEARN with few hints and FORGET, some hundred clauses held",
        Write::Mix(learn_heavy::write),
    ),
    kind(
        "hint-heavy",
        "LEARN and UNSAT with hundreds of hints each, 1,000 clauses held",
        Write::Mix(hint_heavy::write),
    ),
    kind(
        "weaken-heavy",
        "WEAKEN with groups of hints and RESTORE, about 900 clauses held",
        Write::Mix(weaken_heavy::write),
    ),
    kind(
        "sat-heavy",
        "SAT with about 1,000 words over about 900 clauses, a quarter of them stacked",
        Write::Mix(sat_heavy::write),
    ),
    kind(
        "wide",
        "clauses of 200 to 256 literals in ADD, LEARN, DROP, FORGET and as hints",
        Write::Mix(wide::write),
    ),
    kind(
        "inprocessing",
        "a solver's rounds: all nine operations, mostly LEARN and FORGET",
        Write::Mix(inprocessing::write),
    ),
    kind(
        "reading",
        "frames of 5 to 40 words that are refused as soon as they are read",
        Write::Mix(reading::write),
    ),
    kind(
        "add-drop",
        "ADD, then DROP by one hint, with N clauses held",
        Write::Curve(curves::add_drop),
    ),
    kind(
        "learn",
        "LEARN by one hint, then FORGET, with N clauses held",
        Write::Curve(curves::learn_forget),
    ),
    kind(
        "promote",
        "LEARN by one hint, PROMOTE, then DROP by one hint, with N clauses held",
        Write::Curve(curves::learn_promote_drop),
    ),
];

/// How many clauses are held along a curve.
pub const HELD: [usize; 3] = [16, 128, MOST_ENTRIES];

/// A kind, and for a curve the number of clauses held.
#[derive(Clone, Copy)]
pub struct Workload {
    pub kind: &'static Kind,
    pub held: Option<usize>,
}

impl fmt::Display for Workload {
    fn fmt(&self, out: &mut fmt::Formatter<'_>) -> fmt::Result {
        match self.held {
            Some(held) => write!(out, "{}-{held}", self.kind.name),
            None => out.write_str(self.kind.name),
        }
    }
}

impl Workload {
    pub fn trace(&self) -> Vec<u8> {
        let mut checker = opened();
        let mut author = Author::new(&mut checker, 1);
        match self.kind.write {
            Write::Mix(write) => write(&mut author),
            Write::Curve(write) => write(&mut author, self.held.unwrap_or(MOST_ENTRIES)),
        }
        author.into_lines()
    }
}

/// Every workload, the curves at each number of clauses held.
pub fn all() -> Vec<Workload> {
    let of = |kind: &'static Kind| match kind.write {
        Write::Mix(_) => vec![Workload { kind, held: None }],
        Write::Curve(_) => HELD
            .map(|held| Workload {
                kind,
                held: Some(held),
            })
            .to_vec(),
    };
    KINDS.iter().flat_map(of).collect()
}

/// The workload of a name, as `wide` or `learn-128`.
pub fn find(name: &str) -> Option<Workload> {
    all().into_iter().find(|known| known.to_string() == name)
}
