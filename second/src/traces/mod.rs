//! Seeded traces in named classes, for comparing two programs and for timing one.

pub mod author;
pub(crate) mod bad_lines;
mod edges;
mod every_code;
mod faults;
mod histories;
pub(crate) mod moves;
mod room;
pub(crate) mod spoil;
mod stacked;

use crate::lines::opened;
use author::Author;

pub use every_code::every_code;

/// A kind of trace.
pub struct Class {
    pub name: &'static str,
    pub about: &'static str,
    pub write: fn(&mut Author<'_>),
}

const fn class(name: &'static str, about: &'static str, write: fn(&mut Author<'_>)) -> Class {
    Class { name, about, write }
}

pub const CLASSES: [Class; 18] = [
    class(
        "small",
        "history over 3 to 8 variables, some frames spoilt",
        histories::small,
    ),
    class(
        "straight",
        "history of steps meant to be accepted",
        histories::straight,
    ),
    class(
        "mixed",
        "history over 8 to 60 variables, many frames spoilt",
        histories::mixed,
    ),
    class(
        "wide",
        "history over all variables, clauses to 256 literals",
        histories::wide,
    ),
    class(
        "heavy",
        "long history in well-filled tables, for timing",
        histories::heavy,
    ),
    class(
        "chains",
        "mending that runs down a deep stack",
        edges::chains,
    ),
    class("longest", "256 literals, 4,096 words", edges::longest),
    class(
        "long-proofs",
        "proofs of some hundred hints",
        edges::long_proofs,
    ),
    class("counts", "code 2 in every operation", faults::counts),
    class(
        "literals",
        "code 3 in every list of literals",
        faults::literals,
    ),
    class(
        "places",
        "code 4: ids of every place in every operation",
        faults::places,
    ),
    class(
        "highest-ids",
        "ids up to 2,147,483,647",
        faults::highest_ids,
    ),
    class(
        "hints",
        "codes 7 and 8 wherever hints are read",
        faults::hints,
    ),
    class(
        "groups",
        "code 9, and 7 and 8 in every group",
        faults::groups,
    ),
    class(
        "stacked-hints",
        "hints that name stacked clauses, in every operation with hints",
        stacked::stacked_hints,
    ),
    class(
        "entries",
        "code 12: all entries filled, freed, filled again",
        room::entries,
    ),
    class(
        "words",
        "code 13: all words filled, freed, filled again",
        room::words,
    ),
    class(
        "bad-lines",
        "lines that are no frames",
        bad_lines::bad_lines,
    ),
];

/// The class of a name.
pub fn find_class(name: &str) -> Option<&'static Class> {
    CLASSES.iter().find(|class| class.name == name)
}

impl Class {
    /// The trace of a seed, as the line program reads it.
    pub fn trace(&self, seed: u64) -> Vec<u8> {
        let mut checker = opened();
        let mut author = Author::new(&mut checker, seed);
        (self.write)(&mut author);
        author.into_lines()
    }
}
