//! Seeded pairs of rules and proof in named classes, for comparing two checkers, and a pair to time one
//! with.
//!
//! `solver` refutes rules and `draft` makes steps of that, `layout` is how they are written, `plant` and
//! `room` make them faulty. `run` tries another checker, `compare` another program.

mod bytes;
pub mod compare;
mod draft;
mod faults;
mod histogram;
mod large;
mod layout;
pub mod plant;
mod room;
pub mod run;
mod solver;
mod sound;

use crate::lrat::check;
use crate::lrat::program::answer;
use crate::random::Random;
use crate::texts::{written, Rules};
use layout::{any_style, lay, lines_of, Word};

pub use draft::{Draft, Room};
pub use histogram::{Histogram, NUMBERS};
pub use large::large;

/// A CNF text and an LRAT text, and the tables to check them in.
#[derive(Clone, Debug, PartialEq, Eq)]
pub struct Pair {
    pub lent: Room,
    pub rules: Vec<u8>,
    pub proof: Vec<u8>,
}

impl Pair {
    /// The tables of the program.
    fn of_texts(rules: Vec<u8>, proof: Vec<u8>) -> Pair {
        Pair {
            lent: room::PROGRAM,
            rules,
            proof,
        }
    }

    fn with_proof(rules: &Rules, proof: Vec<u8>, random: &mut Random) -> Pair {
        Pair::of_texts(written(rules, random), proof)
    }

    /// A draft as it is, written in any way.
    fn of(draft: &Draft, random: &mut Random) -> Pair {
        let proof = lay(&lines_of(draft), any_style(random), random);
        Pair::with_proof(&draft.rules, proof, random)
    }

    /// A draft with another line in place of one.
    fn with_line(draft: &Draft, place: usize, line: Vec<Word>, random: &mut Random) -> Pair {
        let mut lines = lines_of(draft);
        lines[place] = line;
        let proof = lay(&lines, any_style(random), random);
        Pair::with_proof(&draft.rules, proof, random)
    }

    /// Code and detail in the tables lent.
    pub fn answer(&self) -> (u32, u64) {
        check(self.lent.entries, self.lent.words, &self.rules, &self.proof)
    }

    /// Code and detail in the tables of the program.
    pub fn program_answer(&self) -> (u32, u64) {
        answer(&self.rules, &self.proof)
    }
}

/// A kind of pair.
pub struct Class {
    pub name: &'static str,
    pub about: &'static str,
    /// The numbers that its pairs have in the tables lent, 0 for accepted ones.
    pub numbers: &'static [u32],
    write: fn(u64, &mut Random) -> Pair,
}

const fn class(
    name: &'static str,
    about: &'static str,
    numbers: &'static [u32],
    write: fn(u64, &mut Random) -> Pair,
) -> Class {
    Class {
        name,
        about,
        numbers,
        write,
    }
}

/// The class of a name.
pub fn find_class(name: &str) -> Option<&'static Class> {
    CLASSES.iter().find(|class| class.name == name)
}

impl Class {
    /// The pair of a seed.
    pub fn pair(&self, seed: u64) -> Pair {
        // With the same seed each class draws other numbers.
        let name = self.name.bytes();
        let mixed = name.fold(seed, |mixed, byte| {
            Random::new(mixed ^ u64::from(byte)).draw()
        });
        (self.write)(seed, &mut Random::new(mixed))
    }
}

pub const CLASSES: [Class; 32] = [
    class(
        "plain",
        "sound, single blanks, no deletions",
        &[0],
        sound::plain,
    ),
    class("deletions", "sound, with deletions", &[0], sound::deletions),
    class(
        "free",
        "sound, blanks of all kinds, CR, leading zeros, the last LF missing",
        &[0],
        sound::free,
    ),
    class(
        "gaps",
        "sound, ids with gaps up to 2,147,483,647",
        &[0],
        sound::gaps,
    ),
    class(
        "pigeonholes",
        "sound, more pigeons than holes",
        &[0],
        sound::pigeonholes,
    ),
    class(
        "behind-the-end",
        "sound, faults of every kind behind the empty clause",
        &[0],
        sound::behind_the_end,
    ),
    class(
        "unread-hints",
        "hints behind the conflict, negative ones too",
        &[0, 36],
        sound::unread_hints,
    ),
    class(
        "empty-clause",
        "the rules hold the empty clause",
        &[0, 37, 38],
        sound::empty_clause,
    ),
    class(
        "long-clauses",
        "255, 256 and 257 literals",
        &[0, 33],
        sound::long_clauses,
    ),
    class(
        "faulty-rules",
        "21 to 29, whatever the proof",
        &[21, 22, 23, 24, 25, 26, 27, 28, 29],
        faults::faulty_rules,
    ),
    class(
        "malformed",
        "31 in every part of a line",
        &[31],
        faults::malformed,
    ),
    class(
        "past-count",
        "32: literals past the count, near and far",
        &[32],
        faults::past_count,
    ),
    class(
        "against-terms",
        "33: a variable twice, over 256 literals",
        &[33],
        faults::against_terms,
    ),
    class(
        "ids-not-above",
        "34: ids at or below the highest",
        &[34],
        faults::ids_not_above,
    ),
    class(
        "not-held",
        "35: deleted ids that are not held, or twice in a line",
        &[35],
        faults::not_held,
    ),
    class(
        "negative-hints",
        "36: anywhere among the hints",
        &[36],
        faults::negative_hints,
    ),
    class(
        "unproved",
        "37: proofs that fail in every way",
        &[0, 37],
        faults::unproved,
    ),
    class(
        "gone-too-early",
        "clauses deleted before they are needed, or twice, or added again",
        &[0, 34, 35, 37],
        faults::gone_too_early,
    ),
    class(
        "no-empty-clause",
        "38: proofs that end too early",
        &[38],
        faults::no_empty_clause,
    ),
    class(
        "entries",
        "12: entries filled by rules and steps, exactly and by one too many",
        &[0, 12, 29, 34, 38],
        room::entries,
    ),
    class(
        "words",
        "13: words filled by rules and steps, exactly and by one too many",
        &[0, 12, 13, 29, 34, 38],
        room::words,
    ),
    class(
        "small-tables",
        "tables just large enough or too small by few, and sizes that nobody may lend",
        &[0, 1, 12, 13, 21, 22, 23, 24, 25, 26, 27, 28, 29, 31],
        room::small_tables,
    ),
    class(
        "pairs",
        "two faults in one line, every pair in both orders in its turn",
        &[12, 13, 31, 32, 33, 34, 36],
        faults::pairs,
    ),
    class(
        "two-lines",
        "faults in two lines",
        &[31, 32, 33, 34, 36, 37],
        faults::two_lines,
    ),
    class(
        "long-numbers",
        "numbers that wrap to the right ones in some bits",
        &[0, 31, 32, 34, 35, 37],
        faults::long_numbers,
    ),
    class(
        "long-lines",
        "hints, blanks and zeros by the thousand",
        &[0, 31, 35],
        faults::long_lines,
    ),
    class(
        "single-bytes",
        "every byte as a word, inside one, between two and first on a line",
        &[0, 31, 32, 33, 34, 35, 36, 37, 38],
        bytes::single_bytes,
    ),
    class(
        "cut",
        "sound proofs cut anywhere",
        &[0, 31, 37, 38],
        bytes::cut,
    ),
    class(
        "mutated-bytes",
        "sound proofs with bytes changed, put in, taken out, doubled, swapped",
        &[0, 31, 32, 33, 34, 35, 36, 37],
        bytes::mutated_bytes,
    ),
    class(
        "mutated-words",
        "sound proofs with words taken out, doubled, swapped, put in",
        &[0, 31, 32, 33, 34, 35, 36, 37, 38],
        bytes::mutated_words,
    ),
    class(
        "mutated-lines",
        "sound proofs with lines taken out, doubled, swapped, put in, joined",
        &[0, 31, 34, 35, 37, 38],
        bytes::mutated_lines,
    ),
    class(
        "soup",
        "words of lines in any order",
        &[31, 32, 33, 34, 36, 37, 38],
        bytes::soup,
    ),
];
