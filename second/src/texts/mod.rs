//! Seeded texts in named classes, for comparing two readers, and texts to time one with.
//!
//! `rules` are what a text means, `layout` is how it is written, `words`, `pen` and `plant` make it
//! faulty. `run` tries another reader, `compare` another program.

mod bytes;
pub mod compare;
mod faults;
mod field;
mod histogram;
mod large;
mod layout;
pub(crate) mod numbers;
pub mod pairs;
mod pen;
pub mod plant;
mod rules;
pub mod run;
mod sound;
pub(crate) mod words;

use crate::random::Random;

pub use field::{find_field, Field, Variant, FIELDS};
pub use histogram::{Histogram, NUMBERS};
pub use large::large;
pub use rules::Rules;

/// Rules as a sound text, written in any way.
pub fn written(rules: &Rules, random: &mut Random) -> Vec<u8> {
    sound::written(rules, random)
}

/// A kind of text.
pub struct Class {
    pub name: &'static str,
    pub about: &'static str,
    /// The numbers that its texts have, 0 for sound ones.
    pub numbers: &'static [u32],
    write: fn(u64, &mut Random) -> Vec<u8>,
}

const fn class(
    name: &'static str,
    about: &'static str,
    numbers: &'static [u32],
    write: fn(u64, &mut Random) -> Vec<u8>,
) -> Class {
    Class {
        name,
        about,
        numbers,
        write,
    }
}

/// The class of a name.
pub fn find_class(name: &str) -> Option<&'static Class> {
    CLASSES.iter().find(|class| class.name == name)
}

impl Class {
    /// The text of a seed.
    pub fn text(&self, seed: u64) -> Vec<u8> {
        // With the same seed each class draws other numbers.
        let name = self.name.bytes();
        let mixed = name.fold(seed, |mixed, byte| {
            Random::new(mixed ^ u64::from(byte)).draw()
        });
        (self.write)(seed, &mut Random::new(mixed))
    }
}

pub const CLASSES: [Class; 28] = [
    class("plain", "sound, one clause a line", &[0], sound::plain),
    class(
        "free",
        "sound, clauses over lines, several on one, blanks of any number",
        &[0],
        sound::free,
    ),
    class(
        "crlf",
        "sound, lines that end with CR and LF, CR between words",
        &[0],
        sound::crlf,
    ),
    class(
        "comments",
        "sound, comment lines of any bytes before nearly every line",
        &[0],
        sound::comments,
    ),
    class("large", "sound, hundreds of clauses", &[0], sound::large),
    class(
        "field",
        "sound, small CNFs of the field",
        &[0],
        sound::field,
    ),
    class(
        "empty",
        "blanks and comments alone, or hardly more",
        &[0, 21, 23],
        faults::empty,
    ),
    class(
        "no-problem-line",
        "21: no problem line, or another word before it",
        &[21],
        faults::no_problem_line,
    ),
    class(
        "second-problem-line",
        "22: p first on a line, between clauses and inside",
        &[22],
        faults::second_problem_line,
    ),
    class(
        "malformed",
        "23: a malformed word anywhere behind p",
        &[23],
        faults::malformed,
    ),
    class(
        "problem-lines",
        "problem lines in every shape: cut, broken, too long",
        &[0, 23],
        faults::problem_lines,
    ),
    class(
        "past-count",
        "24: literals past the declared count, near and far",
        &[24],
        faults::past_count,
    ),
    class(
        "variable-twice",
        "25: a variable twice, with either sign",
        &[25],
        faults::variable_twice,
    ),
    class(
        "long-clauses",
        "26: 0, 255, 256, 257 and more literals, with other faults behind them",
        &[0, 22, 23, 24, 25, 26],
        faults::long_clauses,
    ),
    class(
        "variable-counts",
        "27: V of 0, 1, 2,048, 2,049 and far more",
        &[0, 27],
        faults::variable_counts,
    ),
    class(
        "unclosed",
        "28: the last clause unclosed, with a right count or a wrong one",
        &[0, 28, 29],
        faults::unclosed,
    ),
    class(
        "clause-counts",
        "29: clause counts one less, one more, and huge",
        &[0, 29],
        faults::clause_counts,
    ),
    class(
        "long-numbers",
        "numbers of many digits that wrap to small ones in some bits",
        &[0, 23, 24, 27, 29],
        numbers::long_numbers,
    ),
    class(
        "many-clauses",
        "more clauses than 8 or 16 bits count, declared right or but for those bits",
        &[0, 29],
        sound::many_clauses,
    ),
    class(
        "deep-faults",
        "a fault near the end of a large text",
        &[22, 23, 24, 25, 26, 28, 29],
        faults::deep_faults,
    ),
    class(
        "pairs",
        "two faults one behind the other, every such pair in its turn",
        &[21, 22, 23, 24, 25, 26, 27],
        pairs::pairs,
    ),
    class(
        "one-place",
        "two faults at one place, where the list's order decides",
        &[21, 22, 23, 24, 25, 28],
        pairs::one_place,
    ),
    class(
        "last-byte",
        "the fault at the last byte, each number in its turn",
        &[21, 22, 23, 24, 25, 26, 27, 28, 29],
        pairs::last_byte,
    ),
    class(
        "single-bytes",
        "every byte as a word, inside one, between two and first on a line",
        &[0, 21, 22, 23, 24, 25, 27, 28, 29],
        bytes::single_bytes,
    ),
    class(
        "cut",
        "sound texts cut anywhere",
        &[0, 21, 23, 25, 27, 28, 29],
        bytes::cut,
    ),
    class(
        "soup",
        "bytes and words in any order",
        &[0, 21, 22, 23, 24, 25, 27, 28, 29],
        bytes::soup,
    ),
    class(
        "mutated-bytes",
        "sound texts with bytes changed, put in, taken out, doubled, swapped",
        &[0, 21, 22, 23, 24, 25, 27, 28, 29],
        bytes::mutated_bytes,
    ),
    class(
        "mutated-words",
        "sound texts with words taken out, doubled, swapped, put in",
        &[0, 21, 22, 23, 24, 25, 26, 28, 29],
        bytes::mutated_words,
    ),
];
