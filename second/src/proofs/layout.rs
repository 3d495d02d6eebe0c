//! How a proof is written: the words of its lines, and what stands between them.

use super::draft::{Draft, Step};
use crate::random::Random;

pub type Word = Vec<u8>;

/// A line in the making.
#[derive(Clone, Debug)]
pub struct Line {
    pub id: Word,
    /// d, or the literals and the 0 behind them.
    pub middle: Vec<Word>,
    /// Hints, or the ids that are deleted.
    pub ids: Vec<Word>,
    /// The last 0, and whatever stands behind it.
    pub end: Vec<Word>,
}

pub fn word(number: impl ToString) -> Word {
    number.to_string().into_bytes()
}

impl Line {
    pub fn of(step: &Step) -> Line {
        let words = |ids: &[i64]| ids.iter().map(word).collect();
        match step {
            Step::Add(addition) => Line {
                id: word(addition.id),
                middle: addition.literals.iter().chain([&0]).map(word).collect(),
                ids: words(&addition.hints),
                end: vec![word(0)],
            },
            Step::Delete { first, ids } => Line {
                id: word(first),
                middle: vec![word('d')],
                ids: words(ids),
                end: vec![word(0)],
            },
        }
    }

    pub fn words(self) -> Vec<Word> {
        let mut words = vec![self.id];
        words.extend(self.middle);
        words.extend(self.ids);
        words.extend(self.end);
        words
    }
}

/// The words of each line of a proof.
pub fn lines_of(draft: &Draft) -> Vec<Vec<Word>> {
    let words = |step: &Step| Line::of(step).words();
    draft.steps.iter().map(words).collect()
}

/// How a solver writes. Of chances each is one in so many.
pub struct Style {
    gaps: &'static [&'static str],
    line_ends: &'static [&'static str],
    /// That blanks stand before the first word of a line.
    indents: usize,
    /// That zeros stand before the digits of a number.
    pads: usize,
}

const NEVER: usize = usize::MAX;

pub const PLAIN: Style = Style {
    gaps: &[" "],
    line_ends: &["\n"],
    indents: NEVER,
    pads: NEVER,
};

pub const CRLF: Style = Style {
    gaps: &[" "],
    line_ends: &["\r\n"],
    indents: NEVER,
    pads: NEVER,
};

/// Blanks of any kind and number, and leading zeros.
pub const FREE: Style = Style {
    gaps: &[" ", " ", "  ", "\t", "\r", " \t\r ", "\r\r", "     "],
    line_ends: &["\n", " \n", "\r\n", "\t\n", " \t\r\r\n"],
    indents: 4,
    pads: 6,
};

pub const STYLES: [&Style; 3] = [&PLAIN, &CRLF, &FREE];

pub fn any_style(random: &mut Random) -> &'static Style {
    STYLES[random.below(STYLES.len())]
}

/// Lays lines out as a text; the last one is left open as often as not.
pub fn lay(lines: &[Vec<Word>], style: &Style, random: &mut Random) -> Vec<u8> {
    let mut text = Vec::new();
    let one_of = |words: &[&'static str], random: &mut Random| words[random.below(words.len())];
    for (place, line) in lines.iter().enumerate() {
        if random.one_in(style.indents) {
            text.extend(one_of(style.gaps, random).bytes());
        }
        for (place, word) in line.iter().enumerate() {
            if place > 0 {
                text.extend(one_of(style.gaps, random).bytes());
            }
            text.extend(padded(word, style, random));
        }
        if place + 1 < lines.len() || random.one_in(2) {
            text.extend(one_of(style.line_ends, random).bytes());
        }
    }
    text
}

/// A number with leading zeros is the same number.
fn padded(word: &[u8], style: &Style, random: &mut Random) -> Word {
    let (sign, digits) = word.split_at(usize::from(word.starts_with(b"-")));
    let is_number = !digits.is_empty() && digits.iter().all(u8::is_ascii_digit);
    let zeros = match is_number && random.one_in(style.pads) {
        true => [1, 2, 8, 20, 300][random.below(5)],
        false => 0,
    };
    [sign, &b"0".repeat(zeros), digits].concat()
}
