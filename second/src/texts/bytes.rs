//! Texts below words: single bytes, soups of bytes and of words, sound texts cut and mutated.

use super::layout::{any_style, lay, Mark, PLAIN};
use super::rules::{Draft, Rules};
use super::words::any_word;
use crate::random::Random;

/// A sound text.
fn any_sound(random: &mut Random) -> Vec<u8> {
    let mut draft = Draft::of(&Rules::any(random));
    if random.one_in(4) {
        draft.pad(random);
    }
    lay(&draft.marks(), any_style(random), random)
}

/// Bytes that mean something, and those beside them: they come before all others.
const FIRST: &[u8] = b"\x09\x0a\x0b\x0c\x0d\x20\x00cp-+0\x80\xff19/:\x08\x0e\x1f!\x7f\xa0\x85CPnf%";

/// Every byte once.
fn all_bytes() -> Vec<u8> {
    let others = (0..=u8::MAX).filter(|byte| !FIRST.contains(byte));
    FIRST.iter().copied().chain(others).collect()
}

/// A byte as a word, inside a word, between words and as the first of a line: each byte at each of
/// these places in its turn, so that 1,024 seeds have them all.
pub fn single_bytes(seed: u64, random: &mut Random) -> Vec<u8> {
    let bytes = all_bytes();
    let byte = bytes[(seed / 4) as usize % bytes.len()];
    // No comment may hide it, and the problem line is met often.
    let clauses = random.between(1, 4);
    let rules = Rules::drawn(9, clauses, 0, 4, random);
    let mut text = lay(&Draft::of(&rules).marks(), &PLAIN, random);
    let word: &[u8] = match seed % 4 {
        0 => &[b' ', byte, b' '],
        1 => &[b' ', b'1', byte, b'2', b' '],
        2 => &[byte],
        _ if random.one_in(2) => &[b'\n', byte],
        _ => &[b'\n', byte, b' '],
    };
    let blank = match seed % 4 {
        3 => b'\n',
        _ => b' ',
    };
    let places: Vec<usize> = (0..text.len()).filter(|&at| text[at] == blank).collect();
    let place = random.pick(&places).copied().unwrap_or(text.len());
    text.splice(place..text.len().min(place + 1), word.iter().copied());
    text
}

/// A sound text cut anywhere, often in the problem line or near the end.
pub fn cut(_: u64, random: &mut Random) -> Vec<u8> {
    let mut text = any_sound(random);
    let length = text.len();
    let kept = match random.below(4) {
        0 => random.below(length.min(16) + 1),
        1 => length - random.below(length.min(8) + 1),
        _ => random.below(length + 1),
    };
    text.truncate(kept);
    text
}

/// Bytes and words in any order.
pub fn soup(_: u64, random: &mut Random) -> Vec<u8> {
    const BYTES: &[u8] = b"0123456789--  \n\n\t\rcp";
    const WORDS: [&str; 24] = [
        "p",
        "cnf",
        "p cnf 3 1",
        "\np cnf 9 2\n",
        "0",
        "1",
        "-1",
        "2",
        "-3",
        "9",
        "00",
        "-0",
        "c",
        "\nc",
        "\n",
        "\n",
        "\r",
        " ",
        " ",
        "\t",
        "x",
        "\np ",
        "10",
        "\r\n",
    ];
    let mut text = match random.below(3) {
        0 => Vec::new(),
        _ => {
            let vars = [0, 1, 3, 9, 12, 2_048, 2_049][random.below(7)];
            format!("p cnf {vars} {}\n", random.below(4)).into_bytes()
        }
    };
    let length = random.below(60);
    match random.below(3) {
        0 => text.extend((0..length).map(|_| random.draw() as u8)),
        1 => text.extend((0..length).map(|_| BYTES[random.below(BYTES.len())])),
        _ => {
            for _ in 0..length / 2 {
                text.extend(WORDS[random.below(WORDS.len())].bytes());
                text.extend([&b" "[..], b" ", b"\n", b""][random.below(4)]);
            }
        }
    }
    text
}

/// A sound text with some bytes changed, put in, taken out, doubled or swapped.
pub fn mutated_bytes(_: u64, random: &mut Random) -> Vec<u8> {
    let mut text = any_sound(random);
    for _ in 0..random.between(1, 3) {
        mutate(&mut text, random);
    }
    text
}

fn mutate(text: &mut Vec<u8>, random: &mut Random) {
    const OFTEN: &[u8] = b"0123456789- \n\r\tcpnf+\0\x0b\x80";
    if text.is_empty() {
        return;
    }
    let place = random.below(text.len());
    let byte = match random.below(3) {
        0 => random.draw() as u8,
        _ => OFTEN[random.below(OFTEN.len())],
    };
    match random.below(7) {
        0 => text[place] ^= 1 << random.below(8),
        1 => text[place] = byte,
        2 => text.insert(place, byte),
        3 => drop(text.remove(place)),
        4 => text.insert(place, text[place]),
        5 => {
            let other = random.below(text.len());
            text.swap(place, other);
        }
        _ => double_line(text, place),
    }
}

/// The line of a place stands there twice.
fn double_line(text: &mut Vec<u8>, place: usize) {
    let is_end = |byte: &u8| *byte == b'\n';
    let start = text[..place]
        .iter()
        .rposition(is_end)
        .map_or(0, |end| end + 1);
    let end = text[place..]
        .iter()
        .position(is_end)
        .map_or(text.len(), |end| place + end + 1);
    let line = text[start..end].to_vec();
    text.splice(start..start, line);
}

/// A sound text with some words taken out, doubled, swapped or put in.
pub fn mutated_words(_: u64, random: &mut Random) -> Vec<u8> {
    let rules = match random.below(6) {
        0 => Rules::long_neighbours(random),
        _ => Rules::any(random),
    };
    let mut marks = Draft::of(&rules).marks();
    for _ in 0..random.between(1, 3) {
        mutate_mark(&mut marks, random);
    }
    lay(&marks, any_style(random), random)
}

fn mutate_mark(marks: &mut Vec<Mark>, random: &mut Random) {
    if marks.is_empty() {
        return;
    }
    let (place, other) = (random.below(marks.len()), random.below(marks.len()));
    match random.below(6) {
        0 => drop(marks.remove(place)),
        1 => marks.insert(place, marks[other].clone()),
        2 => marks.swap(place, other),
        3 => marks.insert(place, Mark::Word(any_word(random))),
        4 => marks.truncate(place + 1),
        _ => {
            let closes = |mark: &Mark| matches!(mark, Mark::Word(word) if word == b"0");
            if let Some(place) = marks.iter().position(closes) {
                marks.remove(place);
            }
        }
    }
}

#[cfg(test)]
mod tests {
    use super::*;

    #[test]
    fn every_byte_has_its_turn() {
        let mut bytes = all_bytes();
        bytes.sort_unstable();
        assert!(bytes.into_iter().eq(0..=u8::MAX));
    }
}
