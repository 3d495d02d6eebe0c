//! Classes of proofs whose bytes, words or lines were changed without regard to what they mean.

use super::draft::Draft;
use super::layout::{any_style, lay, lines_of, Word, PLAIN};
use super::Pair;
use crate::random::Random;
use crate::texts::words::any_no_number;

/// The texts of a sound draft.
fn any_sound(random: &mut Random) -> (Draft, Vec<u8>) {
    let draft = Draft::any(random);
    let proof = lay(&lines_of(&draft), any_style(random), random);
    (draft, proof)
}

/// Every byte as a word, inside one, in place of a blank and first on a line.
pub fn single_bytes(seed: u64, random: &mut Random) -> Pair {
    let draft = Draft::any(random);
    let mut proof = lay(&lines_of(&draft), &PLAIN, random);
    let byte = seed as u8;
    let way = seed / 256 % 4;
    let is_wanted = |byte: u8| match way {
        0 | 2 => byte == b' ',
        1 => byte.is_ascii_digit(),
        _ => byte == b'\n',
    };
    let mut places: Vec<usize> = (0..proof.len()).collect();
    places.retain(|&place| is_wanted(proof[place]));
    let place = random.pick(&places).copied().unwrap_or_default();
    match way {
        0 => drop(proof.splice(place..place, [b' ', byte])),
        1 => proof.insert(place, byte),
        2 => proof[place] = byte,
        _ => proof.insert(place + 1, byte),
    }
    Pair::with_proof(&draft.rules, proof, random)
}

pub fn cut(_: u64, random: &mut Random) -> Pair {
    let (draft, mut proof) = any_sound(random);
    let length = match random.one_in(2) {
        true => random.below(proof.len() + 1),
        false => proof.len() - random.below(proof.len().min(12)),
    };
    proof.truncate(length);
    Pair::with_proof(&draft.rules, proof, random)
}

/// Bytes changed, put in, taken out, doubled, swapped.
pub fn mutated_bytes(_: u64, random: &mut Random) -> Pair {
    let (draft, mut proof) = any_sound(random);
    const USUAL: &[u8] = b"0123456789- \t\r\nd";
    for _ in 0..random.between(1, 3) {
        let at = random.below(proof.len());
        let byte = match random.below(6) {
            0 => random.draw() as u8,
            _ => USUAL[random.below(USUAL.len())],
        };
        match random.below(5) {
            0 => proof[at] = byte,
            1 => proof.insert(at, byte),
            2 if proof.len() > 1 => drop(proof.remove(at)),
            3 => proof.insert(at, proof[at]),
            _ => {
                let other = random.below(proof.len());
                proof.swap(at, other);
            }
        }
    }
    Pair::with_proof(&draft.rules, proof, random)
}

/// Words taken out, doubled, swapped, put in.
pub fn mutated_words(_: u64, random: &mut Random) -> Pair {
    let draft = Draft::any(random);
    let mut lines = lines_of(&draft);
    for _ in 0..random.between(1, 2) {
        let place = random.below(lines.len());
        let line = &mut lines[place];
        if line.is_empty() {
            continue;
        }
        let at = random.below(line.len());
        match random.below(6) {
            0 => drop(line.remove(at)),
            1 => line.insert(at, line[at].clone()),
            2 => {
                let other = random.below(line.len());
                line.swap(at, other);
            }
            3 => line.insert(at, b"0".to_vec()),
            4 => negate(&mut line[at]),
            _ => line.insert(at, any_other_word(random)),
        }
    }
    let proof = lay(&lines, any_style(random), random);
    Pair::with_proof(&draft.rules, proof, random)
}

/// The opposite sign.
fn negate(word: &mut Word) {
    match word.first() {
        Some(b'-') => drop(word.remove(0)),
        _ => word.insert(0, b'-'),
    }
}

fn any_other_word(random: &mut Random) -> Word {
    match random.below(6) {
        0 => b"d".to_vec(),
        1 => any_no_number(random),
        2 => b"-1".to_vec(),
        _ => random.between(1, 40).to_string().into_bytes(),
    }
}

/// Lines taken out, doubled, swapped, put in, joined.
pub fn mutated_lines(_: u64, random: &mut Random) -> Pair {
    let draft = Draft::any(random);
    let mut lines = lines_of(&draft);
    for _ in 0..random.between(1, 2) {
        let at = random.below(lines.len());
        let other = random.below(lines.len());
        match random.below(6) {
            0 if lines.len() > 1 => drop(lines.remove(at)),
            1 => lines.insert(other, lines[at].clone()),
            2 | 3 => lines.swap(at, other),
            4 => lines.insert(at, any_extra_line(random)),
            _ => {
                let joined = lines[other].clone();
                lines[at].extend(joined);
            }
        }
    }
    let proof = lay(&lines, any_style(random), random);
    Pair::with_proof(&draft.rules, proof, random)
}

/// Lines that other checkers would pass over, and some that are lines.
fn any_extra_line(random: &mut Random) -> Vec<Word> {
    const LINES: [&str; 8] = [
        "",
        "c a comment",
        "c",
        "d 1 0",
        "o proof",
        "9 d 0",
        "-3 d 0",
        "0 d 00",
    ];
    let line = LINES[random.below(LINES.len())];
    let words = line.split(' ').filter(|word| !word.is_empty());
    words.map(|word| word.as_bytes().to_vec()).collect()
}

/// Words of lines in any order.
pub fn soup(_: u64, random: &mut Random) -> Pair {
    let draft = Draft::any(random);
    let held = draft.rules.clauses.len();
    let mut lines = Vec::new();
    for _ in 0..random.below(6) {
        let mut line = vec![random.between(1, held + 4).to_string().into_bytes()];
        for _ in 0..random.below(8) {
            line.push(match random.below(8) {
                0..=3 => b"0".to_vec(),
                4 => b"d".to_vec(),
                5 => any_other_word(random),
                _ => random.between(1, held).to_string().into_bytes(),
            });
        }
        lines.push(line);
    }
    let proof = lay(&lines, any_style(random), random);
    Pair::with_proof(&draft.rules, proof, random)
}
