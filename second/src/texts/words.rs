//! Words and lines that are wrong, each in one way.

use super::layout::Mark;
use super::numbers::past_a_power;
use crate::random::Random;
use crate::terms::MOST_VARIABLES;

/// One of some words, which are given with single blanks between them.
fn pick(words: &[u8], random: &mut Random) -> Vec<u8> {
    let words: Vec<&[u8]> = words.split(|&byte| byte == b' ').collect();
    words[random.below(words.len())].to_vec()
}

/// p first on a line, whatever follows it.
pub fn any_second_line(random: &mut Random) -> Mark {
    let lines = [
        "p cnf 3 1",
        "p",
        "p cnf 0 0",
        "p dnf 2 2",
        "p cnf",
        "p 1 2 0",
        "p p",
        "p x",
    ];
    Mark::line(lines[random.below(lines.len())])
}

/// A word that is neither a number nor p.
pub fn any_no_number(random: &mut Random) -> Vec<u8> {
    const WORDS: &[u8] = b"+5 +0 -0 -00 - --1 -+1 +-1 5x x5 1-2 1- 0- 0-0 -1- 0x1 1.0 1e3 1, 1_0 1; x P \
        pp p1 -p cnf c % # \0 1\0 \x0b 1\x0b2 \x0c \x7f \x80 \xff \xa0 \xef\xbb\xbf1 \xe2\x88\x921 \xd9\xa3 \
        99999999999999999999x 0000000000000000000000-";
    match random.below(8) {
        0 => vec![b'a' + random.below(15) as u8],
        1 => format!("+{}", random.below(3_000)).into_bytes(),
        _ => pick(WORDS, random),
    }
}

/// A word in place of cnf.
pub fn any_no_cnf(random: &mut Random) -> Vec<u8> {
    match random.below(3) {
        0 => b"dnf".to_vec(),
        _ => pick(b"CNF Cnf cn cnff cnf, wcnf cnf\0 c p cnf3", random),
    }
}

/// A malformed word of the clauses: no number, or p that is not the first of its line.
pub fn any_malformed(random: &mut Random) -> Mark {
    match random.below(8) {
        0 => Mark::behind("p"),
        _ => Mark::Word(any_no_number(random)),
    }
}

/// A word that no problem line begins with.
pub fn any_word(random: &mut Random) -> Vec<u8> {
    match random.below(4) {
        0 => any_no_number(random),
        1 => b"0".to_vec(),
        2 => digits(random.below(3_000)),
        _ => pick(b"cnf P pp q p1 pcnf", random),
    }
}

fn digits(number: usize) -> Vec<u8> {
    number.to_string().into_bytes()
}

/// A number past all bounds that would be the small one if bits or digits were lost.
fn past_all_bounds(small: usize, random: &mut Random) -> Vec<u8> {
    loop {
        let number = past_a_power(small as u32, random);
        if number.len() > 4 {
            return number;
        }
    }
}

/// A literal past the declared count.
pub fn any_past(vars: i32, random: &mut Random) -> Vec<u8> {
    let (vars, most) = (vars as usize, MOST_VARIABLES as usize);
    let magnitude = match random.below(6) {
        0 | 1 => digits(vars + 1),
        2 => digits(random.between(vars + 1, vars + 9)),
        3 => digits(random.between(most + 1, most + 9)),
        4 => digits(random.between(vars + 1, 5_000)),
        _ => past_all_bounds(random.below(vars + 1), random),
    };
    let sign: &[u8] = if random.one_in(2) { b"-" } else { b"" };
    [sign, &magnitude].concat()
}

/// A declared variable count outside 1 to 2,048.
pub fn any_variable_count(random: &mut Random) -> Vec<u8> {
    let most = MOST_VARIABLES as usize;
    match random.below(6) {
        0 => digits(0),
        1 => b"0".repeat(random.between(1, 30)),
        2 => digits(most + 1),
        3 => digits(random.between(most + 1, 70_000)),
        4 => b"9".repeat(random.between(4, 40)),
        _ => past_all_bounds(random.between(1, most), random),
    }
}

/// A clause count other than this one.
pub fn any_other_count(clauses: usize, random: &mut Random) -> Vec<u8> {
    match random.below(6) {
        0 | 1 => digits(clauses + 1),
        2 if clauses > 0 => digits(clauses - 1),
        3 if clauses > 0 => digits(0),
        4 => b"9".repeat(random.between(4, 40)),
        5 => past_a_power(clauses as u32, random),
        _ => digits(clauses + random.between(1, 300)),
    }
}
