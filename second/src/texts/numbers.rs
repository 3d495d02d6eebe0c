//! Numbers of any length, written in digits: above all such that are small ones to a reader who
//! counts in 8, 16, 32 or 64 bits, or in 18 digits.

use super::layout::{any_style, lay};
use super::rules::{Draft, Rules, CLAUSES, VARIABLES};
use crate::random::Random;

/// Powers of 2 at which words wrap around or change their sign.
const TWOS: [usize; 13] = [8, 15, 16, 31, 32, 33, 63, 64, 65, 96, 127, 128, 256];
/// Powers of 10 at which someone may stop to count digits.
const TENS: [usize; 10] = [4, 5, 9, 10, 18, 19, 20, 30, 39, 100];

/// Digits, times a number, plus another.
fn times_plus(digits: &[u8], times: u32, plus: u32) -> Vec<u8> {
    let mut carry = plus;
    let mut product = Vec::new();
    for digit in digits.iter().rev() {
        carry += u32::from(digit - b'0') * times;
        product.push(b'0' + (carry % 10) as u8);
        carry /= 10;
    }
    while carry > 0 {
        product.push(b'0' + (carry % 10) as u8);
        carry /= 10;
    }
    product.reverse();
    product
}

fn power(base: u32, exponent: usize) -> Vec<u8> {
    (0..exponent).fold(b"1".to_vec(), |power, _| times_plus(&power, base, 0))
}

/// A multiple of such a power, plus a small number.
pub fn past_a_power(small: u32, random: &mut Random) -> Vec<u8> {
    let power = match random.below(3) {
        0 => power(10, TENS[random.below(TENS.len())]),
        _ => power(2, TWOS[random.below(TWOS.len())]),
    };
    let multiple = times_plus(&power, random.between(1, 5) as u32, 0);
    times_plus(&multiple, 1, small)
}

/// Any digits, the first of which is not 0.
pub fn any_digits(length: usize, random: &mut Random) -> Vec<u8> {
    let mut digits: Vec<u8> = (0..length).map(|_| b'0' + random.below(10) as u8).collect();
    digits[0] = b'1' + random.below(9) as u8;
    digits
}

/// A number that is far larger than this one and would be it if someone lost digits or bits.
fn far_past(word: &[u8], random: &mut Random) -> Vec<u8> {
    let small = word
        .iter()
        .fold(0, |number, digit| 10 * number + u32::from(digit - b'0'));
    match random.below(8) {
        0 => [word, &b"0".repeat(random.between(4, 40))].concat(),
        1 => any_digits(random.between(10, 40), random),
        2 => [&b"9".repeat(random.between(4, 40)), word].concat(),
        3 => [
            &b"0".repeat(random.between(1, 200)),
            &past_a_power(small, random)[..],
        ]
        .concat(),
        _ => past_a_power(small, random),
    }
}

/// More zeros than 16 bits count, before the digits of one word.
fn pad_far(draft: &mut Draft, random: &mut Random) {
    let place = random.below(draft.words().count());
    if let Some(word) = draft.words().nth(place) {
        let first = usize::from(word.starts_with(b"-"));
        word.splice(first..first, b"0".repeat(random.between(65_530, 70_000)));
    }
}

/// Makes the digits of a word far larger, behind its sign.
fn enlarge(word: &mut Vec<u8>, random: &mut Random) {
    let first = usize::from(word.starts_with(b"-"));
    let digits = far_past(&word[first..], random);
    word.splice(first.., digits);
}

pub fn long_numbers(_: u64, random: &mut Random) -> Vec<u8> {
    let mut draft = Draft::of(&Rules::few(random));
    match random.below(8) {
        0 => enlarge(&mut draft.problem[VARIABLES], random),
        1 => enlarge(&mut draft.problem[CLAUSES], random),
        2 if random.one_in(3) => pad_far(&mut draft, random),
        2 => draft.pad(random),
        3 => minus_zeros(&mut draft, random),
        _ => {
            let words = draft.words().count();
            let place = random.below(words);
            if let Some(word) = draft.words().nth(place) {
                enlarge(word, random);
            }
        }
    }
    lay(&draft.marks(), any_style(random), random)
}

/// The number of a word grows in sign alone: 0 behind a - is no number.
fn minus_zeros(draft: &mut Draft, random: &mut Random) {
    let zeros = b"0".repeat(random.between(1, 30));
    let closing = draft.words().filter(|word| *word == b"0");
    if let Some(word) = closing.last() {
        *word = [b"-", &zeros[..]].concat();
    }
}

#[cfg(test)]
mod tests {
    use super::*;

    #[test]
    fn digits_are_multiplied_and_added() {
        assert_eq!(power(2, 64), b"18446744073709551616");
        assert_eq!(power(10, 20), b"100000000000000000000");
        assert_eq!(power(2, 0), b"1");
        assert_eq!(times_plus(b"99", 5, 1_000), b"1495");
        assert_eq!(
            times_plus(&power(2, 128), 3, 2_048),
            b"1020847100762815390390123822295304636416"
        );
    }
}
