//! Lines that are no frames, between lines that are.

use super::author::Author;
use super::histories::tell;
use super::moves::Mix;
use crate::lines::MOST_DIGITS;
use crate::random::Random;

const FRAME: &[u8] = b"0000000800000000";

pub fn bad_lines(author: &mut Author<'_>) {
    let mix = Mix {
        used: 5,
        shortest: 1,
        longest: 3,
        crowded: 8,
    };
    for _ in 0..30 {
        tell(author, &mix, 1, 8);
        let line = bad_line(&mut author.random);
        author.write_raw(&line);
        author.write_raw(b"\n");
    }
    // The last line is unclosed more often than not.
    match author.random.below(4) {
        0 => {}
        1 => author.write_raw(FRAME),
        2 => author.write_raw(&vec![b'0'; MOST_DIGITS + 8]),
        _ => author.write_raw(b"0"),
    }
}

/// A line, without its 0A, that is mostly no frame.
pub(crate) fn bad_line(random: &mut Random) -> Vec<u8> {
    let mut line = FRAME.to_vec();
    match random.below(9) {
        0 => line.clear(),
        1 => {
            let others = b"ABCDEFG ghx\r\t\0\x7f\x80\xc3\xff-+.";
            let place = random.below(line.len());
            line[place] = others[random.below(others.len())];
        }
        2 => line.push(b'\r'),
        3 => line.insert(0, b' '),
        4 => line.truncate(random.between(1, 15)),
        5 => line.resize(MOST_DIGITS + random.between(1, 9), b'0'),
        6 => line.resize(MOST_DIGITS * random.between(2, 4), b'0'),
        7 => {
            line = (0..random.between(1, 40))
                .map(|_| random.draw() as u8)
                .collect()
        }
        // Exactly the most: UNSAT by opposite literals with hints that nobody reads.
        _ => {
            line = b"000000090000000200000001ffffffff".to_vec();
            line.resize(MOST_DIGITS, b'f');
        }
    }
    line.retain(|&byte| byte != b'\n');
    line
}
