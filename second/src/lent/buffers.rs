//! What a caller lends to the line input: a reader that goes from call to call, a frame buffer
//! and a buffer for answers.

use crate::lines::{digit_value, read_words, write_word, DIGITS, MOST_DIGITS};
use crate::random::Random;

/// What is read of a line that is not closed yet: how many digits, of which the whole words lie
/// in the frame buffer and the rest are the last digits of `word`; and whether the line is
/// refused whatever follows. All zero: nothing.
#[derive(Clone, Copy, Debug, Default, PartialEq, Eq)]
pub struct Reader {
    pub digits: u64,
    pub word: u64,
    /// 0 for no, any other number for yes.
    pub spoilt: u64,
}

/// How many bytes of a part were taken, and how many bytes of answers stand in the buffer.
#[derive(Clone, Copy, Debug, Default, PartialEq, Eq)]
pub struct Given {
    pub taken: u64,
    pub written: u64,
}

#[derive(Clone, Debug, Default, PartialEq, Eq)]
pub struct Buffers {
    pub reader: Reader,
    pub frame: Vec<i32>,
    pub out: Vec<u8>,
}

/// Stands for every line that is refused whatever follows.
const SPOILT: &[u8] = b"?";

/// A line that is not closed yet, as far as it matters: one that has a byte which is no digit, or
/// too many, is as good as any other such.
pub fn essence(line: &[u8]) -> &[u8] {
    let digits = line.iter().all(|&byte| digit_value(byte).is_some());
    if digits && line.len() <= MOST_DIGITS {
        line
    } else {
        SPOILT
    }
}

impl Reader {
    /// How many digits are read; none of a reader that has more than a line may have.
    fn digits(&self) -> Option<usize> {
        let digits = usize::try_from(self.digits).ok()?;
        (digits <= MOST_DIGITS).then_some(digits)
    }

    /// Whether any byte of the line is read, if the reader is one.
    pub fn has_begun(&self) -> Option<bool> {
        Some(self.digits()? > 0 || self.spoilt != 0)
    }
}

impl Buffers {
    /// The essence of the line that reader and frame buffer hold, if they hold one.
    pub fn line(&self) -> Option<Vec<u8>> {
        let digits = self.reader.digits()?;
        if self.reader.spoilt != 0 {
            return Some(SPOILT.to_vec());
        }
        let mut line = Vec::with_capacity(digits + DIGITS);
        for &word in self.frame.get(..digits / DIGITS)? {
            write_word(word as u32, &mut line);
        }
        let mut unfinished = Vec::with_capacity(DIGITS);
        write_word(self.reader.word as u32, &mut unfinished);
        line.extend_from_slice(&unfinished[DIGITS - digits % DIGITS..]);
        Some(line)
    }

    /// Reader and frame buffer come to hold the essence of a line, with any words wherever they
    /// say nothing. The frame buffer must be long enough.
    pub fn hold(&mut self, line: &[u8], random: &mut Random) {
        if essence(line) == SPOILT {
            let read = [0, random.below(MOST_DIGITS + 1)];
            self.reader = Reader {
                digits: read[random.below(2)] as u64,
                word: random.draw(),
                spoilt: 1,
            };
            return;
        }
        let (whole, rest) = line.split_at(line.len() / DIGITS * DIGITS);
        let mut words = Vec::new();
        read_words(whole, &mut words).expect("the essence of a line is digits");
        let (held, behind) = self.frame.split_at_mut(words.len());
        held.copy_from_slice(&words);
        behind.fill(random.draw() as i32);
        let shifted = |word, &digit| word << 4 | u64::from(digit_value(digit).unwrap_or(0));
        self.reader = Reader {
            digits: line.len() as u64,
            word: rest.iter().fold(random.draw(), shifted),
            spoilt: 0,
        };
    }
}
