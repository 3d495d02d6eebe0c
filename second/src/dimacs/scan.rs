//! The words of a text: what stands between blanks, in lines that are no comments.

use crate::terms::MOST_VARIABLES;

/// Blanks stand between words; of them LF also ends a line.
pub fn is_blank(byte: u8) -> bool {
    matches!(byte, b' ' | b'\t' | b'\r' | b'\n')
}

/// A word and where it starts.
#[derive(Clone, Copy, Debug)]
pub struct Word<'t> {
    pub start: usize,
    pub bytes: &'t [u8],
}

impl Word<'_> {
    /// A count: digits alone, of any number. Past 64 bits it is some count that no text can have.
    pub fn count(&self) -> Option<u64> {
        let mut count = 0u64;
        for byte in self.bytes {
            let digit = byte.is_ascii_digit().then(|| byte - b'0')?;
            count = count.saturating_mul(10).saturating_add(digit.into());
        }
        Some(count)
    }
}

/// A word of the clauses: digits, leading zeros too, behind one - or none.
#[derive(Clone, Copy, Debug)]
pub struct Number {
    pub negative: bool,
    /// Exact up to 2,048; above it any number above it, since no bound is greater.
    pub magnitude: u32,
}

/// So many digits are a number of 32 bits, whatever they are.
const FEW_DIGITS: usize = 9;

/// The magnitude of more digits than these few; it stays where it is once it is past all bounds.
#[cold]
fn magnitude(digits: &[u8]) -> u32 {
    digits.iter().fold(0, |magnitude, digit| match magnitude {
        0..=MOST_VARIABLES => 10 * magnitude + i32::from(digit - b'0'),
        past => past,
    }) as u32
}

/// A place in a text.
#[derive(Clone, Copy)]
pub struct Scan<'t> {
    text: &'t [u8],
    at: usize,
}

impl<'t> Scan<'t> {
    pub fn new(text: &'t [u8]) -> Scan<'t> {
        Scan { text, at: 0 }
    }

    /// "the text's length"
    pub fn length(&self) -> usize {
        self.text.len()
    }

    /// Goes on to the next word, over blanks and comment lines, and tells where it starts.
    #[inline]
    pub fn find_word(&mut self) -> Option<usize> {
        loop {
            match *self.text.get(self.at)? {
                blank if is_blank(blank) => self.at += 1,
                b'c' if self.begins_line() => self.skip_line(),
                _ => return Some(self.at),
            }
        }
    }

    /// "comment lines starting with c": no blank stands before it.
    fn begins_line(&self) -> bool {
        self.at == 0 || self.text[self.at - 1] == b'\n'
    }

    #[inline]
    fn skip_line(&mut self) {
        let rest = &self.text[self.at..];
        let length = rest.iter().position(|&byte| byte == b'\n');
        self.at += length.unwrap_or(rest.len());
    }

    /// Takes the next word, whatever it is.
    pub fn take_word(&mut self) -> Option<Word<'t>> {
        let start = self.find_word()?;
        let rest = &self.text[start..];
        let length = rest.iter().position(|&byte| is_blank(byte));
        let bytes = &rest[..length.unwrap_or(rest.len())];
        self.at = start + bytes.len();
        Some(Word { start, bytes })
    }

    /// Takes the next word if it stands on the line of the last one. Else it takes none and tells
    /// where the next word starts, "the text's length .. where no word is left".
    pub fn take_on_line(&mut self) -> Result<Word<'t>, usize> {
        let behind = self.at;
        let next = self.find_word().unwrap_or(self.length());
        let is_on_line = !self.text[behind..next].contains(&b'\n');
        match self.take_word() {
            Some(word) if is_on_line => Ok(word),
            _ => {
                self.at = next;
                Err(next)
            }
        }
    }

    /// Takes the word that was found if it is a number, and the blank behind it, which need not be
    /// looked at twice. Behind the last word of a text the place is then past its end.
    #[inline]
    pub fn take_number(&mut self) -> Option<Number> {
        let negative = self.text[self.at] == b'-';
        let first = self.at + usize::from(negative);
        let mut end = first;
        let mut few = 0u32;
        while let Some(digit @ b'0'..=b'9') = self.text.get(end) {
            few = few.wrapping_mul(10).wrapping_add(u32::from(digit - b'0'));
            end += 1;
        }
        if end == first || !self.is_word_end(end) {
            return None;
        }
        self.at = end + 1;
        Some(Number {
            negative,
            magnitude: match end - first {
                0..=FEW_DIGITS => few,
                _ => magnitude(&self.text[first..end]),
            },
        })
    }

    #[inline]
    fn is_word_end(&self, at: usize) -> bool {
        match self.text.get(at) {
            Some(&byte) => is_blank(byte),
            None => true,
        }
    }

    /// Whether the word that starts there is p and the first of its line.
    pub fn is_problem_line(self, start: usize) -> bool {
        let is_p = self.text[start] == b'p' && self.is_word_end(start + 1);
        let mut before = self.text[..start].iter().rev();
        let nearest = before.find(|&&byte| byte == b'\n' || !is_blank(byte));
        is_p && matches!(nearest, None | Some(b'\n'))
    }
}
