//! The lines of a proof. A line is read in one pass, and a malformed one is known at its first wrong
//! word: nothing is judged before that.

/// "Every clause has an id, 1 to 2,147,483,647."
pub const MOST_ID: i64 = 2_147_483_647;

/// A well-formed line. It is kept from line to line, so that its lists are not made anew.
///
/// Numbers are exact up to the greatest id. One past it stands for any past it, since no bound is
/// greater; it is no literal's variable and no clause's id.
#[derive(Debug, Default)]
pub struct Line {
    /// Whether it is "id, d, ids, 0", and not "id, literals, 0, hint ids, 0".
    pub deletes: bool,
    /// An addition's own id; a deletion's "own first id is not judged".
    pub id: i64,
    /// An addition's alone.
    pub literals: Vec<i64>,
    /// The hints of an addition, or the ids that are deleted.
    pub ids: Vec<i64>,
}

/// The line is malformed.
#[derive(Debug)]
pub struct Malformed;

/// A place in a proof.
pub struct Lines<'t> {
    text: &'t [u8],
    at: usize,
}

impl<'t> Lines<'t> {
    pub fn new(text: &'t [u8]) -> Lines<'t> {
        Lines { text, at: 0 }
    }

    /// Nothing behind the last LF is no line.
    pub fn is_over(&self) -> bool {
        self.at >= self.text.len()
    }

    /// Reads the next line.
    pub fn read(&mut self, line: &mut Line) -> Result<(), Malformed> {
        line.literals.clear();
        line.ids.clear();
        line.id = self.take_number()?;
        line.deletes = self.takes_d();
        if line.deletes {
            self.take_to_zero(&mut line.ids)?;
            if line.ids.iter().any(|&id| id < 0) {
                return Err(Malformed);
            }
        } else {
            if !(1..=MOST_ID).contains(&line.id) {
                return Err(Malformed);
            }
            self.take_to_zero(&mut line.literals)?;
            self.take_to_zero(&mut line.ids)?;
        }
        self.take_end()
    }

    fn take_to_zero(&mut self, numbers: &mut Vec<i64>) -> Result<(), Malformed> {
        loop {
            match self.take_number()? {
                0 => return Ok(()),
                number => numbers.push(number),
            }
        }
    }

    /// Blanks stand between words; LF ends the line and is none of them.
    #[inline]
    fn skip_blanks(&mut self) {
        while let Some(b' ' | b'\t' | b'\r') = self.text.get(self.at) {
            self.at += 1;
        }
    }

    /// A word ends before a blank, at the end of its line and at the end of the text.
    #[inline]
    fn is_word_end(&self, at: usize) -> bool {
        matches!(self.text.get(at), None | Some(b' ' | b'\t' | b'\r' | b'\n'))
    }

    /// Takes the next word of the line, which must be a number: digits, leading zeros too, behind one
    /// - or none, where 0 has none.
    #[inline]
    fn take_number(&mut self) -> Result<i64, Malformed> {
        self.skip_blanks();
        let is_negative = self.text.get(self.at) == Some(&b'-');
        let first = self.at + usize::from(is_negative);
        let mut end = first;
        let mut magnitude = 0;
        while let Some(digit @ b'0'..=b'9') = self.text.get(end) {
            if magnitude <= MOST_ID {
                magnitude = 10 * magnitude + i64::from(digit - b'0');
            }
            end += 1;
        }
        let is_minus_zero = is_negative && magnitude == 0;
        if end == first || is_minus_zero || !self.is_word_end(end) {
            return Err(Malformed);
        }
        self.at = end;
        Ok(if is_negative { -magnitude } else { magnitude })
    }

    /// Takes the next word if it is d.
    #[inline]
    fn takes_d(&mut self) -> bool {
        self.skip_blanks();
        let is_d = self.text.get(self.at) == Some(&b'd') && self.is_word_end(self.at + 1);
        self.at += usize::from(is_d);
        is_d
    }

    /// No word may be left; the LF is taken, if there is one.
    fn take_end(&mut self) -> Result<(), Malformed> {
        self.skip_blanks();
        match self.text.get(self.at) {
            None | Some(b'\n') => {
                self.at += 1;
                Ok(())
            }
            Some(_) => Err(Malformed),
        }
    }
}
