//! Texts read through the archive, with an eye on every word that is lent.
#![allow(dead_code)] // the long run needs no cursors but those handed out

use second::dimacs::is_blank;
use second::texts::run::Reads;
use zahrubel::dimacs::{judge_into, next_into, Cnf, Cursor, LONGEST_ADD};
use zahrubel::Answer;

/// A cursor and a buffer. The buffer has some words more than a frame needs, which always stay.
pub struct Lent {
    pub cursor: Cursor,
    pub buffer: Vec<i32>,
}

/// What stands in a buffer before, and no frame has.
const PAINT: i32 = i32::MIN;

impl Lent {
    pub fn at(cursor: Cursor) -> Lent {
        Lent {
            cursor,
            buffer: vec![PAINT; LONGEST_ADD + 3],
        }
    }

    /// The next frame into so much of the buffer. But for a frame nothing changes, and behind it
    /// nothing does.
    fn ask_within(&mut self, text: &[u8], room: usize) -> Answer {
        let (cursor, buffer) = (self.cursor, self.buffer.clone());
        let answer = next_into(text, &mut self.cursor, &mut self.buffer[..room]);
        let words = if answer.is_accepted() {
            answer.detail as usize
        } else {
            0
        };
        assert!(words <= LONGEST_ADD, "{words} words");
        assert_eq!(self.buffer[words..], buffer[words..]);
        assert!(words > 0 || self.cursor == cursor, "{answer}");
        answer
    }

    /// The next frame. A buffer that is too short is refused before, whatever comes.
    pub fn ask(&mut self, text: &[u8]) -> Answer {
        for room in [LONGEST_ADD - 1, 0] {
            let refused = self.ask_within(text, room);
            assert_eq!((refused.code, refused.detail), (1, 0));
        }
        self.ask_within(text, LONGEST_ADD)
    }

    /// The words of the frame that an answer tells of.
    pub fn frame(&self, answer: Answer) -> &[i32] {
        &self.buffer[..answer.detail as usize]
    }
}

/// The archive behind the run of the second implementation.
pub struct Watched;

impl Reads for Watched {
    fn judge(&mut self, text: &[u8]) -> Result<(u64, u64), (u64, u64)> {
        let before = Cnf {
            vars: u64::MAX,
            clauses: u64::MAX - 1,
        };
        let mut cnf = before;
        let answer = judge_into(text, &mut cnf);
        if answer.is_accepted() {
            assert_eq!(answer.detail, 0);
            return Ok((cnf.vars, cnf.clauses));
        }
        assert_eq!(cnf, before);
        Err((answer.code, answer.detail))
    }

    fn frames(&mut self, text: &[u8]) -> Vec<Vec<i32>> {
        let mut lent = Lent::at(Cursor::default());
        let mut frames = Vec::new();
        let mut answer = lent.ask(text);
        while answer.is_accepted() && answer.detail > 0 {
            frames.push(lent.frame(answer).to_vec());
            answer = lent.ask(text);
        }
        assert_eq!(answer, lent.ask(text), "the end stays the end");
        let told = answer.accepted().map(drop);
        let judged = self.judge(text).map(drop);
        assert_eq!(
            told.map_err(|refused| (refused.0.code, refused.0.detail)),
            judged
        );
        frames
    }
}

/// The clause that stands behind a place, and where its 0 ends. There is none inside a word.
pub fn next_clause(text: &[u8], at: usize) -> Option<(Vec<i32>, usize)> {
    let mut literals = Vec::new();
    let mut place = at;
    text.get(at).filter(|&&byte| is_blank(byte))?;
    loop {
        let start = next_word(text, place)?;
        let length = text[start..].iter().position(|&byte| is_blank(byte));
        let end = length.map_or(text.len(), |length| start + length);
        match literal(&text[start..end])? {
            0 => return Some((literals, end)),
            _ if literals.len() == LONGEST_ADD - 2 => return None,
            literal => literals.push(literal),
        }
        place = end;
    }
}

/// Where the next word starts behind a blank, or a word.
fn next_word(text: &[u8], mut place: usize) -> Option<usize> {
    loop {
        let rest = text.get(place..)?;
        let start = place + rest.iter().position(|&byte| !is_blank(byte))?;
        if text[start] != b'c' || text[start - 1] != b'\n' {
            return Some(start);
        }
        let comment = text[start..].iter().position(|&byte| byte == b'\n')?;
        place = start + comment;
    }
}

/// A literal of 2,048 variables at most, or the 0 that closes.
fn literal(word: &[u8]) -> Option<i32> {
    let digits = word.strip_prefix(b"-").unwrap_or(word);
    if digits.is_empty() || !digits.iter().all(u8::is_ascii_digit) {
        return None;
    }
    let value = digits.iter().fold(0, |value: i32, digit| {
        value
            .saturating_mul(10)
            .saturating_add((digit - b'0').into())
    });
    match (value, digits.len() < word.len()) {
        (0, true) | (2_049.., _) => None,
        (value, negative) => Some(if negative { -value } else { value }),
    }
}
