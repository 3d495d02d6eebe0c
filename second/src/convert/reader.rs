//! Letters and numbers of a proof, text or binary.

use std::fmt;

/// What is wrong with a proof, and where.
#[derive(Clone, Debug, PartialEq, Eq)]
pub struct Fault {
    pub place: Place,
    pub what: String,
}

impl fmt::Display for Fault {
    fn fmt(&self, out: &mut fmt::Formatter<'_>) -> fmt::Result {
        write!(out, "{}: {}", self.place, self.what)
    }
}

/// Where a step stands, from 1: lines are those of a text, steps those of a binary proof.
#[derive(Clone, Copy, Debug, PartialEq, Eq)]
pub enum Place {
    Line(usize),
    Step(usize),
}

impl Place {
    pub fn fault(self, what: impl Into<String>) -> Fault {
        Fault {
            place: self,
            what: what.into(),
        }
    }
}

impl fmt::Display for Place {
    fn fmt(&self, out: &mut fmt::Formatter<'_>) -> fmt::Result {
        match self {
            Place::Line(line) => write!(out, "line {line}"),
            Place::Step(step) => write!(out, "step {step}"),
        }
    }
}

pub struct Reader<'t> {
    bytes: &'t [u8],
    at: usize,
    is_binary: bool,
    /// Line breaks passed, or steps begun.
    count: usize,
    /// Where the step begins that is being read.
    place: Place,
}

impl<'t> Reader<'t> {
    /// A binary list ends with a byte 0, which no text has.
    pub fn new(bytes: &'t [u8]) -> Reader<'t> {
        let is_binary = bytes.contains(&0);
        Reader {
            bytes,
            at: 0,
            is_binary,
            count: 0,
            place: if is_binary {
                Place::Step(0)
            } else {
                Place::Line(0)
            },
        }
    }

    pub fn place(&self) -> Place {
        self.place
    }

    pub fn fault(&self, what: impl Into<String>) -> Fault {
        self.place.fault(what)
    }

    /// Goes to the next step, past comments; whether there is one.
    pub fn find_step(&mut self) -> bool {
        if self.is_binary {
            self.count += 1;
            self.place = Place::Step(self.count);
            return self.at < self.bytes.len();
        }
        self.skip_blanks();
        while self.peek() == Some(b'c') {
            while self.peek().is_some_and(|byte| byte != b'\n') {
                self.at += 1;
            }
            self.skip_blanks();
        }
        self.place = Place::Line(self.count + 1);
        self.at < self.bytes.len()
    }

    /// Takes a letter if one is next.
    pub fn take_letter(&mut self) -> Option<char> {
        self.skip_blanks();
        let letter = self.peek().filter(u8::is_ascii_alphabetic)?;
        self.at += 1;
        Some(letter.into())
    }

    /// Whether this letter is next; then it is taken.
    pub fn takes(&mut self, letter: u8) -> bool {
        self.skip_blanks();
        let is_next = self.peek() == Some(letter);
        self.at += usize::from(is_next);
        is_next
    }

    /// An id, which has no sign.
    pub fn take_id(&mut self) -> Result<u64, Fault> {
        if self.is_binary {
            return self.take_bits();
        }
        let number = self.take_number()?;
        u64::try_from(number).map_err(|_| self.malformed())
    }

    /// Numbers up to a 0, which is taken, too.
    pub fn take_numbers(&mut self) -> Result<Vec<i64>, Fault> {
        let mut numbers = Vec::new();
        loop {
            match self.take_number()? {
                0 => return Ok(numbers),
                number => numbers.push(number),
            }
        }
    }

    /// A number with a sign; in binary that is the last bit.
    fn take_number(&mut self) -> Result<i64, Fault> {
        if self.is_binary {
            let bits = self.take_bits()?;
            let magnitude = (bits >> 1) as i64;
            return Ok(if bits & 1 == 1 { -magnitude } else { magnitude });
        }
        self.skip_blanks();
        let start = self.at;
        while self.peek().is_some_and(|byte| !byte.is_ascii_whitespace()) {
            self.at += 1;
        }
        let word = std::str::from_utf8(&self.bytes[start..self.at]).ok();
        word.and_then(|word| word.parse().ok())
            .ok_or_else(|| self.malformed())
    }

    /// Seven bits a byte, the lowest first; the last byte has its highest bit clear.
    fn take_bits(&mut self) -> Result<u64, Fault> {
        let mut bits = 0;
        for shift in (0..u64::BITS - 1).step_by(7) {
            let byte = self.peek().ok_or_else(|| self.malformed())?;
            self.at += 1;
            bits |= u64::from(byte & 0x7f) << shift;
            if byte < 0x80 {
                return Ok(bits);
            }
        }
        Err(self.malformed())
    }

    fn malformed(&self) -> Fault {
        self.fault("a number is malformed or missing")
    }

    fn peek(&self) -> Option<u8> {
        self.bytes.get(self.at).copied()
    }

    /// There are none in a binary proof.
    fn skip_blanks(&mut self) {
        while !self.is_binary && self.peek().is_some_and(|byte| byte.is_ascii_whitespace()) {
            self.count += usize::from(self.peek() == Some(b'\n'));
            self.at += 1;
        }
    }
}
