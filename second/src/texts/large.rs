//! A large text to time a reader with: the same bytes every time.

use crate::random::Random;
use crate::terms::{MOST_LITERALS, MOST_VARIABLES};

/// A sound text of about so many bytes over 2,048 variables: random clauses of three literals mostly,
/// one a line, other lengths among them, and some comment lines.
pub fn large(bytes: usize) -> Vec<u8> {
    let mut body = Body::new(bytes);
    while body.text.len() < bytes {
        body.clause();
        if body.random.one_in(200) {
            body.comment();
        }
    }
    let clauses = body.clauses;
    let mut text = format!("c a large text\np cnf {MOST_VARIABLES} {clauses}\n").into_bytes();
    text.append(&mut body.text);
    text
}

/// The clauses, which are counted before the problem line can be written.
struct Body {
    random: Random,
    text: Vec<u8>,
    clauses: u32,
    /// The last clause of each variable.
    last: Vec<u32>,
}

impl Body {
    fn new(bytes: usize) -> Body {
        Body {
            random: Random::new(1),
            text: Vec::with_capacity(bytes + 8 * MOST_LITERALS),
            clauses: 0,
            last: vec![0; MOST_VARIABLES as usize + 1],
        }
    }

    fn clause(&mut self) {
        self.clauses += 1;
        for _ in 0..self.length() {
            let variable = self.new_variable();
            if self.random.one_in(2) {
                self.text.push(b'-');
            }
            write_number(variable, &mut self.text);
            self.text.push(b' ');
        }
        self.text.extend(b"0\n");
    }

    fn length(&mut self) -> usize {
        match self.random.below(4_096) {
            0 => MOST_LITERALS,
            1..=63 => self.random.between(9, 40),
            64..=511 => self.random.between(1, 2),
            512..=1_535 => self.random.between(4, 8),
            _ => 3,
        }
    }

    /// A variable that the clause does not have yet.
    fn new_variable(&mut self) -> i32 {
        loop {
            let variable = self.random.variable(MOST_VARIABLES);
            let last = &mut self.last[variable as usize];
            if *last != self.clauses {
                *last = self.clauses;
                return variable;
            }
        }
    }

    fn comment(&mut self) {
        let told = format!("c behind clause {} of these rules\n", self.clauses);
        self.text.extend(told.into_bytes());
    }
}

/// A number of at most four digits, without the cost of formatting.
fn write_number(number: i32, text: &mut Vec<u8>) {
    let digits = [number / 1_000, number / 100, number / 10, number];
    let least = [1_000, 100, 10, 1];
    for (digit, least) in digits.into_iter().zip(least) {
        if number >= least {
            text.push(b'0' + (digit % 10) as u8);
        }
    }
}
