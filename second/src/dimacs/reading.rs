//! A text judged word by word. Places only rise, so the first fault met is the one to tell.

use super::fault::{Fault, Kind};
use super::scan::{Number, Scan, Word};
use super::Declared;
use crate::terms::{MOST_LITERALS, MOST_VARIABLES};

/// What takes the clauses, literal by literal.
pub trait Keeps {
    fn literal(&mut self, literal: i32);
    fn close(&mut self);
}

/// Of a text that is only judged nothing is kept.
impl Keeps for () {
    fn literal(&mut self, _: i32) {}
    fn close(&mut self) {}
}

/// Reads a whole text.
pub fn read(text: &[u8], keeps: &mut impl Keeps) -> Result<Declared, Fault> {
    let (line, mut scan) = read_problem_line(Scan::new(text))?;
    let mut clauses = Clauses::new(line.vars);
    while let Some(start) = scan.find_word() {
        let Some(number) = scan.take_number() else {
            return Err(no_number(scan, start));
        };
        if number.magnitude > 0 {
            let literal = clauses.add(number).map_err(|kind| kind.at(start))?;
            keeps.literal(literal);
        } else if number.negative {
            return Err(Kind::Malformed.at(start));
        } else {
            clauses.close();
            keeps.close();
        }
    }
    clauses.end(&line).map_err(|kind| kind.at(text.len()))?;
    Ok(Declared {
        vars: line.vars,
        clauses: clauses.closed as usize,
    })
}

/// A word that is no number: "or second problem line, any other malformed word".
#[cold]
fn no_number(scan: Scan<'_>, start: usize) -> Fault {
    if scan.is_problem_line(start) {
        Kind::SecondProblemLine.at(start)
    } else {
        Kind::Malformed.at(start)
    }
}

/// What the problem line says.
struct ProblemLine {
    vars: i32,
    clauses: u64,
}

/// "one line "p cnf" with the variable and clause counts". The first word of a text is the first of
/// its line.
fn read_problem_line(mut scan: Scan<'_>) -> Result<(ProblemLine, Scan<'_>), Fault> {
    match scan.take_word() {
        Some(word) if word.bytes == b"p" => {}
        Some(word) => return Err(Kind::MissingProblemLine.at(word.start)),
        None => return Err(Kind::MissingProblemLine.at(scan.length())),
    }
    let cnf = take_on_line(&mut scan)?;
    if cnf.bytes != b"cnf" {
        return Err(Kind::Malformed.at(cnf.start));
    }
    let vars = take_on_line(&mut scan)?;
    let line = ProblemLine {
        vars: read_variable_count(&vars)?,
        clauses: read_count(&take_on_line(&mut scan)?)?,
    };
    match scan.take_on_line() {
        Ok(fifth) => Err(Kind::Malformed.at(fifth.start)),
        Err(_) => Ok((line, scan)),
    }
}

/// A problem line cut short is malformed where the text goes on.
fn take_on_line<'t>(scan: &mut Scan<'t>) -> Result<Word<'t>, Fault> {
    scan.take_on_line()
        .map_err(|position| Kind::Malformed.at(position))
}

fn read_count(word: &Word<'_>) -> Result<u64, Fault> {
    word.count().ok_or(Kind::Malformed.at(word.start))
}

/// "a declared variable count outside 1 to 2,048"
fn read_variable_count(word: &Word<'_>) -> Result<i32, Fault> {
    match i32::try_from(read_count(word)?) {
        Ok(vars @ 1..=MOST_VARIABLES) => Ok(vars),
        _ => Err(Kind::VariableCount.at(word.start)),
    }
}

/// How far the clauses are read.
struct Clauses {
    vars: u32,
    closed: u32,
    /// How many the clause has that is not closed yet.
    literals: usize,
    /// For each variable how many clauses were closed, and one more, when it was last met: so no
    /// clause has to clear it.
    met: Vec<u32>,
}

impl Clauses {
    fn new(vars: i32) -> Clauses {
        Clauses {
            vars: vars as u32,
            closed: 0,
            literals: 0,
            met: vec![0; vars as usize + 1],
        }
    }

    /// Another literal: 24, 25 and 26 in the list's order.
    #[inline]
    fn add(&mut self, number: Number) -> Result<i32, Kind> {
        if number.magnitude > self.vars {
            return Err(Kind::PastCount);
        }
        let this = self.closed + 1;
        let met = &mut self.met[number.magnitude as usize];
        if *met == this {
            return Err(Kind::VariableTwice);
        }
        if self.literals == MOST_LITERALS {
            return Err(Kind::TooLong);
        }
        *met = this;
        self.literals += 1;
        let variable = number.magnitude as i32;
        Ok(if number.negative { -variable } else { variable })
    }

    #[inline]
    fn close(&mut self) {
        self.closed += 1;
        self.literals = 0;
    }

    /// The text has ended.
    fn end(&self, line: &ProblemLine) -> Result<(), Kind> {
        if self.literals > 0 {
            return Err(Kind::Unclosed);
        }
        if u64::from(self.closed) != line.clauses {
            return Err(Kind::ClauseCount);
        }
        Ok(())
    }
}
