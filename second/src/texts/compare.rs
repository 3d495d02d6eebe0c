//! What another program writes to a text, compared with what it must write.

use super::run::tell_fault;
use crate::compare::Run;
use crate::dimacs::program::Written;
use crate::histogram::lines_of;
use crate::lines::read_words;
use crate::words::tell_line;
use std::fmt;

/// The first difference in words.
#[derive(Clone, Debug, PartialEq, Eq)]
pub struct Difference {
    pub expected: String,
    pub found: String,
}

impl fmt::Display for Difference {
    fn fmt(&self, out: &mut fmt::Formatter<'_>) -> fmt::Result {
        write!(out, "expected {}\nfound    {}", self.expected, self.found)
    }
}

/// Compares status, the first line on standard error and all of standard output.
pub fn first_difference(expected: &Written, found: &Run) -> Option<Difference> {
    let status = i32::from(!expected.is_sound);
    let told = first_line(&expected.errors);
    let told_instead = first_line(&found.errors);
    if (Some(status), told) != (found.status.code(), told_instead) {
        return Some(Difference {
            expected: format!("status {status}, {}", tell_errors(told)),
            found: format!("{}, {}", found.status, tell_errors(told_instead)),
        });
    }
    differing_line(&expected.output, &found.output)
}

/// A line that is not closed is another line, and so is none.
type Line<'o> = Option<(&'o [u8], bool)>;

fn first_line(errors: &[u8]) -> Line<'_> {
    lines_of(errors).next()
}

/// The line of a fault in words.
fn tell_errors(line: Line<'_>) -> String {
    let Some((line, _)) = line else {
        return "nothing on standard error".to_string();
    };
    let mut words = Vec::new();
    match (read_words(line, &mut words), words.as_slice()) {
        (Some(()), &[number, position]) => {
            tell_fault(u64::from(number as u32), u64::from(position as u32))
        }
        _ => format!("on standard error {:?}", String::from_utf8_lossy(line)),
    }
}

fn differing_line(expected: &[u8], found: &[u8]) -> Option<Difference> {
    if expected == found {
        return None;
    }
    let (mut expected, mut found) = (lines_of(expected), lines_of(found));
    for place in 1.. {
        let (one, other) = (expected.next(), found.next());
        if one != other {
            return Some(Difference {
                expected: format!("line {place} {}", tell_output(one)),
                found: format!("line {place} {}", tell_output(other)),
            });
        }
    }
    None
}

fn tell_output(line: Line<'_>) -> String {
    match line {
        Some((line, true)) => tell_line(line),
        Some((line, false)) => format!("unclosed, {}", tell_line(line)),
        None => "is none".to_string(),
    }
}
