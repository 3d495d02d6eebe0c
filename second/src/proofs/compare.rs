//! What another program writes of a pair, compared with what it must write.

use crate::compare::Run;
use crate::histogram::lines_of;
use crate::lines::read_words;
use crate::lrat::program::{refusal_line, VERIFIED};
use crate::lrat::tell;
use std::fmt;

/// The first difference in words.
#[derive(Clone, Debug, PartialEq, Eq)]
pub struct Difference {
    pub expected: String,
    pub found: String,
}

impl fmt::Display for Difference {
    fn fmt(&self, out: &mut fmt::Formatter<'_>) -> fmt::Result {
        write!(out, "expected {}\nfound    {}", self.expected, self.found)
    }
}

/// Compares status and standard output and, where the proof is refused, the first line on standard error.
pub fn first_difference((code, detail): (u32, u64), found: &Run) -> Option<Difference> {
    let status = i32::from(code != 0);
    let output = if code == 0 { VERIFIED } else { b"" };
    let line = refusal_line(code, detail);
    let told = lines_of(&line).next();
    let told_instead = lines_of(&found.errors).next();
    let is_told = code == 0 || told == told_instead;
    if found.status.code() == Some(status) && found.output == output && is_told {
        return None;
    }
    Some(Difference {
        expected: format!("status {status}, {}", tell(code, detail)),
        found: format!(
            "{}, {}, standard output {:?}",
            found.status,
            tell_errors(told_instead),
            String::from_utf8_lossy(&found.output)
        ),
    })
}

/// The line of a refusal in words.
fn tell_errors(line: Option<(&[u8], bool)>) -> String {
    let Some((line, _)) = line else {
        return "nothing on standard error".to_string();
    };
    let mut words = Vec::new();
    match (read_words(line, &mut words), words.as_slice()) {
        (Some(()), &[code, detail]) => tell(code as u32, u64::from(detail as u32)),
        _ => format!("on standard error {:?}", String::from_utf8_lossy(line)),
    }
}
