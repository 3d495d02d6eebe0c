//! What came of a trace.

use crate::lists::count;

/// By rising weight: the worst of several decides the status.
#[derive(Clone, Copy, Debug, PartialEq, Eq, PartialOrd, Ord)]
pub enum Verdict {
    Accepted,
    Refused,
    /// Something could not be read, written or answered.
    None,
}

impl Verdict {
    pub fn status(self) -> u8 {
        match self {
            Verdict::Accepted => 0,
            Verdict::Refused => 1,
            Verdict::None => crate::COULD_NOT,
        }
    }
}

/// Answers counted.
#[derive(Clone, Copy, Debug, Default, PartialEq, Eq)]
pub struct Tally {
    pub lines: usize,
    pub refused: usize,
}

impl Tally {
    pub fn add(&mut self, accepted: bool) {
        self.lines += 1;
        self.refused += usize::from(!accepted);
    }

    /// The verdict where every line was answered.
    pub fn verdict(self) -> Verdict {
        match self.refused {
            0 => Verdict::Accepted,
            _ => Verdict::Refused,
        }
    }

    /// The verdict line, without its end.
    pub fn told(self, verdict: Verdict) -> String {
        let lines = count(self.lines, "line");
        match verdict {
            Verdict::Accepted => format!("accepted: {lines}"),
            Verdict::Refused => format!("refused: {} of {lines}", self.refused),
            Verdict::None => format!("no verdict: {lines} answered, {} refused", self.refused),
        }
    }
}

#[cfg(test)]
mod tests {
    use super::*;

    #[test]
    fn verdict_lines() {
        let tally = |lines, refused| Tally { lines, refused };
        let told = |tally: Tally| tally.told(tally.verdict());
        assert_eq!(told(tally(0, 0)), "accepted: 0 lines");
        assert_eq!(told(tally(1, 0)), "accepted: 1 line");
        assert_eq!(told(tally(6, 1)), "refused: 1 of 6 lines");
        assert_eq!(
            tally(6, 1).told(Verdict::None),
            "no verdict: 6 lines answered, 1 refused"
        );
        assert!(Verdict::None > Verdict::Refused && Verdict::Refused > Verdict::Accepted);
    }
}
