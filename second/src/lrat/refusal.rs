//! What a proof is refused for.

use crate::dimacs::Kind;

/// What is wrong with a line, in the order in which it is judged: "in this order within a line"; and
/// the end without an empty clause.
#[derive(Clone, Copy, Debug, PartialEq, Eq, PartialOrd, Ord)]
pub enum Refusal {
    /// 31: "A malformed line"
    Malformed,
    /// 32: "a literal past the CNF's count"
    PastCount,
    /// 33: "a clause against Terms"
    AgainstTerms,
    /// 34: "an added line's id not above all CNF and earlier added ids"
    IdNotAbove,
    /// 35: "a deleted id not held"
    NotHeld,
    /// 36: "a negative hint even if unread"
    NegativeHint,
    /// 12: "no room (12, then 13)"
    Entries,
    /// 13
    Words,
    /// 37: "a failed proof"
    Unproved,
    /// 38: "an end without an empty clause"
    NoEmptyClause,
}

impl Refusal {
    /// Those of a line, in their order.
    pub const OF_A_LINE: [Refusal; 9] = [
        Refusal::Malformed,
        Refusal::PastCount,
        Refusal::AgainstTerms,
        Refusal::IdNotAbove,
        Refusal::NotHeld,
        Refusal::NegativeHint,
        Refusal::Entries,
        Refusal::Words,
        Refusal::Unproved,
    ];

    /// "each under its own number"
    pub fn number(self) -> u32 {
        match self {
            Refusal::Malformed => 31,
            Refusal::PastCount => 32,
            Refusal::AgainstTerms => 33,
            Refusal::IdNotAbove => 34,
            Refusal::NotHeld => 35,
            Refusal::NegativeHint => 36,
            Refusal::Entries => 12,
            Refusal::Words => 13,
            Refusal::Unproved => 37,
            Refusal::NoEmptyClause => 38,
        }
    }

    fn of(number: u32) -> Option<Refusal> {
        let all = Refusal::OF_A_LINE.into_iter();
        let mut all = all.chain([Refusal::NoEmptyClause]);
        all.find(|refusal| refusal.number() == number)
    }

    fn meaning(self) -> &'static str {
        match self {
            Refusal::Malformed => "a malformed line",
            Refusal::PastCount => "a literal past the CNF's count",
            Refusal::AgainstTerms => "a variable twice or over 256 literals",
            Refusal::IdNotAbove => "an id not above all earlier ones",
            Refusal::NotHeld => "a deleted id that is not held",
            Refusal::NegativeHint => "a negative hint",
            Refusal::Entries => "no entry left",
            Refusal::Words => "not enough words left",
            Refusal::Unproved => "a failed proof",
            Refusal::NoEmptyClause => "an end without an empty clause",
        }
    }
}

/// Code and detail in words.
pub fn tell(code: u32, detail: u64) -> String {
    match (code, Refusal::of(code), Kind::of(code)) {
        (0, ..) => "accepted".to_string(),
        (1, ..) => "1 (lent sizes out of range)".to_string(),
        (_, Some(refusal), _) => format!("{code} ({}), line {detail}", refusal.meaning()),
        (.., Some(kind)) => format!("{kind} at byte {detail}"),
        _ => format!("{code} (no number of request 3), detail {detail}"),
    }
}
