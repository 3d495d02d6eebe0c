//! Answers: what their numbers say.

use crate::Refused;
use std::fmt;

/// Code 0 is an acceptance, 1 to 13 are refusals, 21 to 29 the faults of a text, 31 to 38 those of a
/// proof.
#[repr(C)]
#[derive(Clone, Copy, Debug, PartialEq, Eq)]
pub struct Answer {
    pub code: u64,
    pub detail: u64,
}

/// What an answer's code says.
#[derive(Clone, Copy, Debug, PartialEq, Eq, PartialOrd, Ord, Hash)]
pub enum Code {
    Accepted = 0,
    NoState = 1,
    NoFrame = 2,
    BadLiteral = 3,
    BadId = 4,
    NotClean = 5,
    BadWitness = 6,
    BadHint = 7,
    HintsUsedUp = 8,
    BadGroup = 9,
    FalseClause = 10,
    FalseAssumption = 11,
    NoEntry = 12,
    NoWords = 13,
    NoProblemLine = 21,
    SecondProblemLine = 22,
    MalformedWord = 23,
    PastDeclared = 24,
    VariableTwice = 25,
    LongClause = 26,
    VarsOutOfRange = 27,
    UnclosedClause = 28,
    WrongClauseCount = 29,
    MalformedLine = 31,
    PastRules = 32,
    BadClause = 33,
    IdNotAbove = 34,
    IdNotHeld = 35,
    NegativeHint = 36,
    FailedProof = 37,
    NoEmptyClause = 38,
}

impl Code {
    /// By their numbers.
    pub const ALL: [Code; 31] = [
        Code::Accepted,
        Code::NoState,
        Code::NoFrame,
        Code::BadLiteral,
        Code::BadId,
        Code::NotClean,
        Code::BadWitness,
        Code::BadHint,
        Code::HintsUsedUp,
        Code::BadGroup,
        Code::FalseClause,
        Code::FalseAssumption,
        Code::NoEntry,
        Code::NoWords,
        Code::NoProblemLine,
        Code::SecondProblemLine,
        Code::MalformedWord,
        Code::PastDeclared,
        Code::VariableTwice,
        Code::LongClause,
        Code::VarsOutOfRange,
        Code::UnclosedClause,
        Code::WrongClauseCount,
        Code::MalformedLine,
        Code::PastRules,
        Code::BadClause,
        Code::IdNotAbove,
        Code::IdNotHeld,
        Code::NegativeHint,
        Code::FailedProof,
        Code::NoEmptyClause,
    ];

    /// The code of a number; no answer has another than these.
    pub fn of(number: u64) -> Option<Code> {
        Code::ALL.into_iter().find(|&code| code as u64 == number)
    }

    /// In words, without what the detail adds; `zahrubel_code_name` of C says the same.
    pub fn name(self) -> &'static str {
        match self {
            Code::Accepted => "accepted",
            Code::NoState => "no state, or a lent size out of range",
            Code::NoFrame => "no frame",
            Code::BadLiteral => "a literal out of range or repeated",
            Code::BadId => "an id not new, or not in its place",
            Code::NotClean => "not clean",
            Code::BadWitness => "the witness has no literal of the clause",
            Code::BadHint => "a bad hint",
            Code::HintsUsedUp => "the hints are used up",
            Code::BadGroup => "a group missing or wrong",
            Code::FalseClause => "the model falsifies a clause",
            Code::FalseAssumption => "the model falsifies an assumption",
            Code::NoEntry => "no entry is free",
            Code::NoWords => "not enough literal words are free",
            Code::NoProblemLine => "the problem line is missing",
            Code::SecondProblemLine => "a second problem line",
            Code::MalformedWord => "a malformed word",
            Code::PastDeclared => "a literal past the declared count",
            Code::VariableTwice => "a variable twice in a clause",
            Code::LongClause => "a clause over 256 literals",
            Code::VarsOutOfRange => "a declared variable count outside 1 to 2048",
            Code::UnclosedClause => "an unclosed clause",
            Code::WrongClauseCount => "a wrong clause count",
            Code::MalformedLine => "a malformed line",
            Code::PastRules => "a literal past the count of the rules",
            Code::BadClause => "a clause with a variable twice, or over 256 literals",
            Code::IdNotAbove => "an id not above all before it",
            Code::IdNotHeld => "a deleted id that is not held",
            Code::NegativeHint => "a negative hint",
            Code::FailedProof => "a failed proof",
            Code::NoEmptyClause => "an end without an empty clause",
        }
    }

    /// Whether it is a fault of a text; the detail is then a byte of it.
    pub fn is_fault(self) -> bool {
        (Code::NoProblemLine..=Code::WrongClauseCount).contains(&self)
    }

    /// Whether it is said of a proof alone; the detail is then a line of it.
    pub fn is_of_proof(self) -> bool {
        self >= Code::MalformedLine
    }
}

impl fmt::Display for Code {
    fn fmt(&self, out: &mut fmt::Formatter<'_>) -> fmt::Result {
        out.write_str(self.name())
    }
}

impl Answer {
    pub fn is_accepted(self) -> bool {
        self.code == Code::Accepted as u64
    }

    /// What its number says.
    pub fn meaning(self) -> Option<Code> {
        Code::of(self.code)
    }

    /// The detail of an acceptance, which after SAT is the number of variables changed; or the
    /// refusal, as an error.
    pub fn accepted(self) -> Result<u64, Refused> {
        if self.is_accepted() {
            Ok(self.detail)
        } else {
            Err(Refused(self))
        }
    }
}

impl fmt::Display for Answer {
    fn fmt(&self, out: &mut fmt::Formatter<'_>) -> fmt::Result {
        let detail = self.detail;
        let Some(code) = self.meaning() else {
            return write!(out, "code {}, detail {detail}: no answer", self.code);
        };
        match code {
            Code::Accepted if detail == 0 => return write!(out, "{code}"),
            Code::Accepted if detail == 1 => return write!(out, "{code}: 1 variable changed"),
            Code::Accepted => return write!(out, "{code}: {detail} variables changed"),
            _ => write!(out, "refused {}: ", self.code)?,
        }
        match code {
            Code::BadLiteral => write!(out, "word {detail} is out of range or repeated"),
            Code::BadId => write!(out, "id {detail} is not new, or not in its place"),
            Code::NotClean => write!(out, "{code} against record {detail}"),
            Code::BadHint => write!(out, "word {detail} is {code}"),
            Code::HintsUsedUp if detail != 0 => write!(out, "{code} in the group of {detail}"),
            Code::BadGroup => write!(out, "{code} at word {detail}"),
            Code::FalseClause => write!(out, "the model falsifies clause {detail}"),
            Code::FalseAssumption => write!(out, "{code}, word {detail}"),
            fault if fault.is_fault() => write!(out, "{fault}, byte {detail}"),
            code if code.is_of_proof() => write!(out, "{code}, line {detail}"),
            // Of a frame, and of the rules of a proof, it is 0.
            Code::NoEntry | Code::NoWords if detail != 0 => write!(out, "{code}, line {detail}"),
            _ => write!(out, "{code}"),
        }
    }
}
