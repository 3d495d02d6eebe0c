//! The numbered answers of document 01.

/// "Each answer is a code and a detail"; an accepted SAT also hands out the mended model,
/// here as its true variables, rising.
#[derive(Clone, Debug, PartialEq, Eq)]
pub struct Answer {
    pub code: u32,
    pub detail: u32,
    pub model: Option<Vec<i32>>,
}

impl Answer {
    /// Accepted, with nothing more to say.
    pub fn accepted() -> Answer {
        Answer {
            code: 0,
            detail: 0,
            model: None,
        }
    }

    /// An accepted SAT: how many variables changed, and the model.
    pub fn mended(changed: usize, model: Vec<i32>) -> Answer {
        Answer {
            code: 0,
            detail: changed as u32,
            model: Some(model),
        }
    }

    pub fn is_accepted(&self) -> bool {
        self.code == 0
    }
}

/// Codes 1 to 13, each with what its detail is made of.
#[derive(Clone, Copy, Debug, PartialEq, Eq)]
pub enum Refusal {
    /// 1: the lent sizes are out of bounds.
    Sizes,
    /// 2: no frame, or a wrong count in one.
    Counts,
    /// 3: a word that is no literal, repeats a variable, or is no rising true variable.
    Literal { word: usize },
    /// 4: the id is not new, or its clause is not in the place the row names.
    Id { id: i32 },
    /// 5: not clean.
    NotClean { record: i32 },
    /// 6: the witness has no literal of the clause.
    Witness,
    /// 7: a bad hint.
    Hint { word: usize },
    /// 8: hints used up; WEAKEN names the clause D, all others 0.
    UsedUp { clause: i32 },
    /// 9: a fault of the groups.
    Group { word: usize },
    /// 10: the model falsifies an irredundant clause.
    FalseClause { id: i32 },
    /// 11: the model falsifies an assumption.
    FalseAssumption { word: usize },
    /// 12: the lent entries are full.
    Entries,
    /// 13: the lent words do not suffice.
    Words,
}

impl Refusal {
    pub fn code(self) -> u32 {
        match self {
            Refusal::Sizes => 1,
            Refusal::Counts => 2,
            Refusal::Literal { .. } => 3,
            Refusal::Id { .. } => 4,
            Refusal::NotClean { .. } => 5,
            Refusal::Witness => 6,
            Refusal::Hint { .. } => 7,
            Refusal::UsedUp { .. } => 8,
            Refusal::Group { .. } => 9,
            Refusal::FalseClause { .. } => 10,
            Refusal::FalseAssumption { .. } => 11,
            Refusal::Entries => 12,
            Refusal::Words => 13,
        }
    }

    pub fn detail(self) -> u32 {
        match self {
            Refusal::Literal { word }
            | Refusal::Hint { word }
            | Refusal::Group { word }
            | Refusal::FalseAssumption { word } => word as u32,
            Refusal::Id { id } | Refusal::FalseClause { id } => id as u32,
            Refusal::NotClean { record } => record as u32,
            Refusal::UsedUp { clause } => clause as u32,
            Refusal::Sizes
            | Refusal::Counts
            | Refusal::Witness
            | Refusal::Entries
            | Refusal::Words => 0,
        }
    }
}

impl From<Refusal> for Answer {
    fn from(refusal: Refusal) -> Answer {
        Answer {
            code: refusal.code(),
            detail: refusal.detail(),
            model: None,
        }
    }
}
