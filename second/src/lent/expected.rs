//! What a call over lent tables must answer and leave.

use super::reading::state_of;
use super::tables::{Tables, MODEL_WORDS};
use crate::answer::{Answer, Refusal};
use crate::checker::{Checker, Checks};
use crate::state::State;
use crate::terms::{MOST_ENTRIES, MOST_WORDS};

/// A model buffer's words.
pub type Model = [u64; MODEL_WORDS];

/// What a call comes to.
#[derive(Clone, Debug, PartialEq, Eq)]
pub struct Expected {
    pub code: u32,
    pub detail: u32,
    /// The state that the tables spell afterwards; none where every word of them stays.
    pub state: Option<State>,
    /// What is in the model buffer afterwards; none where every word of it stays.
    pub model: Option<Model>,
}

impl Expected {
    fn unwritten(answer: &Answer) -> Expected {
        Expected {
            code: answer.code,
            detail: answer.detail,
            state: None,
            model: None,
        }
    }
}

/// "lent sizes outside 1 to 1,024 entries or 1 to 8,192 literal words"
pub fn is_lendable(tables: &Tables) -> bool {
    (1..=MOST_ENTRIES).contains(&tables.entries.len())
        && (1..=MOST_WORDS).contains(&tables.pool.len())
}

/// "Opening takes no model buffer, gives 1 for lent sizes only and then 3, both writing nothing;
/// else 0, detail 0, and an empty state with highest id 0, whatever the tables held."
pub fn expect_open(vars: u32, tables: &Tables) -> Expected {
    // A V too large for a word of the checker is as wrong as any other above the bound.
    let vars = i32::try_from(vars).unwrap_or(i32::MAX);
    match Checker::open(vars, tables.entries.len(), tables.pool.len()) {
        Ok(checker) => Expected {
            state: Some(checker.state().clone()),
            ..Expected::unwritten(&Answer::accepted())
        },
        Err(answer) => Expected::unwritten(&answer),
    }
}

/// Code 1 before all else; then the answer of the state that the tables are.
pub fn expect_step(tables: &Tables, frame: &[i32], model: &[u64]) -> Expected {
    let state = state_of(&tables.entries, &tables.pool, &tables.carried);
    let lent = is_lendable(tables) && model.len() == MODEL_WORDS;
    let Some(state) = state.filter(|_| lent) else {
        return Expected::unwritten(&Refusal::Sizes.into());
    };
    let mut checker = Checker::with_state(state);
    let answer = checker.step(frame);
    Expected {
        state: is_change(frame, &answer).then(|| checker.state().clone()),
        model: answer.model.as_deref().map(model_words),
        ..Expected::unwritten(&answer)
    }
}

/// Whether the tables are written: "SAT and UNSAT never write the tables", nor does a refusal.
pub fn is_change(frame: &[i32], answer: &Answer) -> bool {
    answer.is_accepted() && matches!(frame[0], 1..=7)
}

/// "variable v is bit (v-1) mod 64 of word (v-1)/64, whole part; bits above V are zero"
fn model_words(true_variables: &[i32]) -> Model {
    let mut words = [0; MODEL_WORDS];
    for &variable in true_variables {
        let bit = variable as usize - 1;
        words[bit / 64] |= 1 << (bit % 64);
    }
    words
}
