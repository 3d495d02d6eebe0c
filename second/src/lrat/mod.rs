//! Proof files in LRAT (document 02, request 3): a text of additions and deletions is checked against a
//! CNF text, and accepted exactly when every line up to the first empty clause passes and one is
//! reached.
//!
//! `lines` reads a proof line by line, `held` keeps the clauses within the lent sizes and `checking`
//! judges. `program` does all that for two files.

mod checking;
mod held;
mod lines;
pub mod program;
mod refusal;

pub use checking::check;
pub use refusal::{tell, Refusal};
