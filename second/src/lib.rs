//! The independent second implementation of the checker of document 01 and of document 02's requests.

pub mod answer;
pub mod assignment;
pub mod checker;
pub mod compare;
pub mod convert;
pub mod dimacs;
pub mod frame;
pub mod frames;
pub mod histogram;
pub mod judge;
pub mod lent;
pub mod lines;
pub mod lrat;
pub mod progress;
pub mod proofs;
pub mod propagation;
pub mod random;
pub mod search;
pub mod state;
pub mod terms;
pub mod texts;
pub mod traces;
pub mod values;
pub mod words;
pub mod workloads;
