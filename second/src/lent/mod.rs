//! Lent tables: the calls that a host makes with tables of its own, and a run that tries
//! another implementation of them.
//!
//! `reading` says which tables are a state, and which, from document 01 alone; `buffers` which
//! line is begun and not closed yet. `expected` and `giving` say what a call answers and leaves:
//! a frame, or a part of the line input. `states` and `laying` draw right tables, `damage` spoils
//! them in every way of being no state, `asks` and `input` say frames and lines, and `run`
//! compares.

pub mod asks;
pub mod buffers;
pub mod calls;
pub mod damage;
pub mod expected;
pub mod giving;
mod input;
pub mod judging;
pub mod judging_lines;
pub mod laying;
pub mod mock;
pub mod reading;
pub mod run;
pub mod states;
pub mod tables;
