//! The archive's functions, as `include/zahrubel.h` declares them.

use crate::dimacs::{Cnf, Cursor};
use crate::lrat::Proof;
use crate::{Answer, Carried, Entry, Given, Reader};

/// Where a part of a pool lies.
#[repr(C)]
pub struct Part {
    pub start: u64,
    pub length: u64,
}

extern "C" {
    pub fn zahrubel_open(
        vars: u32,
        entries: *const Entry,
        entry_count: usize,
        pool: *const i32,
        pool_words: usize,
        carried: *mut Carried,
    ) -> Answer;

    pub fn zahrubel_step(
        entries: *mut Entry,
        entry_count: usize,
        pool: *mut i32,
        pool_words: usize,
        carried: *mut Carried,
        frame: *const i32,
        frame_words: usize,
        model: *mut u64,
        model_words: usize,
    ) -> Answer;

    pub fn zahrubel_give(
        entries: *mut Entry,
        entry_count: usize,
        pool: *mut i32,
        pool_words: usize,
        carried: *mut Carried,
        reader: *mut Reader,
        frame: *mut i32,
        frame_words: usize,
        part: *const u8,
        part_bytes: usize,
        out: *mut u8,
        out_bytes: usize,
        given: *mut Given,
    ) -> Answer;

    pub fn zahrubel_end(
        reader: *const Reader,
        out: *mut u8,
        out_bytes: usize,
        written: *mut u64,
    ) -> Answer;

    pub fn zahrubel_clause(
        entries: *const Entry,
        entry_count: usize,
        pool: *const i32,
        pool_words: usize,
        i: usize,
    ) -> Part;

    pub fn zahrubel_witness(
        entries: *const Entry,
        entry_count: usize,
        pool: *const i32,
        pool_words: usize,
        i: usize,
    ) -> Part;

    pub fn zahrubel_dimacs_judge(text: *const u8, text_bytes: usize, cnf: *mut Cnf) -> Answer;

    pub fn zahrubel_dimacs_next(
        text: *const u8,
        text_bytes: usize,
        cursor: *mut Cursor,
        frame: *mut i32,
        frame_words: usize,
    ) -> Answer;

    pub fn zahrubel_lrat_check(
        entries: *const Entry,
        entry_count: usize,
        pool: *mut i32,
        pool_words: usize,
        carried: *mut Carried,
        cnf: *const u8,
        cnf_bytes: usize,
        proof: *const u8,
        proof_bytes: usize,
    ) -> Answer;

    pub fn zahrubel_lrat_open(
        entries: *mut Entry,
        entry_count: usize,
        pool: *mut i32,
        pool_words: usize,
        carried: *mut Carried,
        proof: *mut Proof,
        cnf: *const u8,
        cnf_bytes: usize,
    ) -> Answer;

    pub fn zahrubel_lrat_give(
        entries: *mut Entry,
        entry_count: usize,
        pool: *mut i32,
        pool_words: usize,
        carried: *mut Carried,
        proof: *mut Proof,
        part: *const u8,
        part_bytes: usize,
        last: u32,
    ) -> Answer;
}
