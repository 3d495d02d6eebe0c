//! What several tests share.
#![allow(dead_code)] // no test needs all of it

use second::answer::Answer;
use second::checker::{Checker, Checks};
use second::histogram::Asked;
use second::lent::buffers::{Buffers, Reader};
use second::lent::tables::{Carried, Entry, Tables};
use second::lines::opened;

/// Takes accepted steps from the empty state with the program's sizes.
pub fn after(steps: &[Vec<i32>]) -> Checker {
    let mut checker = opened();
    for step in steps {
        assert!(checker.step(step).is_accepted(), "step {step:?}");
    }
    checker
}

/// Code and detail of a frame said to a copy of the checker.
pub fn said(checker: &Checker, frame: &[i32]) -> (u32, u32) {
    let Answer { code, detail, .. } = checker.clone().step(frame);
    (code, detail)
}

/// The codes an operation can give, from the order of refusals in document 01. The others
/// cannot occur:
/// - 1: the line program lends itself right tables;
/// - 3: FORGET, PROMOTE, DROP and RESTORE have no literals, since hints are none;
/// - 4: SAT and UNSAT name no clause by word 1;
/// - 5: only ADD, RESTORE and the assumptions of SAT must be clean;
/// - 6 and 9: only WEAKEN has a witness and groups;
/// - 7 and 8: only LEARN, DROP, WEAKEN and UNSAT have hints;
/// - 10 and 11: only SAT offers a model;
/// - 12: only ADD and LEARN take an entry;
/// - 13: only ADD, LEARN and WEAKEN take words;
/// - all but 2: a line or frame without an operation is refused before all else.
pub fn reachable(asked: Asked) -> &'static [u32] {
    match asked {
        Asked::Operation(1) => &[0, 2, 3, 4, 5, 12, 13],
        Asked::Operation(2) => &[0, 2, 3, 4, 7, 8, 12, 13],
        Asked::Operation(3) | Asked::Operation(4) => &[0, 2, 4],
        Asked::Operation(5) => &[0, 2, 4, 7, 8],
        Asked::Operation(6) => &[0, 2, 3, 4, 6, 7, 8, 9, 13],
        Asked::Operation(7) => &[0, 2, 4, 5],
        Asked::Operation(8) => &[0, 2, 3, 5, 10, 11],
        Asked::Operation(9) => &[0, 2, 3, 7, 8],
        _ => &[2],
    }
}

/// An entry from its five words.
pub fn entry([id, place, start, length, witness]: [u32; 5]) -> Entry {
    Entry {
        id,
        place,
        start,
        length,
        witness,
    }
}

/// Tables of all the variables, entries and words that can be, without a clause.
pub fn empty_tables() -> Tables {
    Tables {
        entries: vec![Entry::default(); 1_024],
        pool: vec![0; 8_192],
        carried: Carried {
            vars: 2_048,
            highest: 0,
            count: 0,
            words: 0,
            depth: 0,
            stack: [0; 1_024],
        },
    }
}

/// Buffers in which no line is begun, with so many bytes of room for answers.
pub fn fresh_buffers(room: usize) -> Buffers {
    Buffers {
        reader: Reader::default(),
        frame: vec![7; 4_096],
        out: vec![b'.'; room],
    }
}
