//! What `explain --code` tells, with and without a program, which it does not run.

mod common;

use common::{shell, tell};
use std::collections::BTreeSet;

fn told(code: &str) -> String {
    let ran = tell(&[], &["explain", "--code", code]);
    assert_eq!((ran.status, ran.err.as_str()), (Some(0), ""), "{code}");
    assert_eq!(
        tell(&shell("exit 7"), &["explain", "--code", code]).out,
        ran.out
    );
    ran.out
}

#[test]
fn every_code_is_told() {
    let codes = (0..=13).chain(21..=29).chain(31..=38);
    let told = codes.map(|code: u32| {
        let told = told(&code.to_string());
        let beside = match code {
            ..=13 => "    detail: ",
            21..=29 => "    position, in bytes from 0: ",
            38 => "    lines: ",
            _ => "    line, from 1: ",
        };
        let lines: Vec<&str> = told.lines().collect();
        assert!(lines[0].starts_with(&format!("{code}: ")), "{told}");
        assert!(lines[1].starts_with(beside), "{told}");
        assert_eq!(lines.len(), 2, "{told}");
        told
    });
    assert_eq!(told.collect::<BTreeSet<String>>().len(), 31);
}

#[test]
fn digits_of_an_answer_are_told() {
    assert_eq!(told("00000019"), told("25"));
    assert_eq!(
        told("000000190000001d"),
        "25: a variable that its clause has already\n    \
         position 29, in bytes from 0: where the later of the two literals starts\n"
    );
    assert_eq!(
        told("000000000000000200000001"),
        "0: accepted\n    detail 2: after SAT the number of variables changed, else 0\n"
    );
}

#[test]
fn digits_of_a_refused_proof_are_told() {
    assert_eq!(told("00000023"), told("35"));
    assert_eq!(
        told("0000002300000007"),
        "35: a deleted id that is not held\n    line 7, from 1: that of the deletion\n"
    );
    assert_eq!(
        told("000000260000000c"),
        "38: the proof ends without an empty clause\n    lines 12: how many the proof has\n"
    );
    assert_eq!(
        told("0000000c00000000"),
        "12: no entry is free\n    \
         detail 0: of a frame always 0; of a proof file the line, from 1, or 0 if there is no room for the rules\n"
    );
}
