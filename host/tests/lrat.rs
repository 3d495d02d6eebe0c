//! Tens of thousands of pairs of rules and proof through the archive, each compared with the second
//! implementation: the answer, and what is left in tables that had any bits before.

mod proofs;

use proofs::{any_tables, compare, Whole};
use second::proofs::large;
use second::random::Random;
use zahrubel::lrat::{check, check_in};
use zahrubel::{Answer, Code, Frame, Refused, Session};

const RULES: &[u8] = b"p cnf 2 4\n1 2 0\n1 -2 0\n-1 2 0\n-1 -2 0\n";
const PROOF: &[u8] = b"5 1 0 1 2 0\n5 d 1 2 0\n6 0 5 3 4 0\n";

#[test]
fn the_archive_and_the_second_check_the_same_proofs_alike() {
    compare(&mut Whole(Random::new(5)));
}

fn numbers(told: Result<(), Refused>) -> (u64, u64) {
    match told {
        Ok(()) => (0, 0),
        Err(Refused(Answer { code, detail })) => (code, detail),
    }
}

#[test]
fn a_proof_is_checked_by_the_wrapper() {
    assert_eq!(numbers(check(RULES, PROOF)), (0, 0));
    assert_eq!(numbers(check(RULES, &PROOF[..24])), (31, 3));
    assert_eq!(numbers(check(RULES, &PROOF[..22])), (38, 2));
    assert_eq!(numbers(check(RULES, b"")), (38, 0));
    assert_eq!(numbers(check(&RULES[..14], PROOF)), (28, 14));
    let refused = check(RULES, b"5 1 0 1 2 0\n5 d 6 0\n").expect_err("6 is not held");
    assert_eq!(refused.0.meaning(), Some(Code::IdNotHeld));
    assert_eq!(
        refused.to_string(),
        "refused 35: a deleted id that is not held, line 2"
    );
}

#[test]
fn a_long_proof_is_accepted() {
    let pair = large(400_000);
    assert_eq!(numbers(check(&pair.rules, &pair.proof)), (0, 0));
}

/// "opened empty and left so whatever the outcome": a session goes on from them.
#[test]
fn tables_are_left_opened_empty() {
    let mut tables = any_tables(8, 16, &mut Random::new(7));
    for (proof, code) in [(PROOF, 0), (b"5 3 0 0\n", 32), (b"", 38)] {
        let carried = &mut tables.carried;
        let answer = check_in(&tables.entries, &mut tables.pool, carried, RULES, proof);
        assert_eq!(answer.code, code);
        let mut session = Session::from_tables(tables).expect("a state");
        assert_eq!((session.vars(), session.held().count()), (2, 0));
        let empty = Frame::add(session.next_id().expect("an id"), &[]).expect("a frame");
        session.say(&empty).accepted().expect("room");
        assert_eq!(session.held().count(), 1);
        tables = session.into_tables();
    }
}
