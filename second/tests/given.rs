//! Lent tables and the line input: what a part of it and its end come to, and which words of the
//! pool are an entry's.

mod common;

use common::{empty_tables, entry, fresh_buffers};
use second::lent::buffers::{Buffers, Reader};
use second::lent::calls::Calls;
use second::lent::giving::{expect_end, expect_give, Fed};
use second::lent::mock::Mock;
use second::lent::reading::{clause_part, witness_part};
use second::lines::{write_frame, LONGEST_ANSWER, MOST_DIGITS, SHORTEST_ANSWER};

fn begun(reader: Reader) -> Buffers {
    Buffers {
        reader,
        ..fresh_buffers(LONGEST_ANSWER)
    }
}

fn line(frame: &[i32]) -> Vec<u8> {
    let mut line = Vec::new();
    write_frame(frame, &mut line);
    line
}

const ACCEPTED: &str = "0000000000000000\n";
const REFUSED: &str = "0000000200000000\n";

fn answers(fed: &Fed) -> &str {
    std::str::from_utf8(&fed.answers).expect("answers are digits")
}

// ---- what a part comes to

#[test]
fn answers_are_those_of_the_lines() {
    let parts: [&[u8]; 4] = [b"0000000900000002000000", b"01ffffffff", b"", b"\n\n00"];
    let (mut tables, mut lent) = (empty_tables(), fresh_buffers(20_000));
    let mut output = Vec::new();
    for part in parts {
        let (numbers, given) = Mock::new(1).give(&mut tables, &mut lent, part);
        assert_eq!((numbers, given.taken), ((0, 0), part.len() as u64));
        output.extend_from_slice(&lent.out[..given.written as usize]);
    }
    assert_eq!(output, [ACCEPTED, REFUSED].concat().as_bytes());
    assert_eq!(lent.line(), Some(b"00".to_vec()));
    assert_eq!(expect_end(&lent.reader, 17), (0, REFUSED.into()));
    assert_eq!(tables, empty_tables());
}

#[test]
fn a_byte_is_taken_where_the_longest_answer_has_room() {
    let part = b"0000000800000000\n".repeat(5);
    let taken = |room| expect_give(&empty_tables(), &fresh_buffers(room), &part).taken;
    assert_eq!((SHORTEST_ANSWER, LONGEST_ANSWER), (17, 16_401));
    assert_eq!(taken(16_400), 0);
    assert_eq!([16_401, 16_417].map(taken), [17, 17]);
    assert_eq!([16_418, 16_434].map(taken), [34, 34]);
    assert_eq!([16_435, 16_469, 90_000].map(taken), [51, 85, 85]);
}

#[test]
fn the_longest_answer_fills_its_room() {
    let frame: Vec<i32> = [8, 0].into_iter().chain(1..=2_048).collect();
    let fed = expect_give(
        &empty_tables(),
        &fresh_buffers(LONGEST_ANSWER),
        &line(&frame),
    );
    assert_eq!((fed.code, fed.answers.len()), (0, LONGEST_ANSWER));
    assert_eq!(fed.state, None);
}

#[test]
fn what_is_lent_wrongly_is_refused() {
    let code = |lent: Buffers| expect_give(&empty_tables(), &lent, b"").code;
    assert_eq!(code(fresh_buffers(LONGEST_ANSWER)), 0);
    assert_eq!(code(fresh_buffers(LONGEST_ANSWER - 1)), 1);
    for (digits, expected) in [(32_768, 0), (32_769, 1), (u64::MAX, 1)] {
        let reader = Reader {
            digits,
            ..Reader::default()
        };
        assert_eq!(code(begun(reader)), expected);
        assert_eq!(expect_end(&reader, 17).0, u32::from(expected == 1));
    }
    let mut short = fresh_buffers(LONGEST_ANSWER);
    short.frame.pop();
    assert_eq!(code(short), 1);
    assert_eq!(expect_end(&Reader::default(), 16), (1, Vec::new()));
    assert_eq!(expect_end(&Reader::default(), 17), (0, Vec::new()));
}

#[test]
fn a_reader_goes_on_within_its_line() {
    let unsat = [9, 2, 1, -1];
    let held = |digits, word, spoilt| {
        let reader = Reader {
            digits,
            word,
            spoilt,
        };
        let mut lent = begun(reader);
        lent.frame[..4].copy_from_slice(&unsat);
        lent
    };
    let given = |lent: &Buffers, part: &[u8]| {
        let fed = expect_give(&empty_tables(), lent, part);
        answers(&fed).to_string()
    };
    assert_eq!(given(&held(32, 5, 0), b"\n"), ACCEPTED);
    assert_eq!(given(&held(32, 5, 2), b"\n"), REFUSED);
    // Six digits of the fourth word, behind others that say nothing.
    assert_eq!(given(&held(30, 0x12ff_ffff, 0), b"ff\n"), ACCEPTED);
    assert_eq!(
        given(&held(30, 0x12ff_fff0, 0), b"ff\n"),
        "0000000300000003\n"
    );
    assert_eq!(given(&held(MOST_DIGITS as u64, 0, 0), b"\n"), ACCEPTED);
    assert_eq!(given(&held(MOST_DIGITS as u64, 0, 0), b"0\n"), REFUSED);
}

#[test]
fn parts_of_the_pool_are_read_as_they_stand() {
    let rows = [
        [1, 2, 1, 2, 1],
        [0, 9, 3, 2, 2],
        [0, 0, 9, 1, 1],
        [0, 0, u32::MAX, 3, 2],
        [0, 0, 1, u32::MAX, 5],
    ];
    let entries = rows.map(entry);
    let parts = |at| (clause_part(&entries, 4, at), witness_part(&entries, 4, at));
    assert_eq!(parts(0), (1..3, 3..4));
    assert_eq!(parts(1), (3..4, 4..4));
    assert_eq!(parts(2), (4..4, 4..4));
    assert_eq!(parts(3), (4..4, 4..4));
    assert_eq!(parts(4), (1..4, 4..4));
    assert_eq!(parts(5), (0..0, 0..0));
}
