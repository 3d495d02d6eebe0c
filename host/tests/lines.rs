//! The line input over lent tables.

use zahrubel::{clause, give, witness, Carried, Entry, Reader, Session};
use zahrubel::{IRREDUNDANT, LONGEST_ANSWER, LONGEST_FRAME};

fn session() -> Session {
    Session::open(2_048, 1_024, 8_192).expect("these sizes can be lent")
}

/// Every operation with every code that it can give; the last line is not closed.
const TRACE: &[u8] = include_bytes!("../../examples/every-code.hex");
const ANSWERS: &[u8] = include_bytes!("../../examples/every-code.out");

#[test]
fn a_session_answers_a_trace_in_parts_of_any_length() {
    for length in [61, 1_000, TRACE.len()] {
        let mut session = session();
        let parts = TRACE.chunks(length);
        let mut answers: Vec<u8> = parts.flat_map(|part| session.give(part)).collect();
        answers.extend(session.end());
        assert!(answers == ANSWERS, "parts of {length} bytes");
    }
}

#[test]
fn another_input_begins_after_the_end() {
    let mut session = session();
    assert_eq!(session.give(b"000"), b"");
    assert_eq!(session.end(), b"0000000200000000\n");
    assert_eq!(session.end(), b"");
    assert_eq!(session.give(b"0000000800000000\n"), b"0000000000000000\n");
}

/// Three clauses by falling id, of which the first is empty and starts past the pool.
fn falling() -> ([Entry; 3], [i32; 4], Carried) {
    let entry = |id, start, length| Entry {
        id,
        place: IRREDUNDANT,
        start,
        length,
        witness: 0,
    };
    let carried = Carried {
        vars: 4,
        highest: 3,
        count: 3,
        words: 2,
        ..Carried::default()
    };
    let entries = [entry(3, 77, 0), entry(2, 1, 1), entry(1, 0, 1)];
    (entries, [1, 2, 0, 0], carried)
}

#[test]
fn tables_stay_where_no_change_is_accepted() {
    let questions = b"000000080000000000000001\n00000009000000020000000100000002\n";
    let parts: [&[u8]; 4] = [b"", b"\n", b"00000001", questions];
    for part in parts {
        let (mut entries, mut pool, mut carried) = falling();
        let (answer, given) = give(
            &mut entries,
            &mut pool,
            &mut carried,
            &mut Reader::default(),
            &mut [0; LONGEST_FRAME],
            part,
            &mut [0; 2 * LONGEST_ANSWER],
        );
        assert!(answer.is_accepted());
        assert_eq!(given.taken, part.len() as u64);
        assert_eq!((entries, pool, carried), falling());
    }
}

#[test]
fn an_entry_is_read_as_far_as_there_are_words() {
    let entry = |start, length, witness| Entry {
        start,
        length,
        witness,
        ..Entry::default()
    };
    let entries = [entry(1, 2, 1), entry(3, 2, 2), entry(u32::MAX, 3, 3)];
    let pool = [5, 6, 7, 8];
    let read = |at| (clause(&entries, &pool, at), witness(&entries, &pool, at));
    assert_eq!(read(0), (&pool[1..3], &pool[3..]));
    assert_eq!(read(1), (&pool[3..], &[][..]));
    assert_eq!(read(2), (&[][..], &[][..]));
    assert_eq!(read(3), (&[][..], &[][..]));
}
