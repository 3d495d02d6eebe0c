//! Frames, answers and held clauses in words.

use zahrubel::{Answer, ClauseId, Code, Frame, FrameError, Literal, Reply, Session, Variable};

const PAGE: &str = include_str!("../../docs/FORMAT.md");

fn id(number: u32) -> ClauseId {
    ClauseId::new(number).expect("an id")
}

fn frame(made: Result<Frame, FrameError>) -> Frame {
    made.expect("a frame")
}

fn literals(words: &[i32]) -> Vec<Literal> {
    Literal::list(words).expect("literals")
}

fn variables(numbers: &[u32]) -> Vec<Variable> {
    Variable::list(numbers).expect("variables")
}

/// Frames of the page, each with the words that stand there.
fn of_the_page() -> Vec<(Frame, &'static str)> {
    let (one, two) = (literals(&[1]), literals(&[1, 2]));
    let both = [id(1), id(2)];
    let weaken = Frame::weaken(id(1), &literals(&[3])).group(id(2), &[id(3)]);
    let without = Frame::weaken(id(2), &literals(&[-3]));
    let frames = [
        (Frame::add(id(1), &two), "ADD 1 (1 2)"),
        (Frame::learn(id(3), &one, &both), "LEARN 3 (1), hints 1 2"),
        (
            Frame::learn(id(4), &two[1..], &both[..1]),
            "LEARN 4 (2), hint 1",
        ),
        (Ok(Frame::promote(id(3))), "PROMOTE 3"),
        (Frame::drop_clause(id(1), &[id(3)]), "DROP 1, hint 3"),
        (Ok(Frame::forget(id(3))), "FORGET 3"),
        (weaken.frame(), "WEAKEN 1, witness 3, group 2: 3"),
        (without.frame(), "WEAKEN 2, witness -3"),
        (Ok(Frame::restore(id(2))), "RESTORE 2"),
        (Frame::sat(&[], &variables(&[2])), "SAT, true 2"),
        (Frame::sat(&[], &[]), "SAT, none true"),
        (
            Frame::sat(&literals(&[-1]), &variables(&[1])),
            "SAT assuming -1, true 1",
        ),
        (Frame::unsat(&[], &both), "UNSAT, hints 1 2"),
    ];
    frames.map(|(made, told)| (frame(made), told)).to_vec()
}

/// A line of the page: the words, and behind them the frame, its digits in words of eight.
fn stands_on_the_page(told: &str, frame: &Frame) -> bool {
    let digits = frame.words().iter().map(|word| format!("{word:08x}"));
    let digits = digits.collect::<Vec<String>>().join(" ");
    PAGE.lines().any(|line| {
        let mut columns = line
            .split("  ")
            .map(str::trim)
            .filter(|part| !part.is_empty());
        columns.next() == Some(told) && columns.next() == Some(&digits)
    })
}

#[test]
fn frames_are_told_as_on_the_page() {
    for (frame, told) in of_the_page() {
        assert_eq!(frame.to_string(), told);
        assert!(stands_on_the_page(told, &frame), "{told}");
    }
}

#[test]
fn frames_that_the_page_does_not_show_are_told_alike() {
    let one = literals(&[1]);
    let told = [
        (Frame::add(id(5), &[]), "ADD 5 ()"),
        (Frame::learn(id(5), &[], &[]), "LEARN 5 (), no hint"),
        (Frame::drop_clause(id(5), &[]), "DROP 5, no hint"),
        (
            Frame::weaken(id(5), &literals(&[1, -2]))
                .group(id(6), &[])
                .group(id(7), &[id(1), id(2)])
                .frame(),
            "WEAKEN 5, witness 1 -2, group 6: no hint, group 7: 1 2",
        ),
        (Frame::sat(&one, &[]), "SAT assuming 1, none true"),
        (Frame::unsat(&one, &[id(7)]), "UNSAT assuming 1, hint 7"),
        (Frame::unsat(&[], &[]), "UNSAT, no hint"),
    ];
    for (made, told) in told {
        assert_eq!(frame(made).to_string(), told);
    }
}

/// Every code, with and without a detail where it says another thing; and some that are none.
const ANSWERS: [(u64, u64, &str); 42] = [
    (0, 0, "accepted"),
    (0, 1, "accepted: 1 variable changed"),
    (0, 7, "accepted: 7 variables changed"),
    (1, 0, "refused 1: no state, or a lent size out of range"),
    (2, 0, "refused 2: no frame"),
    (3, 4, "refused 3: word 4 is out of range or repeated"),
    (4, 9, "refused 4: id 9 is not new, or not in its place"),
    (5, 3, "refused 5: not clean against record 3"),
    (6, 0, "refused 6: the witness has no literal of the clause"),
    (7, 4, "refused 7: word 4 is a bad hint"),
    (8, 0, "refused 8: the hints are used up"),
    (8, 2, "refused 8: the hints are used up in the group of 2"),
    (9, 4, "refused 9: a group missing or wrong at word 4"),
    (10, 5, "refused 10: the model falsifies clause 5"),
    (
        11,
        2,
        "refused 11: the model falsifies an assumption, word 2",
    ),
    (12, 0, "refused 12: no entry is free"),
    (13, 0, "refused 13: not enough literal words are free"),
    (21, 0, "refused 21: the problem line is missing, byte 0"),
    (22, 41, "refused 22: a second problem line, byte 41"),
    (23, 9, "refused 23: a malformed word, byte 9"),
    (
        24,
        15,
        "refused 24: a literal past the declared count, byte 15",
    ),
    (25, 15, "refused 25: a variable twice in a clause, byte 15"),
    (
        26,
        1_300,
        "refused 26: a clause over 256 literals, byte 1300",
    ),
    (
        27,
        6,
        "refused 27: a declared variable count outside 1 to 2048, byte 6",
    ),
    (28, 99, "refused 28: an unclosed clause, byte 99"),
    (29, 99, "refused 29: a wrong clause count, byte 99"),
    (12, 7, "refused 12: no entry is free, line 7"),
    (
        13,
        7,
        "refused 13: not enough literal words are free, line 7",
    ),
    (31, 1, "refused 31: a malformed line, line 1"),
    (
        32,
        4,
        "refused 32: a literal past the count of the rules, line 4",
    ),
    (
        33,
        4,
        "refused 33: a clause with a variable twice, or over 256 literals, line 4",
    ),
    (34, 2, "refused 34: an id not above all before it, line 2"),
    (35, 2, "refused 35: a deleted id that is not held, line 2"),
    (36, 9, "refused 36: a negative hint, line 9"),
    (37, 9, "refused 37: a failed proof, line 9"),
    (38, 0, "refused 38: an end without an empty clause, line 0"),
    (14, 5, "code 14, detail 5: no answer"),
    (20, 5, "code 20, detail 5: no answer"),
    (30, 0, "code 30, detail 0: no answer"),
    (39, 0, "code 39, detail 0: no answer"),
    (40, 0, "code 40, detail 0: no answer"),
    (
        u64::MAX,
        0,
        "code 18446744073709551615, detail 0: no answer",
    ),
];

#[test]
fn every_answer_is_told_in_words() {
    for (code, detail, words) in ANSWERS {
        let answer = Answer { code, detail };
        assert_eq!(answer.to_string(), words);
        assert_eq!(
            answer.meaning().map(|code| code as u64),
            (!words.ends_with("no answer")).then_some(code)
        );
        match answer.accepted() {
            Ok(changed) => assert_eq!((code, changed), (0, detail)),
            Err(refused) => assert_eq!(refused.to_string(), words),
        }
    }
    let all: Vec<u64> = Code::ALL.iter().map(|&code| code as u64).collect();
    assert!(all.into_iter().eq((0..14).chain(21..30).chain(31..39)));
    for code in Code::ALL {
        assert_eq!(code.is_fault(), (21..30).contains(&(code as u64)));
        assert_eq!(code.is_of_proof(), code as u64 > 30);
    }
}

#[test]
fn answer_lines_are_read_back() {
    let reply = Reply::read(b"000000000000000100000002000000ff").expect("an answer");
    assert_eq!(
        reply.to_string(),
        "accepted: 1 variable changed, true 2 255"
    );
    assert_eq!(reply.model, variables(&[2, 255]));
    let refused = Reply::read(b"0000000500000001").expect("an answer");
    assert_eq!(refused.to_string(), "refused 5: not clean against record 1");
    let none: [&[u8]; 7] = [
        b"",
        b"00000000",
        b"0000000000000",
        b"000000000000000A",
        b"000000000000000000000000",
        b"000000000000000000000801",
        b"0000000000000000\n",
    ];
    for line in none {
        assert_eq!(Reply::read(line), None);
    }
    let lines = b"0000000000000000\n0000000200000000\n";
    assert_eq!(Reply::read_all(lines).map(|replies| replies.len()), Some(2));
    assert_eq!(Reply::read_all(&lines[..33]), None);
    assert_eq!(Reply::read_all(b""), Some(Vec::new()));
}

#[test]
fn held_clauses_are_told_in_words() {
    let mut session = Session::open(4, 8, 32).expect("these sizes can be lent");
    let frames: [&[i32]; 4] = [&[1, 1, 1, 2], &[6, 1, 1, 1], &[1, 2, 3, -4], &[2, 3, 0]];
    for frame in frames {
        session.say(frame);
    }
    session.say(&[2, 4, 3, 3, -4, 1, 2]);
    let held: Vec<String> = session.held().map(|held| held.to_string()).collect();
    let told = [
        "stacked 1 (1 2), witness 1",
        "irredundant 2 (3 -4)",
        "learned 4 (3 -4 1)",
    ];
    assert_eq!(held, told);
}

#[test]
fn errors_are_told_in_words() {
    let told = [
        (FrameError::NoVariable(0), "0 is no variable: 1 to 2048"),
        (
            FrameError::NoLiteral(0),
            "0 is no literal: 1 to 2048, or -1 to -2048",
        ),
        (FrameError::NoId(0), "0 is no id: 1 to 2147483647"),
        (
            FrameError::TooMany(257),
            "257 literals: a list has at most 256",
        ),
        (
            FrameError::Twice(variables(&[3])[0]),
            "variable 3 is there twice",
        ),
        (
            FrameError::NotRising(variables(&[3])[0]),
            "true variable 3 is not greater than the one before it",
        ),
        (FrameError::NoWitness, "the witness has no literal"),
        (
            FrameError::WrongGroup(id(3)),
            "the group of clause 3 is of the clause itself, or does not rise",
        ),
        (
            FrameError::TooLong(4_097),
            "4097 words: a frame has at most 4096",
        ),
    ];
    for (error, words) in told {
        assert_eq!(error.to_string(), words);
    }
}
