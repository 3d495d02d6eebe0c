//! Rules as DIMACS text by the wrapper: frames one by one, and a session of a text.

use second::texts::CLASSES;
use zahrubel::dimacs::{frames, judge};
use zahrubel::{Answer, Code, Frame, Refused, Session};

const FLAGS: &[u8] = include_bytes!("../examples/flags.cnf");

fn refused(answer: Result<Session, Refused>) -> (u64, u64) {
    match answer {
        Ok(_) => (0, 0),
        Err(Refused(Answer { code, detail })) => (code, detail),
    }
}

/// So many clauses of one literal each.
fn units(count: usize) -> Vec<u8> {
    let clauses: String = (1..=count)
        .map(|unit| format!("{} 0\n", unit % 2 + 1))
        .collect();
    format!("p cnf 2 {count}\n{clauses}").into_bytes()
}

#[test]
fn the_frames_of_a_text_are_those_of_the_second() {
    for class in &CLASSES {
        for seed in 0..20 {
            let text = class.text(seed);
            let mut found = frames(&text);
            match second::dimacs::read(&text) {
                Ok((declared, expected)) => {
                    let cnf = judge(&text).expect("a sound text");
                    assert_eq!(cnf.vars, declared.vars as u64);
                    assert_eq!(cnf.clauses, declared.clauses as u64);
                    for words in expected.iter() {
                        let frame = found.next().expect("a frame").expect("a sound text");
                        assert_eq!(frame.words(), words);
                    }
                }
                Err(fault) => {
                    let Refused(answer) = found.next().expect("the fault").expect_err("a fault");
                    assert_eq!(answer.code, u64::from(fault.kind.number()));
                    assert_eq!(answer.detail, fault.position as u64);
                    assert_eq!(judge(&text), Err(Refused(answer)));
                }
            }
            assert!(found.next().is_none() && found.next().is_none());
        }
    }
}

#[test]
fn a_session_holds_the_rules_of_a_text() {
    let session = Session::of_rules(FLAGS, 16, 64).expect("a sound text");
    assert_eq!(session.vars(), 6);
    let held: Vec<String> = session.held().map(|rule| rule.to_string()).collect();
    let rules = [
        "irredundant 1 (-3 2)",
        "irredundant 2 (-4 3)",
        "irredundant 3 (-5 4)",
        "irredundant 4 (-6 3)",
    ];
    assert_eq!(held, rules);
    let told: Vec<String> = frames(FLAGS)
        .map(|frame| {
            frame
                .as_ref()
                .map_or_else(Refused::to_string, Frame::to_string)
        })
        .collect();
    assert_eq!(told[2], "ADD 3 (-5 4)");
}

#[test]
fn a_text_without_clauses_opens_all_the_same() {
    let session = Session::of_rules(b"p cnf 2048 0", 1, 1).expect("a sound text");
    assert_eq!((session.vars(), session.held().count()), (2_048, 0));
}

#[test]
fn what_keeps_rules_out_is_handed_back() {
    assert_eq!(refused(Session::of_rules(FLAGS, 4, 8)), (0, 0));
    assert_eq!(refused(Session::of_rules(FLAGS, 3, 8)), (12, 0));
    assert_eq!(refused(Session::of_rules(FLAGS, 4, 7)), (13, 0));
    assert_eq!(refused(Session::of_rules(FLAGS, 0, 8)), (1, 0));
    assert_eq!(
        refused(Session::of_rules(&units(1_024), 1_024, 8_192)),
        (0, 0)
    );
    assert_eq!(
        refused(Session::of_rules(&units(1_025), 1_024, 8_192)),
        (12, 0)
    );
    assert_eq!(
        refused(Session::of_rules(&units(100_000), 1_024, 8_192)),
        (12, 0)
    );
    // The fault of a text comes before all else.
    assert_eq!(
        refused(Session::of_rules(b"p cnf 2 1\n1 3 0\n", 0, 0)),
        (24, 12)
    );
    let cut = &FLAGS[..FLAGS.len() - 3];
    assert_eq!(
        refused(Session::of_rules(cut, 16, 64)),
        (28, cut.len() as u64)
    );
}

#[test]
fn a_fault_is_an_error_that_tells_its_byte() {
    let fault = judge(b"p cnf 3 1\n-1 2 1 0\n").expect_err("a fault");
    assert_eq!(fault.0.meaning(), Some(Code::VariableTwice));
    assert_eq!(
        fault.to_string(),
        "refused 25: a variable twice in a clause, byte 15"
    );
}
