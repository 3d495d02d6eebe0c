//! The builders write the frames that the second implementation writes, and refuse what it reads
//! as no frame.

mod cases;

use cases::drawn;
use second::lines::write_frame;
use second::random::Random;
use std::collections::BTreeMap;
use zahrubel::{ClauseId, Frame, FrameError, Literal, Variable};

#[test]
fn builders_and_the_second_write_the_same_frames() {
    let mut random = Random::new(1);
    let mut times: BTreeMap<(i32, bool), u32> = BTreeMap::new();
    for _ in 0..20_000 {
        let case = drawn(&mut random);
        let (built, expected) = (case.built(), case.expected());
        // Such a frame is refused 2 whatever is held, or there is none.
        let read = second::frame::Frame::read(&expected);
        assert_eq!(built.is_ok(), read.is_ok(), "{case:?}: {built:?}");
        *times.entry((case.operation, built.is_ok())).or_default() += 1;
        let Ok(frame) = built else {
            continue;
        };
        assert_eq!(frame.words(), expected);
        assert_eq!(frame.operation() as i32, case.operation);
        let mut line = Vec::new();
        write_frame(&expected, &mut line);
        assert_eq!(frame.line().as_bytes(), line);
    }
    // Each operation was built and refused, often.
    assert_eq!(times.len(), 18, "{times:?}");
    assert!(times.values().all(|&times| times > 50), "{times:?}");
}

fn literals(words: &[i32]) -> Vec<Literal> {
    Literal::list(words).expect("literals")
}

fn ids(numbers: &[u32]) -> Vec<ClauseId> {
    ClauseId::list(numbers).expect("ids")
}

fn variables(numbers: &[u32]) -> Vec<Variable> {
    Variable::list(numbers).expect("variables")
}

fn id(number: u32) -> ClauseId {
    ClauseId::new(number).expect("an id")
}

#[test]
fn numbers_out_of_range_are_errors() {
    for number in [0, 2_049, u32::MAX] {
        assert_eq!(Variable::new(number), Err(FrameError::NoVariable(number)));
    }
    for word in [0, 2_049, -2_049, i32::MIN, i32::MAX] {
        assert_eq!(Literal::new(word), Err(FrameError::NoLiteral(word)));
    }
    for number in [0, 1 << 31, u32::MAX] {
        assert_eq!(ClauseId::new(number), Err(FrameError::NoId(number)));
    }
    let listed = Literal::list(&[1, -2, 0, 3_000]);
    assert_eq!(listed, Err(FrameError::NoLiteral(0)));
    for number in [1, 2_048] {
        let variable = Variable::new(number).expect("a variable");
        assert_eq!(variable.number(), number);
        assert_eq!(-variable, -Literal::from(variable));
        assert_eq!((-variable).variable(), variable);
        assert!(!(-variable).is_positive());
    }
    assert_eq!(id(7).next(), Some(id(8)));
    assert_eq!(id(i32::MAX as u32).next(), None);
}

#[test]
fn lists_that_no_frame_has_are_errors() {
    let twice = FrameError::Twice(Variable::new(3).expect("a variable"));
    for clause in [&[3, 3][..], &[3, -3], &[1, 3, 2, -3]] {
        assert_eq!(Frame::add(id(1), &literals(clause)), Err(twice));
        assert_eq!(Frame::learn(id(1), &literals(clause), &[]), Err(twice));
        assert_eq!(Frame::weaken(id(1), &literals(clause)).frame(), Err(twice));
        // Assumptions may repeat and oppose each other.
        assert!(Frame::sat(&literals(clause), &[]).is_ok());
        assert!(Frame::unsat(&literals(clause), &[]).is_ok());
    }
    let all: Vec<i32> = (1..=257).collect();
    let (all, too_many) = (literals(&all), Err(FrameError::TooMany(257)));
    assert_eq!(Frame::add(id(1), &all), too_many);
    assert_eq!(Frame::learn(id(1), &all, &[]), too_many);
    assert_eq!(Frame::weaken(id(1), &all).frame(), too_many);
    assert_eq!(Frame::sat(&all, &[]), too_many);
    assert_eq!(Frame::unsat(&all, &[]), too_many);
    let none = Frame::weaken(id(1), &[]).frame();
    assert_eq!(none, Err(FrameError::NoWitness));
    for trues in [&[2, 2][..], &[1, 3, 2]] {
        let wrong = Err(FrameError::NotRising(variables(&[2])[0]));
        assert_eq!(Frame::sat(&[], &variables(trues)), wrong);
    }
}

#[test]
fn groups_are_of_other_clauses_and_rise() {
    let begun = Frame::weaken(id(4), &literals(&[1]));
    let wrong = |number| Err(FrameError::WrongGroup(id(number)));
    assert_eq!(begun.clone().group(id(4), &[]).frame(), wrong(4));
    let two = begun.group(id(3), &[]).group(id(5), &ids(&[1, 2]));
    for number in [1, 4, 5] {
        let third = two.clone().group(id(number), &[]).group(id(9), &[]);
        assert_eq!(third.frame(), wrong(number));
    }
    assert!(two.group(id(6), &[]).frame().is_ok());
}

#[test]
fn frames_that_are_too_long_are_errors() {
    let hints = |count| ids(&vec![1; count]);
    let too_long = Err(FrameError::TooLong(4_097));
    let one = literals(&[1]);
    assert!(Frame::drop_clause(id(1), &hints(4_094)).is_ok());
    assert_eq!(Frame::drop_clause(id(1), &hints(4_095)), too_long);
    assert!(Frame::learn(id(1), &one, &hints(4_092)).is_ok());
    assert_eq!(Frame::learn(id(1), &one, &hints(4_093)), too_long);
    assert!(Frame::unsat(&one, &hints(4_093)).is_ok());
    assert_eq!(Frame::unsat(&one, &hints(4_094)), too_long);
    let begun = Frame::weaken(id(1), &one).group(id(2), &hints(4_000));
    assert!(begun.clone().group(id(3), &hints(88)).frame().is_ok());
    assert_eq!(begun.group(id(3), &hints(89)).frame(), too_long);
}
