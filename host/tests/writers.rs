//! The writers of C write the frames that the builders of Rust write.

mod c;
mod cases;

use c::{compiled, is_there, said, C, CPP};
use cases::{drawn, Case};
use second::random::Random;
use zahrubel::Code;

/// A case as numbers, for a buffer of so many words.
fn told(case: &Case, room: usize) -> String {
    let list = |words: &[i32]| {
        let words: String = words.iter().map(|word| format!(" {word}")).collect();
        words
    };
    let mut told = format!("{room} {} {}", case.operation, case.id);
    for words in [&case.first, &case.second] {
        told += &format!(" {}{}", words.len(), list(words));
    }
    told += &format!(" {}", case.groups.len());
    for (other, hints) in &case.groups {
        told += &format!(" {other} {}{}", hints.len(), list(hints));
    }
    told + "\n"
}

/// Cases as numbers, and the lines that they are written as.
fn cases(seed: u64, count: usize) -> (String, String) {
    let mut random = Random::new(seed);
    let (mut input, mut expected) = (String::new(), String::new());
    let mut written = 0;
    for _ in 0..count {
        let case = drawn(&mut random);
        let words = case.expected().len();
        // Mostly as many as it needs: then one less is too few, and one more is left alone.
        let room = match random.below(6) {
            0 => words - 1,
            1 => words + 1,
            2 => random.below(4_200),
            3 => 5_000,
            _ => words,
        };
        input += &told(&case, room.min(5_000));
        let fits = case
            .built()
            .ok()
            .filter(|frame| frame.words().len() <= room);
        written += usize::from(fits.is_some());
        expected += &fits.map_or("none\n".to_string(), |frame| frame.line());
    }
    assert!(written > count / 2 && written < count - count / 10);
    (input, expected)
}

/// Of every code, and of the numbers beside them that are none.
fn names() -> String {
    let name = |number| Code::of(number).map_or("no answer", Code::name);
    (0..41)
        .map(|number| format!("{}\n", name(number)))
        .collect()
}

#[test]
fn writers_and_builders_write_the_same_frames() {
    let (input, expected) = cases(7, 4_000);
    let said = said(&compiled(C, "writers.c", "writers"), input.into_bytes());
    assert!(said == expected + &names());
}

#[test]
fn writers_are_cpp_too() {
    if is_there(CPP) {
        let (input, expected) = cases(8, 500);
        let program = compiled(CPP, "writers.c", "writers_cpp");
        assert!(said(&program, input.into_bytes()) == expected + &names());
    }
}
