//! The generated texts find every reader that deviates from request 1 in one rule, and none in one
//! that does not.

mod reader;

use reader::{Deviant, Way, WAYS};
use second::texts::run::{run, Difference};
use second::texts::CLASSES;

/// The first difference in so many seeds.
fn found(way: Way) -> Option<Difference> {
    run(&mut Deviant(way), 0..300).err()
}

#[test]
fn without_a_deviation_both_readers_agree() {
    let tally = run(&mut Deviant(Way::Right), 0..200).unwrap_or_else(|found| panic!("{found}"));
    assert_eq!(tally.texts(), 200 * CLASSES.len() as u64);
}

#[test]
fn every_deviant_is_found() {
    for way in WAYS {
        match found(way) {
            Some(difference) => println!("{way:?}: seed {}", difference.seed),
            None => panic!("{way:?} is not found"),
        }
    }
}

#[test]
fn a_difference_is_told_in_words() {
    let told = |way| found(way).expect("a difference").to_string();
    let is_told = |way, expected: &str, instead: &str| {
        let told = told(way);
        let lines: Vec<&str> = told.lines().collect();
        assert!(
            lines[0].starts_with("class    ") && lines[0].contains(", seed "),
            "{told}"
        );
        assert!(
            lines[1].starts_with(&format!("expected {expected}")),
            "{told}"
        );
        assert!(
            lines[2].starts_with(&format!("found    {instead}")),
            "{told}"
        );
    };
    is_told(Way::IdsFrom0, "ADD 1 (", "ADD 0 (");
    is_told(Way::FramesBeforeTheFault, "no frame", "ADD 1 (");
    is_told(Way::CommentsNeedABlank, "sound, V ", "2");
    is_told(
        Way::CountNotCompared,
        "29 (a wrong clause count) at byte ",
        "sound, V ",
    );
    is_told(
        Way::UnclosedAtTheLastWord,
        "28 (an unclosed clause) at byte ",
        "28 ",
    );
}
