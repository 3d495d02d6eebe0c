//! The generated proofs find every checker that deviates from request 3 in one rule, and none in one that
//! does not.

mod prover;

use prover::{Deviant, Way, WAYS};
use second::proofs::run::run;
use second::proofs::CLASSES;

#[test]
fn without_a_deviation_both_checkers_agree() {
    let tally = run(&mut Deviant(Way::Right), 0..200).unwrap_or_else(|found| panic!("{found}"));
    assert_eq!(tally.pairs(), 200 * CLASSES.len() as u64);
}

#[test]
fn every_deviant_is_found() {
    let mut missed = Vec::new();
    for &way in WAYS {
        match run(&mut Deviant(way), 0..300) {
            Err(difference) => println!("{way:?}: seed {}", difference.seed),
            Ok(_) => missed.push(way),
        }
    }
    assert!(missed.is_empty(), "{missed:?} are not found");
}
