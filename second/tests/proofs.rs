//! The generated proofs: every number in every class that can have it, every pair of faults in one
//! line, and the proof to time a checker with.

use second::lrat::{check, Refusal};
use second::proofs::plant::{all_pairs, planted};
use second::proofs::run::{run, ChecksProofs};
use second::proofs::{find_class, large, Histogram, Pair, CLASSES, NUMBERS};
use second::random::Random;

/// As many as all bytes at all places need several times; few where the texts are long.
fn seeds_of(class: &str) -> u64 {
    match class {
        "entries" | "words" => 400,
        "single-bytes" => 8 * 1_024,
        _ => 2_000,
    }
}

#[test]
fn every_reachable_cell_is_reached_and_no_other() {
    let mut histogram = Histogram::default();
    for class in &CLASSES {
        for seed in 0..seeds_of(class.name) {
            let pair = class.pair(seed);
            let bytes = pair.rules.len() + pair.proof.len();
            assert!(bytes <= 1 << 20, "{} {seed}", class.name);
            histogram.count_pair(class, &pair);
        }
    }
    for class in &CLASSES {
        let reached: Vec<u32> = NUMBERS
            .into_iter()
            .filter(|&number| histogram.times(class.name, number) > 0)
            .collect();
        assert_eq!(reached, class.numbers, "{}\n{histogram}", class.name);
    }
}

/// Few seeds have every number many times in the program's tables, too, as the gate's runs have few.
#[test]
fn every_number_is_reached_many_times() {
    let mut lent = Histogram::default();
    let mut of_program = Histogram::default();
    for class in &CLASSES {
        for seed in 0..180 {
            let pair = class.pair(seed);
            lent.count_pair(class, &pair);
            of_program.count(class.name, pair.program_answer().0);
        }
    }
    for number in NUMBERS {
        assert!(lent.all(number) >= 20, "{number}\n{lent}");
        let never = number == 1;
        assert!(
            never || of_program.all(number) >= 20,
            "{number}\n{of_program}"
        );
    }
    assert_eq!(lent.pairs(), 180 * CLASSES.len() as u64);
}

#[test]
fn a_pair_is_a_function_of_its_class_and_seed() {
    for class in &CLASSES {
        let pair = class.pair(7);
        assert_eq!(pair, class.pair(7), "{}", class.name);
        let others = (8..20).filter(|&seed| class.pair(seed) != pair);
        assert!(others.count() > 6, "{}", class.name);
    }
    assert!(find_class("pairs").is_some());
    assert!(find_class("no-such-class").is_none());
}

fn told(pair: &Pair) -> String {
    let text = |bytes: &[u8]| String::from_utf8_lossy(bytes).into_owned();
    format!("{}\n{}", text(&pair.rules), text(&pair.proof))
}

#[test]
fn a_fault_is_planted_alone() {
    for kind in Refusal::OF_A_LINE {
        for seed in 0..200 {
            let pair = planted(&[kind], &mut Random::new(seed));
            assert_eq!(
                pair.answer().0,
                kind.number(),
                "seed {seed}\n{}",
                told(&pair)
            );
        }
    }
}

#[test]
fn of_two_faults_in_one_line_the_lists_order_decides() {
    for pair_of_kinds in all_pairs() {
        let [one, other] = pair_of_kinds;
        for seed in 0..60 {
            let pair = planted(&pair_of_kinds, &mut Random::new(seed));
            let decides = one.min(other).number();
            assert_eq!(
                pair.answer().0,
                decides,
                "{one:?} before {other:?}, seed {seed}"
            );
        }
    }
}

/// The faults that stand in the words of an addition.
const IN_WORDS: [Refusal; 6] = [
    Refusal::Malformed,
    Refusal::PastCount,
    Refusal::AgainstTerms,
    Refusal::IdNotAbove,
    Refusal::NegativeHint,
    Refusal::Unproved,
];

/// Those that can stand before each other.
const BOTH_ORDERS: [[Refusal; 2]; 7] = [
    [Refusal::Malformed, Refusal::PastCount],
    [Refusal::Malformed, Refusal::AgainstTerms],
    [Refusal::Malformed, Refusal::NotHeld],
    [Refusal::Malformed, Refusal::NegativeHint],
    [Refusal::Malformed, Refusal::Unproved],
    [Refusal::PastCount, Refusal::AgainstTerms],
    [Refusal::NegativeHint, Refusal::Unproved],
];

#[test]
fn every_pair_that_can_be_is_planted() {
    let pairs = all_pairs();
    let stands = |one, other| pairs.contains(&[one, other]);
    for one in IN_WORDS {
        for other in IN_WORDS.into_iter().filter(|&other| other > one) {
            assert!(
                stands(one, other) || stands(other, one),
                "{one:?} {other:?}"
            );
        }
        for room in [Refusal::Entries, Refusal::Words] {
            assert!(stands(one.min(room), one.max(room)), "{one:?}");
        }
    }
    for [one, other] in BOTH_ORDERS {
        assert!(
            stands(one, other) && stands(other, one),
            "{one:?} {other:?}"
        );
    }
    assert!(stands(Refusal::Entries, Refusal::Words));
    // 15 pairs of faults in words, 6 of them in both orders; 13 with no room; a deletion's in both orders.
    assert_eq!(pairs.len(), 15 + 6 + 13 + 2);
}

#[test]
fn a_large_proof_is_sound() {
    let pair = large(300_000);
    assert!(pair.proof.len() >= 300_000);
    assert_eq!(pair.answer(), (0, 0));
    assert!(pair == large(300_000));
    // It has deletions, and nothing of it can be left out.
    let lines: Vec<&[u8]> = pair.proof.split_inclusive(|&byte| byte == b'\n').collect();
    let deletions = lines
        .iter()
        .filter(|line| line.windows(3).any(|part| part == b" d "));
    assert!(deletions.count() > 3);
    let without_last: Vec<u8> = lines[..lines.len() - 1].concat();
    assert_eq!(
        check(1_024, 8_192, &pair.rules, &without_last),
        (38, lines.len() as u64 - 1)
    );
}

/// Changes code and detail.
type Change = fn((u32, u64)) -> (u32, u64);

/// The checker with its answers changed.
struct Changed(Change);

impl ChecksProofs for Changed {
    fn check(&mut self, entries: usize, words: usize, rules: &[u8], proof: &[u8]) -> (u64, u64) {
        let (code, detail) = (self.0)(check(entries, words, rules, proof));
        (code.into(), detail)
    }
}

#[test]
fn another_checker_is_compared() {
    let histogram = run(&mut Changed(|answer| answer), 0..3).expect("no difference");
    assert_eq!(histogram.pairs(), 3 * CLASSES.len() as u64);
    let told = |change: Change| {
        let found = run(&mut Changed(change), 0..1).expect_err("a difference");
        found.to_string()
    };
    assert_eq!(
        told(|_| (37, 4)),
        "class    plain, seed 0\nexpected accepted\nfound    37 (a failed proof), line 4"
    );
    let late = told(|(code, detail)| (code, if code == 21 { detail + 1 } else { detail }));
    assert!(
        late.contains("\nexpected 21 (the problem line is missing) at byte "),
        "{late}"
    );
}
