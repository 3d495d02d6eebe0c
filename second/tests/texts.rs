//! The generated texts: every number in every class that can have it, every pair of faults, and the
//! CNFs of the field.

use second::checker::{Checker, Checks};
use second::dimacs::{judge, read, Kind};
use second::random::Random;
use second::terms::{MOST_ENTRIES, MOST_VARIABLES, MOST_WORDS};
use second::texts::pairs::{all_pairs, ONE_PLACE};
use second::texts::plant::planted;
use second::texts::{find_class, find_field, large, Histogram, Variant, CLASSES, FIELDS, NUMBERS};

/// The number of a text, 0 for a sound one.
fn number(text: &[u8]) -> u32 {
    judge(text).map_or_else(|fault| fault.kind.number(), |_| 0)
}

#[test]
fn every_reachable_cell_is_reached_and_no_other() {
    let mut histogram = Histogram::default();
    for class in &CLASSES {
        // Every byte at every place several times; few texts where they are long.
        let seeds = match class.name {
            "large" | "many-clauses" | "deep-faults" => 200,
            "single-bytes" => 8 * 1_024,
            _ => 2_000,
        };
        for seed in 0..seeds {
            let text = class.text(seed);
            assert!(text.len() <= 1 << 20, "{} {seed}", class.name);
            histogram.count_text(class, &text);
        }
    }
    for class in &CLASSES {
        for number in NUMBERS {
            let reached = histogram.times(class.name, number) > 0;
            let can_be = class.numbers.contains(&number);
            assert_eq!(reached, can_be, "{} with {number}\n{histogram}", class.name);
        }
    }
}

/// Few seeds have every number many times, as the gate's runs have few.
#[test]
fn every_number_is_reached_many_times() {
    let mut histogram = Histogram::default();
    for class in &CLASSES {
        for seed in 0..60 {
            histogram.count_text(class, &class.text(seed));
        }
    }
    for number in NUMBERS {
        let times = |class: &second::texts::Class| histogram.times(class.name, number);
        let times: u64 = CLASSES.iter().map(times).sum();
        assert!(times > 20, "{number}\n{histogram}");
    }
    assert_eq!(histogram.texts(), 60 * CLASSES.len() as u64);
}

#[test]
fn a_text_is_a_function_of_its_class_and_seed() {
    for class in &CLASSES {
        let text = class.text(7);
        assert_eq!(text, class.text(7), "{}", class.name);
        let others = (8..20).filter(|&seed| class.text(seed) != text);
        assert!(others.count() > 6, "{}", class.name);
    }
    assert!(find_class("pairs").is_some());
    assert!(find_class("no-such-class").is_none());
}

#[test]
fn a_fault_is_planted_alone() {
    for kind in Kind::ALL {
        for seed in 0..200 {
            let text = planted(&[kind], &mut Random::new(seed));
            assert_eq!(number(&text), kind.number(), "seed {seed}");
        }
    }
}

#[test]
fn of_two_faults_the_first_decides() {
    let pairs = all_pairs();
    for &[first, second] in &pairs {
        for seed in 0..40 {
            let text = planted(&[first, second], &mut Random::new(seed));
            assert_eq!(
                number(&text),
                first.number(),
                "{second} behind, seed {seed}"
            );
        }
    }
    // 21 stands before all others, 22 to 26 and 27 before those that can be behind them.
    assert_eq!(pairs.len(), 8 + 5 * 7 + 1 + 7);
    let both_orders = |one, other| pairs.contains(&[one, other]) && pairs.contains(&[other, one]);
    let in_clauses = &Kind::ALL[1..6];
    for &one in in_clauses {
        assert!(in_clauses.iter().all(|&other| both_orders(one, other)));
    }
    assert!(both_orders(Kind::Malformed, Kind::VariableCount));
}

#[test]
fn at_one_place_the_lists_order_decides() {
    for (place, (kind, write)) in ONE_PLACE.into_iter().enumerate() {
        for seed in 0..60 {
            let text = write(&mut Random::new(seed));
            let told = String::from_utf8_lossy(&text);
            assert_eq!(number(&text), kind.number(), "{place}, seed {seed}: {told}");
        }
    }
}

/// "ADD's own refusals 12 and 13 stand", and there are no others.
#[test]
fn frames_are_accepted_or_refused_12_or_13() {
    let mut times = [0; 14];
    for class in &CLASSES {
        for seed in 0..60 {
            let Ok((declared, frames)) = read(&class.text(seed)) else {
                continue;
            };
            let mut checker = Checker::open(declared.vars, MOST_ENTRIES, MOST_WORDS).unwrap();
            for frame in frames.iter() {
                times[checker.step(frame).code as usize] += 1;
            }
        }
    }
    for (code, &times) in times.iter().enumerate() {
        assert_eq!(times > 0, [0, 12, 13].contains(&code), "{code}: {times}");
    }
}

#[test]
fn texts_of_the_field_are_sound_up_to_their_size() {
    for field in &FIELDS {
        for size in [1, 2, 3, field.usual, field.sound] {
            let plain = Variant::default();
            let text = field.text(size, plain);
            let rules = field.rules(size);
            let (declared, frames) =
                read(&text).unwrap_or_else(|fault| panic!("{}: {fault}", field.name));
            assert!(declared.vars == rules.vars && rules.vars <= MOST_VARIABLES);
            assert!(frames.iter().map(|frame| &frame[2..]).eq(&rules.clauses));
            for (crlf, comments) in [(true, false), (false, true), (true, true)] {
                let other = field.text(size, Variant { crlf, comments });
                assert_eq!(read(&other), Ok((declared, frames.clone())));
                assert!(other.len() > text.len());
            }
        }
        let past = field.text(field.sound + 1, Variant::default());
        assert_eq!(number(&past), 27, "{}", field.name);
    }
    assert!(find_field("parity").is_some());
    assert!(find_field("no-such-field").is_none());
}

/// Whether clauses over few variables have a model.
fn has_model(vars: i32, clauses: &[Vec<i32>]) -> bool {
    let is_true =
        |literal: i32, model: u32| (model >> (literal.abs() - 1) & 1 == 1) == (literal > 0);
    let satisfies = |model| {
        let holds = |clause: &Vec<i32>| clause.iter().any(|&literal| is_true(literal, model));
        clauses.iter().all(holds)
    };
    (0..1 << vars).any(satisfies)
}

#[test]
fn texts_of_the_field_say_what_they_are_named_after() {
    let rules = |name, size| find_field(name).expect("a field").rules(size);
    for (name, size, expected) in [
        ("pigeonhole", 2, false),
        ("pigeonhole", 3, false),
        ("parity", 4, true),
    ] {
        let mut rules = rules(name, size);
        assert_eq!(has_model(rules.vars, &rules.clauses), expected, "{name}");
        // With one clause less the pigeons fit.
        rules.clauses.pop();
        assert!(has_model(rules.vars, &rules.clauses), "{name}");
    }
    let random = rules("random-3-sat", 100);
    assert_eq!(random.clauses.len(), 426);
    assert!(random.clauses.iter().all(|clause| clause.len() == 3));
    let implications = rules("implications", 100);
    assert!(implications.clauses.iter().all(|clause| clause.len() <= 2));
}

#[test]
fn a_large_text_is_sound_and_the_same_every_time() {
    let text = large(1_000_000);
    assert!(
        (1_000_000..1_003_000).contains(&text.len()),
        "{}",
        text.len()
    );
    assert_eq!(text, large(1_000_000));
    let (declared, frames) = read(&text).expect("a sound text");
    assert_eq!(declared.vars, MOST_VARIABLES);
    let lengths: Vec<usize> = frames.iter().map(|frame| frame.len() - 2).collect();
    let of_three = lengths.iter().filter(|&&length| length == 3).count();
    assert!(2 * of_three > lengths.len(), "{of_three}");
    assert_eq!(lengths.iter().max(), Some(&256));
    assert_eq!(lengths.iter().min(), Some(&1));
    let comments = text
        .split(|&byte| byte == b'\n')
        .filter(|line| line.starts_with(b"c"));
    assert!(comments.count() > 100);
}
