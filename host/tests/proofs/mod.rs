//! Proofs checked through the archive, with an eye on every word that is lent.
#![allow(dead_code)] // no test needs all of it

use second::proofs::run::{run, ChecksProofs};
use second::proofs::NUMBERS;
use second::random::Random;
use zahrubel::lrat::check_in;
use zahrubel::{Answer, Carried, Entry, Tables, MOST_ENTRIES};

/// Tables of these sizes, with any bits in them.
pub fn any_tables(entries: usize, words: usize, random: &mut Random) -> Tables {
    let mut word = || random.draw() as u32;
    Tables {
        entries: (0..entries)
            .map(|_| Entry {
                id: word(),
                place: word(),
                start: word(),
                length: word(),
                witness: word(),
            })
            .collect(),
        pool: (0..words).map(|_| word() as i32).collect(),
        carried: Box::new(Carried {
            vars: word(),
            highest: word(),
            count: word(),
            words: word(),
            depth: word(),
            stack: [0; MOST_ENTRIES].map(|_| word()),
        }),
    }
}

/// What is carried where tables are opened empty for the rules of a text.
pub fn opened_empty(rules: &[u8]) -> Carried {
    let declared = second::dimacs::judge(rules).expect("rules without fault");
    Carried {
        vars: declared.vars as u32,
        ..Carried::default()
    }
}

/// By these answers nothing is opened: lent sizes out of range, and the faults of the rules.
pub fn opens_nothing(answer: Answer) -> bool {
    matches!(answer.code, 1 | 21..=29)
}

/// The archive behind the run of the second implementation: proofs whole.
pub struct Whole(pub Random);

impl ChecksProofs for Whole {
    fn check(&mut self, entries: usize, words: usize, rules: &[u8], proof: &[u8]) -> (u64, u64) {
        let before = any_tables(entries, words, &mut self.0);
        let mut tables = before.clone();
        let Tables {
            entries,
            pool,
            carried,
        } = &mut tables;
        let answer = check_in(entries, pool, carried, rules, proof);
        assert_eq!(tables.entries, before.entries, "entries are not written");
        if opens_nothing(answer) {
            assert!(tables == before, "{answer}: something is written");
        } else {
            assert_eq!(*tables.carried, opened_empty(rules), "{answer}");
        }
        (answer.code, answer.detail)
    }
}

/// So many seeds have every byte in every place, and every two faults of a line in every order.
const SEEDS: u64 = 1_024;

/// Each number comes many times, and no answer differs.
pub fn compare(checks: &mut dyn ChecksProofs) {
    let tally = match run(checks, 0..SEEDS) {
        Ok(tally) => tally,
        Err(difference) => panic!("{difference}"),
    };
    assert!(tally.pairs() > 20_000, "{tally}");
    for number in NUMBERS {
        assert!(tally.all(number) > 100, "{number} is rare\n{tally}");
    }
}
