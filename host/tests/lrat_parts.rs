//! The same pairs of rules and proof through the archive as in `lrat.rs`, the proofs in parts that
//! are cut anywhere.

mod proofs;

use proofs::{any_tables, compare, opened_empty, opens_nothing};
use second::proofs::large;
use second::proofs::run::ChecksProofs;
use second::random::Random;
use zahrubel::lrat::{give_in, open_in, Checking, Proof};
use zahrubel::{Answer, Place, Session, Tables};

const RULES: &[u8] = b"p cnf 2 4\n1 2 0\n1 -2 0\n-1 2 0\n-1 -2 0\n";
const PROOF: &[u8] = b"5 1 0 1 2 0\n5 d 1 2 0\n6 0 5 3 4 0\n";

/// All that goes from call to call.
#[derive(Clone, PartialEq)]
struct Lent {
    tables: Tables,
    proof: Box<Proof>,
}

fn any_proof(random: &mut Random) -> Box<Proof> {
    let mut word = || random.draw() as u32;
    Box::new(Proof {
        lines: word().into(),
        value: word().into(),
        kind: word(),
        minus: word(),
        phase: word(),
        noted: word(),
        id: word(),
        count: word(),
        proof: word(),
        over: word(),
        code: word(),
        spare: word(),
        literals: [0; 256].map(|_| word() as i32),
        plus: [0; 32].map(|_| u64::from(word()) << 32 | u64::from(word())),
        minuses: [0; 32].map(|_| u64::from(word()) << 32 | u64::from(word())),
    })
}

impl Lent {
    fn any(entries: usize, words: usize, random: &mut Random) -> Lent {
        Lent {
            tables: any_tables(entries, words, random),
            proof: any_proof(random),
        }
    }

    /// Opened for rules, in tables of some sizes.
    fn opened(rules: &[u8]) -> Lent {
        let mut lent = Lent::any(16, 64, &mut Random::new(11));
        assert_eq!(lent.open(rules).code, 0);
        lent
    }

    /// Opens, and looks at what is written.
    fn open(&mut self, rules: &[u8]) -> Answer {
        let before = self.clone();
        let tables = &mut self.tables;
        let (entries, pool) = (&mut tables.entries, &mut tables.pool);
        let answer = open_in(entries, pool, &mut tables.carried, &mut self.proof, rules);
        if opens_nothing(answer) {
            assert!(*self == before, "{answer}: something is written");
        } else if answer.is_accepted() {
            self.hold(rules);
        } else {
            assert_eq!(*self.tables.carried, opened_empty(rules), "{answer}");
            assert_eq!(self.tables.entries, before.tables.entries);
            assert_eq!(self.proof, before.proof);
        }
        answer
    }

    /// The rules are held, and nothing of a proof is read.
    fn hold(&self, rules: &[u8]) {
        let session = Session::from_tables(self.tables.clone()).expect("a state");
        let (declared, frames) = second::dimacs::read(rules).expect("rules without fault");
        assert_eq!(session.vars(), declared.vars as u32);
        assert_eq!(session.tables().carried.highest, declared.clauses as u32);
        assert_eq!(session.held().count(), frames.len());
        for (rule, words) in session.held().zip(frames.iter()) {
            assert_eq!((rule.place, rule.id.word()), (Place::Irredundant, words[1]));
            let literals = rule.clause.iter().map(|literal| literal.word());
            assert!(literals.eq(words[2..].iter().copied()), "rule {}", rule.id);
        }
        assert_eq!((self.proof.over, self.proof.lines), (0, 0));
    }

    fn ask(&mut self, part: &[u8], last: bool) -> Answer {
        let Tables {
            entries,
            pool,
            carried,
        } = &mut self.tables;
        give_in(entries, pool, carried, &mut self.proof, part, last)
    }

    fn is_over(&self) -> bool {
        self.proof.over != 0
    }

    /// Gives a part to a proof that is not over, and looks at what is left.
    fn give(&mut self, part: &[u8], last: bool) -> Answer {
        let vars = self.tables.carried.vars;
        let answer = self.ask(part, last);
        let carried = &self.tables.carried;
        assert_eq!(carried.vars, vars);
        if self.is_over() {
            let held = [carried.highest, carried.count, carried.words, carried.depth];
            assert_eq!(held, [0; 4], "tables are empty once it is over");
        } else {
            assert_eq!((answer.code, answer.detail, last), (0, 0, false));
        }
        answer
    }

    /// Nothing changes by a part, and this is told.
    fn stays(&mut self, part: &[u8], last: bool, told: Answer) {
        let before = self.clone();
        assert_eq!(self.ask(part, last), told);
        assert!(*self == before, "{told}: something is written");
    }
}

/// The archive behind the run of the second implementation: proofs in parts.
struct InParts(Random);

impl InParts {
    /// Some bytes or none, of a proof in about so many parts.
    fn cut<'p>(&mut self, rest: &'p [u8], most: usize) -> (&'p [u8], &'p [u8]) {
        rest.split_at(self.0.below(most + 1).min(rest.len()))
    }

    fn give_all(&mut self, lent: &mut Lent, proof: &[u8]) -> Answer {
        let parts = [1, 4, 16, 64][self.0.below(4)];
        let most = 1 + proof.len() / parts;
        let mut rest = proof;
        loop {
            let (part, behind) = self.cut(rest, most);
            // The end comes with the last bytes, or behind them.
            let last = behind.is_empty() && self.0.one_in(2);
            let answer = lent.give(part, last);
            if lent.is_over() {
                lent.stays(behind, self.0.one_in(2), answer);
                return answer;
            }
            rest = behind;
        }
    }
}

impl ChecksProofs for InParts {
    fn check(&mut self, entries: usize, words: usize, rules: &[u8], proof: &[u8]) -> (u64, u64) {
        let mut lent = Lent::any(entries, words, &mut self.0);
        let opened = lent.open(rules);
        let answer = match opened.is_accepted() {
            true => self.give_all(&mut lent, proof),
            false => opened,
        };
        (answer.code, answer.detail)
    }
}

#[test]
fn the_archive_and_the_second_check_the_same_proofs_in_parts_alike() {
    compare(&mut InParts(Random::new(6)));
}

#[test]
fn a_long_proof_is_accepted_in_parts() {
    let pair = large(400_000);
    let mut checking = Checking::of_rules(&pair.rules).expect("rules that have room");
    for part in pair.proof.chunks(4_096) {
        checking.give(part).expect("a sound proof");
    }
    assert!(checking.is_over());
    assert_eq!(checking.end(), Ok(()));
}

#[test]
fn a_refusal_is_told_at_once_and_again() {
    let mut checking = Checking::of_rules(RULES).expect("rules that have room");
    assert_eq!(checking.give(&PROOF[..30]), Ok(()));
    assert!(!checking.is_over());
    let refused = checking
        .give(b"9 0\n6 0 5 3 4 0\n")
        .expect_err("9 is not held");
    assert_eq!((refused.0.code, refused.0.detail), (37, 3));
    assert!(checking.is_over());
    assert_eq!(checking.give(PROOF), Err(refused));
    assert_eq!(checking.end(), Err(refused));
    let mut ended = Checking::of_rules(RULES).expect("rules that have room");
    let refused = ended.end().expect_err("no empty clause");
    assert_eq!((refused.0.code, refused.0.detail), (38, 0));
    let fault = Checking::of_rules(&RULES[..14]).expect_err("an unclosed clause");
    assert_eq!((fault.0.code, fault.0.detail), (28, 14));
}

/// What makes a right reading, or the tables with it, none.
const DAMAGES: [fn(&mut Lent); 13] = [
    |lent| lent.proof.count = 257,
    |lent| lent.proof.count = u32::MAX,
    |lent| lent.proof.count = 3,
    |lent| lent.proof.literals[0] = 0,
    |lent| lent.proof.literals[0] = 2_049,
    |lent| lent.proof.literals[1] = i32::MIN,
    |lent| lent.proof.noted = 30,
    |lent| lent.proof.noted = 0,
    |lent| lent.tables.carried.vars = 0,
    |lent| lent.tables.carried.count += 1,
    |lent| lent.tables.entries[0].place = 3,
    |lent| lent.tables.entries.clear(),
    |lent| lent.tables.pool.resize(8_193, 0),
];

#[test]
fn what_is_no_reading_or_no_state_is_refused_and_stays() {
    let mut lent = Lent::opened(RULES);
    // Two literals of the next line are kept.
    lent.give(b"5 1 0 1 2 0\n6 -1 -2 ", false);
    assert_eq!(lent.proof.count, 2);
    let no_state = Answer { code: 1, detail: 0 };
    for damage in DAMAGES {
        let mut damaged = lent.clone();
        damage(&mut damaged);
        for part in [&b""[..], b"0 4 0\n", b"x\n"] {
            damaged.stays(part, false, no_state);
            damaged.stays(part, true, no_state);
        }
    }
    let answer = lent.give(b"0 4 0\n7 0 5 6 3 0\n", false);
    assert_eq!((answer.code, lent.is_over()), (0, true));
    // Tables that are no state are refused once it is over, too.
    lent.tables.carried.vars = 0;
    lent.stays(b"", true, no_state);
}

/// Whatever else stands in a reading, it is read on from, and what is left is a reading.
#[test]
fn any_bits_of_a_reading_are_read_on_from() {
    let mut random = Random::new(13);
    let opened = Lent::opened(RULES);
    for _ in 0..2_000 {
        let mut lent = opened.clone();
        lent.proof = any_proof(&mut random);
        lent.proof.count %= 257;
        lent.proof.noted = lent.proof.noted.max(31);
        lent.proof.over = 0;
        lent.proof.literals = [0; 256].map(|_| {
            let variable = random.variable(2_048);
            random.signed(variable)
        });
        for at in 0..3 {
            let part: Vec<u8> = (0..9).map(|_| b"12 0\nd-57"[random.below(9)]).collect();
            let answer = lent.ask(&part, at == 2);
            assert_ne!(answer.code, 1, "{answer}");
        }
        assert!(lent.is_over());
    }
}
