//! Small proofs, made by hand. What they come to is read by a checker of these tests' own, which
//! takes nothing for granted that the conversion says.

use super::{convert, Format, Refusal};
use crate::dimacs;
use crate::texts::{find_field, Variant};
use std::collections::{BTreeMap, BTreeSet};

/// Every clause over two variables, and one over a third.
const RULES: &str = "p cnf 3 5\n1 2 0\n-1 2 0\n1 -2 0\n3 0\n-1 -2 0\n";

fn to_lrat(rules: &str, proof: impl AsRef<[u8]>, format: Format) -> Result<String, String> {
    let lrat =
        convert(rules.as_bytes(), proof.as_ref(), format).map_err(|refusal| refusal.to_string())?;
    assert_eq!(lrat.lines, lrat.text.lines().count());
    let most = check(rules, &lrat.text);
    assert_eq!(most, (lrat.most_clauses, lrat.most_literals));
    Ok(lrat.text)
}

fn from_drat(proof: impl AsRef<[u8]>) -> Result<String, String> {
    to_lrat(RULES, proof, Format::Drat)
}

fn from_frat(proof: impl AsRef<[u8]>) -> Result<String, String> {
    to_lrat(RULES, proof, Format::Frat)
}

// ---- the checker of these tests

type Held = BTreeMap<usize, BTreeSet<i32>>;

/// Holds a text to being an LRAT proof of the rules; tells the most clauses and literals held.
fn check(rules: &str, lrat: &str) -> (usize, usize) {
    let (_, frames) = dimacs::read(rules.as_bytes()).expect("sound rules");
    let clauses = frames
        .iter()
        .map(|frame| frame[2..].iter().copied().collect());
    let mut held: Held = (1..).zip(clauses).collect();
    let mut most = size(&held);
    let mut last = held.len();
    for line in lrat.lines() {
        assert!(
            !held.values().skip(frames.len()).any(BTreeSet::is_empty),
            "a line behind the empty clause"
        );
        let (id, rest) = line.split_once(' ').expect("an id");
        let id: usize = id.parse().expect("an id");
        if let Some(ids) = rest.strip_prefix("d ") {
            for id in numbers(ids, 1).remove(0) {
                assert!(held.remove(&(id as usize)).is_some(), "{line}");
            }
            continue;
        }
        let lists = numbers(rest, 2);
        assert!(id > last, "{line}");
        let clause: BTreeSet<i32> = lists[0].iter().copied().collect();
        assert!(
            clause.iter().all(|literal| !clause.contains(&-literal)),
            "{line}"
        );
        check_hints(&clause, &lists[1], &held);
        last = id;
        held.insert(id, clause);
        let now = size(&held);
        most = (most.0.max(now.0), most.1.max(now.1));
    }
    assert!(held[&last].is_empty(), "no empty clause");
    most
}

/// Every hint has one literal left that is not false, and the last one has none.
fn check_hints(clause: &BTreeSet<i32>, hints: &[i32], held: &Held) {
    let mut wrong = clause.clone();
    for (place, hint) in hints.iter().enumerate() {
        let left: Vec<i32> = held[&(*hint as usize)]
            .difference(&wrong)
            .copied()
            .collect();
        match left[..] {
            [] => assert_eq!(place + 1, hints.len(), "a hint behind the conflict"),
            [literal] => assert!(
                wrong.insert(-literal) && !wrong.contains(&literal),
                "hint {hint}"
            ),
            _ => panic!("hint {hint} has two literals left"),
        }
        if left.is_empty() {
            return;
        }
    }
    panic!("no conflict");
}

fn size(held: &Held) -> (usize, usize) {
    (held.len(), held.values().map(BTreeSet::len).sum())
}

/// So many lists, each closed by 0.
fn numbers(text: &str, lists: usize) -> Vec<Vec<i32>> {
    let words: Vec<i32> = text
        .split(' ')
        .map(|word| word.parse().expect("a number"))
        .collect();
    let found: Vec<Vec<i32>> = words
        .split(|&word| word == 0)
        .map(<[i32]>::to_vec)
        .collect();
    assert_eq!(found.len(), lists + 1, "{text}");
    found
}

// ---- DRAT

const LRAT: &str = "5 d 4 0\n6 2 0 1 2 0\n6 d 1 2 0\n7 0 6 3 5 0\n";

#[test]
fn a_proof_gets_hints_in_the_order_of_propagation() {
    assert_eq!(from_drat("2 0\n0\n").as_deref(), Ok(LRAT));
}

#[test]
fn a_binary_proof_is_the_same() {
    let deletes = [b'd', 6, 0];
    let adds = [b'a', 4, 0, b'a', 0];
    assert_eq!(
        from_drat([&deletes[..], &adds[..]].concat()).as_deref(),
        Ok(LRAT)
    );
}

#[test]
fn what_is_not_needed_is_left_out() {
    assert_eq!(
        from_drat("c a comment\n3 2 0\r\n2 0\n3 -1 0\n0\n1 0\n").as_deref(),
        Ok(LRAT)
    );
}

#[test]
fn the_empty_clause_may_be_left_to_the_reader() {
    assert_eq!(from_drat("2 0\n").as_deref(), Ok(LRAT));
    assert_eq!(from_drat([b'a', 4, 0]).as_deref(), Ok(LRAT));
}

#[test]
fn rules_may_refute_each_other_at_once() {
    let units = "p cnf 1 2\n1 0\n-1 0\n";
    assert_eq!(
        to_lrat(units, "", Format::Drat).as_deref(),
        Ok("3 0 1 2 0\n")
    );
    let empty = "p cnf 1 2\n1 0\n0\n";
    assert_eq!(
        to_lrat(empty, "0\n", Format::Drat).as_deref(),
        Ok("2 d 1 0\n3 0 2 0\n")
    );
}

#[test]
fn a_deleted_clause_is_no_hint() {
    let refused = from_drat("d 2 1 0\n2 0\n0\n");
    let told = refused.expect_err("(2) follows no more");
    assert!(
        told.starts_with("the proof: line 2: the clause does not follow"),
        "{told}"
    );
    // of two equal clauses one is left
    assert!(from_drat("2 1 0\nd 1 2 0\n2 0\n0\n").is_ok());
}

#[test]
fn a_literal_twice_is_one_and_a_tautology_is_none() {
    assert_eq!(from_drat("2 2 0\n1 -1 0\n0\n").as_deref(), Ok(LRAT));
}

/// Every clause over three variables: (1) is added by RAT, for each clause with -1 has one with 1
/// beside it; it does not follow by propagation.
#[test]
fn the_stronger_rule_is_refused_by_line() {
    let rules = "p cnf 3 8\n1 2 3 0\n1 2 -3 0\n1 -2 3 0\n1 -2 -3 0\n-1 2 3 0\n-1 2 -3 0\n-1 -2 3 0\n-1 -2 -3 0\n";
    let told = to_lrat(rules, "c\n1 0\n2 0\n0\n", Format::Drat).expect_err("no proof");
    assert!(
        told.starts_with("the proof: line 2: the clause does not follow"),
        "{told}"
    );
    assert!(told.contains("RAT"), "{told}");
    assert!(to_lrat(rules, "1 2 0\n1 0\n2 0\n0\n", Format::Drat).is_ok());
}

#[test]
fn faults_are_told_by_line() {
    let told = |proof: &str| from_drat(proof).expect_err(proof);
    assert_eq!(
        told("2 0\nd 7x 0\n"),
        "the proof: line 2: a number is malformed or missing"
    );
    assert_eq!(
        told("2 0\n\n1 2"),
        "the proof: line 3: a number is malformed or missing"
    );
    assert_eq!(told("x 1 0\n"), "the proof: line 1: a step x is no DRAT");
    assert_eq!(
        told("d 1 0\n"),
        "the proof: line 1: the clause to delete is not held"
    );
    let made_up =
        "the proof: line 1: variable 4 is not one of the rules: the solver has made it up";
    assert_eq!(told("-4 0\n"), made_up);
}

#[test]
fn binary_faults_are_told_by_step() {
    let told = |proof: &[u8]| from_drat(proof).expect_err("a fault");
    assert_eq!(
        told(&[b'a', 4, 0, b'a', 0x80]),
        "the proof: step 2: a number is malformed or missing"
    );
    assert_eq!(
        told(&[b'd', 2, 0]),
        "the proof: step 1: the clause to delete is not held"
    );
    let long = [&[b'a', 0][..1], &[0xff; 12], &[0]].concat();
    assert_eq!(
        told(&long),
        "the proof: step 1: a number is malformed or missing"
    );
}

#[test]
fn a_clause_over_256_literals_is_refused() {
    let literals: String = (1..=257).map(|literal| format!("{literal} ")).collect();
    let told = to_lrat("p cnf 300 1\n1 0\n", format!("{literals}0\n"), Format::Drat);
    assert_eq!(
        told.expect_err("too long"),
        "the proof: line 1: the clause has more than 256 literals"
    );
}

#[test]
fn the_rules_are_judged_first() {
    let told = convert(b"p cnf 1 1\n2 0\n", b"x", Format::Drat).err();
    assert!(matches!(told, Some(Refusal::Rules(_))));
}

// ---- FRAT

#[test]
fn frat_begins_with_a_rule() {
    assert_eq!(Format::of(b"o 1 1 0\n"), Format::Frat);
    assert_eq!(Format::of(b"1 0\n"), Format::Drat);
    assert_eq!(Format::of(b""), Format::Drat);
}

#[test]
fn frat_has_ids_of_its_own() {
    // the rules in another order; hints in no order, and one that is not needed
    let proof = "o 1 2 1 0\no 3 2 -1 0\na 4 2 0 l 3 1 0\no 10 1 -2 0\no 12 -1 -2 0\no 20 3 0\na 30 0 l 20 10 4 12 0\nf 4 2 0\n";
    assert_eq!(
        from_frat(proof).as_deref(),
        Ok("5 d 4 0\n6 2 0 2 1 0\n6 d 1 2 0\n7 0 6 5 3 0\n")
    );
}

#[test]
fn frat_without_hints_is_found_by_propagation() {
    let proof = "o 1 1 2 0\na 9 2 0\nd 1 1 2 0\na 10 0 l 9 0\n";
    assert_eq!(from_frat(proof).as_deref(), Ok(LRAT));
}

#[test]
fn frat_may_be_binary() {
    let rule = [b'o', 1, 2, 4, 0, b'o', 200, 1, 3, 4, 0];
    let adds = [b'a', 9, 4, 0, b'l', 2, 144, 3, 0, b'a', 10, 0];
    assert_eq!(
        from_frat([&rule[..], &adds[..]].concat()).as_deref(),
        Ok(LRAT)
    );
}

#[test]
fn frat_may_give_clauses_other_ids() {
    let rules = "o 1 1 2 0\no 2 -1 2 0\no 3 3 0\n";
    let rest = "a 4 2 0 l 3 1 0\na 9 0\n";
    // 2 and 3 change places, and 3 comes to name (-1 2)
    let lrat = from_frat(format!("{rules}r 2 3 3 2 0\n{rest}"));
    assert_eq!(
        lrat.as_deref(),
        Ok("5 d 4 0\n6 2 0 2 1 0\n6 d 1 2 0\n7 0 6 3 5 0\n")
    );
    let told = from_frat(format!("{rules}r 7 3 0\n")).expect_err("no 7");
    assert_eq!(told, "the proof: line 4: 7 is no id so far");
}

#[test]
fn faults_of_frat_are_told_by_line() {
    let told = |proof: &str| from_frat(proof).expect_err(proof);
    assert!(told("o 1 1 2 0\no 2 1 2 0\n").starts_with("the proof: line 2: the clause is no rule"));
    assert!(told("o 1 1 2 0\nx 2 1 2 0\n").starts_with("the proof: line 2: a step x is not taken"));
    assert_eq!(
        told("1 2 0\n"),
        "the proof: line 1: a step begins with a letter"
    );
    assert_eq!(told("d 1 2 0\n"), "the proof: line 1: 1 is no id so far");
    assert_eq!(
        told("a 6 2 0 l 1 0\n"),
        "the proof: line 1: 1 is no id so far"
    );
    assert_eq!(
        told("a -6 2 0\n"),
        "the proof: line 1: a number is malformed or missing"
    );
}

// ---- a larger one

/// The clauses that a search by hand would learn.
#[test]
fn pigeons_have_no_holes() {
    let field = find_field("pigeonhole").expect("a field");
    let rules = String::from_utf8(field.text(3, Variant::default())).expect("text");
    // with two pigeons in two holes the others have but the third; so the first one is in none of two,
    // and then the second is not in the first
    let drat = "-1 -5 0\n-1 -6 0\n-1 0\n-2 -4 0\n-2 -6 0\n-2 0\n-4 0\n0\n";
    let lrat = to_lrat(&rules, drat, Format::Drat).expect("a proof");
    assert!(lrat.lines().count() > 8, "{lrat}");
}

// ---- real ones

/// What the solvers wrote for two chains of exclusive ors, and the proofs that are kept of it.
#[test]
fn kept_proofs_of_solvers_come_to_what_is_kept() {
    let rules = include_str!("../../../examples/lrat/parity-8.cnf");
    let cadical = include_str!("../../../examples/lrat/parity-8.cadical.lrat");
    let text = include_bytes!("../../../examples/lrat/parity-8.cadical.drat");
    assert_eq!(
        to_lrat(rules, text, Format::of(text)).as_deref(),
        Ok(cadical)
    );
    let binary = include_bytes!("../../../examples/lrat/parity-8.cadical-binary.drat");
    assert_eq!(
        to_lrat(rules, binary, Format::of(binary)).as_deref(),
        Ok(cadical)
    );
    let cryptominisat = include_str!("../../../examples/lrat/parity-8.cryptominisat.lrat");
    let frat = include_bytes!("../../../examples/lrat/parity-8.cryptominisat.frat");
    assert_eq!(
        to_lrat(rules, frat, Format::of(frat)).as_deref(),
        Ok(cryptominisat)
    );
}
