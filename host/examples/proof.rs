//! A second vendor's word that rules have no model, checked: a solver's proof is read from its file
//! whole, and in parts as somebody hands it on; and one that lacks a line is refused.

use std::error::Error;
use std::fs::{self, File};
use std::io::Read;
use zahrubel::lrat::{self, Checking};
use zahrubel::{dimacs, Refused};

/// Six pigeons in five holes, and what a solver made of them.
const RULES: &str = concat!(
    env!("CARGO_MANIFEST_DIR"),
    "/../examples/lrat/pigeonhole-5.cnf"
);
const PROOF: &str = concat!(
    env!("CARGO_MANIFEST_DIR"),
    "/../examples/lrat/pigeonhole-5.cadical.lrat"
);

/// As much of a proof as is in memory at a time.
const PART: usize = 1_024;

fn main() -> Result<(), Box<dyn Error>> {
    let rules = fs::read(RULES).map_err(|error| format!("{RULES}: {error}"))?;
    let proof = fs::read(PROOF).map_err(|error| format!("{PROOF}: {error}"))?;
    let cnf = dimacs::judge(&rules)?;
    println!("rules: {} clauses over {} variables", cnf.clauses, cnf.vars);
    println!(
        "a proof of {} lines, whole: {}",
        lines(&proof),
        told(lrat::check(&rules, &proof))
    );
    in_parts(&rules)?;
    without_a_line(&rules, &proof);
    Ok(())
}

fn lines(proof: &[u8]) -> usize {
    proof.split_inclusive(|&byte| byte == b'\n').count()
}

fn told(answer: Result<(), Refused>) -> String {
    match answer {
        Ok(()) => "accepted, the rules have no model".to_string(),
        Err(refused) => refused.to_string(),
    }
}

/// Reads the file part by part, and no further than the answer needs.
fn in_parts(rules: &[u8]) -> Result<(), Box<dyn Error>> {
    let mut file = File::open(PROOF)?;
    let mut part = [0; PART];
    let mut checking = Checking::of_rules(rules)?;
    let mut parts = 0;
    while !checking.is_over() {
        let answer = match file.read(&mut part)? {
            0 => checking.end(),
            bytes => checking.give(&part[..bytes]),
        };
        parts += 1;
        if checking.is_over() {
            println!("in {parts} parts of {PART} bytes: {}", told(answer));
        }
    }
    Ok(())
}

/// What a line adds, later ones lean on.
fn without_a_line(rules: &[u8], proof: &[u8]) {
    let all = proof.split_inclusive(|&byte| byte == b'\n');
    let others: Vec<u8> = all.skip(1).flatten().copied().collect();
    println!(
        "without its first line: {}",
        told(lrat::check(rules, &others))
    );
}
