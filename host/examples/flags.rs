//! A bureau that masks CPU flags for guests: its rules are clauses in `flags.cnf`, a toy solver
//! drops one of them and answers for host after host, and the checker says what a guest may see.

use std::error::Error;
use std::fs;
use zahrubel::{ClauseId, Frame, Literal, Place, Session, Variable};

/// The rules: each says which flag must not be shown without another.
const RULES: &str = concat!(env!("CARGO_MANIFEST_DIR"), "/examples/flags.cnf");

/// The flags, as variables 1 to 6.
const NAMES: [&str; 6] = ["sse2", "xsave", "avx", "avx2", "avx512f", "fma"];
const AVX: Variable = flag(3);
const AVX2: Variable = flag(4);
const AVX512F: Variable = flag(5);

/// The rule that the solver works without: avx512f needs avx2.
const DROPPED: ClauseId = rule(3);

/// Hosts, by the flags that they lack.
const HOSTS: [(&str, &[Variable]); 3] = [
    ("lacks nothing", &[]),
    ("lacks avx2", &[AVX2]),
    ("lacks avx", &[AVX]),
];

/// For constants: a number out of range does not compile.
const fn flag(number: u32) -> Variable {
    match Variable::new(number) {
        Ok(flag) => flag,
        Err(_) => panic!("no variable"),
    }
}

const fn rule(number: u32) -> ClauseId {
    match ClauseId::new(number) {
        Ok(id) => id,
        Err(_) => panic!("no id"),
    }
}

fn main() -> Result<(), Box<dyn Error>> {
    let rules = fs::read(RULES).map_err(|error| format!("{RULES}: {error}"))?;
    // Judged, and its clauses added, or refused with the byte where it has a fault.
    let mut session =
        Session::of_rules(&rules, 16, 64).map_err(|refused| format!("{RULES}: {refused}"))?;
    // Wherever avx2 is missing, hiding avx512f makes the rule true. No rule holds avx512f itself,
    // so no other clause needs a group.
    let weaken = Frame::weaken(DROPPED, &[-AVX512F]).frame()?;
    session.say(&weaken).accepted()?;
    for (host, lacking) in HOSTS {
        show(&mut session, host, lacking)?;
    }
    demand_avx512f(&mut session)
}

/// SAT for a host: what it lacks is assumed false; the offered model is the solver's.
fn show(session: &mut Session, host: &str, lacking: &[Variable]) -> Result<(), Box<dyn Error>> {
    let offered = offer(session, lacking);
    let assumed: Vec<Literal> = lacking.iter().map(|&flag| -flag).collect();
    let mended = session.say(&Frame::sat(&assumed, &offered)?).accepted()?;
    println!("host that {host}");
    println!("  offered by the solver: {}", names(offered));
    println!("  a guest may see:       {}", names(session.model()));
    println!("  flags mended:          {mended}");
    Ok(())
}

fn all_flags() -> impl Iterator<Item = Variable> {
    (1..=NAMES.len() as u32).map(flag)
}

/// The toy solver: every flag that the host has, less those that break a rule it still knows.
fn offer(session: &Session, lacking: &[Variable]) -> Vec<Variable> {
    let mut shown: Vec<Variable> = all_flags().collect();
    shown.retain(|flag| !lacking.contains(flag));
    let known = session
        .held()
        .filter(|rule| rule.place == Place::Irredundant);
    for rule in known {
        let holds =
            |literal: &Literal| shown.contains(&literal.variable()) == literal.is_positive();
        if !rule.clause.iter().any(holds) {
            shown.retain(|&flag| !rule.clause.contains(&-flag));
        }
    }
    shown
}

fn names(shown: impl IntoIterator<Item = Variable>) -> String {
    let name = |flag: Variable| NAMES[flag.number() as usize - 1];
    let names: Vec<&str> = shown.into_iter().map(name).collect();
    names.join(" ")
}

/// A guest that insists on avx512f: the mend might hide it, so the answer is refused until the
/// rule is restored; on a host without avx2 there is then no answer at all.
fn demand_avx512f(session: &mut Session) -> Result<(), Box<dyn Error>> {
    let all: Vec<Variable> = all_flags().collect();
    let demand = Frame::sat(&[AVX512F.positive()], &all)?;
    let answer = session.say(&demand);
    println!("guest that insists on avx512f");
    println!("  while the rule is dropped: {answer}");
    session.say(&Frame::restore(DROPPED)).accepted()?;
    session.say(&demand).accepted()?;
    println!("  after restoring it:        {}", names(session.model()));
    let lacking = [AVX512F.positive(), -AVX2];
    session
        .say(&Frame::unsat(&lacking, &[DROPPED])?)
        .accepted()?;
    println!("  where avx2 is lacking:     no");
    Ok(())
}
