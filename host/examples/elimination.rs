//! The life of a record. A solver eliminates a variable by resolution: its clauses go to the
//! stack, models are mended by them, and they come back before a rule that needs them.

use std::error::Error;
use zahrubel::{Answer, ClauseId, Code, Frame, Literal, Place, Session, Variable};

type Outcome<T = ()> = Result<T, Box<dyn Error>>;

const VARIABLES: u32 = 5;
const RULES: [&[i32]; 4] = [&[1, 3], &[2, 3], &[-3, 4], &[-1, -3, 5]];
const ELIMINATED: u32 = 3;
/// The rule that comes late, and is about what was eliminated.
const LATE: &[i32] = &[-3, -4];

fn main() -> Outcome {
    let mut session = Session::open(VARIABLES, 16, 64)?;
    println!("the rules");
    for rule in RULES {
        add(&mut session, &Literal::list(rule)?)?;
    }
    println!("the resolvents on {ELIMINATED}, and what goes to the stack by them");
    eliminate(&mut session, Variable::new(ELIMINATED)?)?;
    println!("what is held, the stack from its top");
    let rules = session.held().filter(|held| held.place != Place::Stacked);
    let stack = session.stack().rev().filter_map(|id| session.clause(id));
    rules.chain(stack).for_each(|held| println!("  {held}"));
    println!("a model, from a solver that has no rule about {ELIMINATED} any more");
    offer(&mut session, &Literal::list(&[-1])?)?;
    println!("a rule that comes late");
    add(&mut session, &Literal::list(LATE)?)?;
    println!("a model of all rules");
    offer(&mut session, &[])
}

/// Says a frame and tells it with its answer, both in words.
fn say(session: &mut Session, frame: &Frame) -> Answer {
    let answer = session.say(frame);
    println!("  {:<52} {answer}", frame.to_string());
    answer
}

fn next_id(session: &Session) -> Outcome<ClauseId> {
    Ok(session.next_id().ok_or("all ids are used")?)
}

fn add(session: &mut Session, clause: &[Literal]) -> Outcome {
    let id = next_id(session)?;
    until_clean(session, &Frame::add(id, clause)?)
}

/// A refusal 5 names the record that must come back first, and that one may need another.
fn until_clean(session: &mut Session, frame: &Frame) -> Outcome {
    loop {
        let answer = say(session, frame);
        if answer.meaning() != Some(Code::NotClean) {
            answer.accepted()?;
            return Ok(());
        }
        let record = ClauseId::new(answer.detail.try_into()?)?;
        until_clean(session, &Frame::restore(record))?;
    }
}

/// The irredundant clauses that hold a literal, by rising id.
fn holding(session: &Session, literal: Literal) -> Vec<(ClauseId, Vec<Literal>)> {
    let all = session.held();
    let rules = all.filter(|held| held.place == Place::Irredundant);
    let holding = rules.filter(|held| held.clause.contains(&literal));
    holding
        .map(|held| (held.id, held.clause.to_vec()))
        .collect()
}

/// The resolvent of a clause with x and one with -x; none where it is a tautology.
fn resolvent(one: &[Literal], other: &[Literal], x: Literal) -> Option<Vec<Literal>> {
    let mut both: Vec<Literal> = one.iter().copied().filter(|&l| l != x).collect();
    both.extend(other.iter().filter(|&&l| l != -x && !one.contains(&l)));
    let is_tautology = both.iter().any(|&l| both.contains(&-l));
    (!is_tautology).then_some(both)
}

fn eliminate(session: &mut Session, variable: Variable) -> Outcome {
    let x = variable.positive();
    let (with, without) = (holding(session, x), holding(session, -x));
    for (id, clause) in with {
        // Making x true might break each clause with -x, so each needs a group. What it must
        // prove is the resolvent: its id is the hint, and a tautology needs none.
        let mut weaken = Frame::weaken(id, &[x]);
        for (other_id, other) in &without {
            let hints = match resolvent(&clause, other, x) {
                Some(both) => vec![learn(session, &both, &[id, *other_id])?],
                None => Vec::new(),
            };
            weaken = weaken.group(*other_id, &hints);
        }
        say(session, &weaken.frame()?).accepted()?;
    }
    // No rule with x is left now, so these need no group.
    for (id, _) in without {
        say(session, &Frame::weaken(id, &[-x]).frame()?).accepted()?;
    }
    Ok(())
}

/// Learns a clause and promotes it, since a group may lean on irredundant clauses alone.
fn learn(session: &mut Session, clause: &[Literal], hints: &[ClauseId]) -> Outcome<ClauseId> {
    let id = next_id(session)?;
    say(session, &Frame::learn(id, clause, hints)?).accepted()?;
    say(session, &Frame::promote(id)).accepted()?;
    Ok(id)
}

/// A toy solver: counts up to the first assignment that makes all it knows true, and offers it.
fn offer(session: &mut Session, assumed: &[Literal]) -> Outcome {
    let is_true = |bits: u32, v: u32| bits >> (v - 1) & 1 == 1;
    let holds = |bits, l: &Literal| is_true(bits, l.variable().number()) == l.is_positive();
    let fits = |&bits: &u32| {
        let mut rules = session
            .held()
            .filter(|held| held.place == Place::Irredundant);
        assumed.iter().all(|l| holds(bits, l))
            && rules.all(|held| held.clause.iter().any(|l| holds(bits, l)))
    };
    let bits = (0..1 << VARIABLES).find(fits).ok_or("there is no model")?;
    let trues: Vec<u32> = (1..=VARIABLES).filter(|&v| is_true(bits, v)).collect();
    say(session, &Frame::sat(assumed, &Variable::list(&trues)?)?).accepted()?;
    let model: Vec<String> = session.model().map(|v| v.to_string()).collect();
    println!("  the model handed out: {}", model.join(" "));
    Ok(())
}
