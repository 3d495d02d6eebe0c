//! cost: what a call costs by how much is held, on the processor at hand. Each number is the least
//! of many, since what else runs there only adds to it.

use std::error::Error;
use std::time::{Duration, Instant};
use zahrubel::{ClauseId, Frame, Literal, Session};

type Outcome<T = ()> = Result<T, Box<dyn Error>>;

const TIMES: usize = 3_000;
/// LEARN and FORGET, so that as much is held after a part as before it.
const LINES: usize = 1_000;

fn main() -> Outcome {
    println!("microseconds, least of {TIMES}; clauses of 3 literals");
    for held in [16, 128, 1_023] {
        let mut session = filled(held)?;
        println!(
            "{held:>5} held     a frame {:.2}",
            frame_cost(&mut session)?
        );
        println!(
            "               a line of {LINES} {:.3}",
            line_cost(&mut session)?
        );
        println!("               loading {:.2}", loading_cost(&mut session));
        let mut stacked = filled(held)?;
        weaken_all(&mut stacked, held)?;
        println!(
            "               loading, all stacked {:.2}",
            loading_cost(&mut stacked)
        );
    }
    let mut tables = filled(1_023)?.into_tables();
    tables.entries[..1_023].reverse();
    let mut falling = Session::from_tables(tables)?;
    println!(
        " 1023 held     loading, by falling id {:.1}",
        loading_cost(&mut falling)
    );
    Ok(())
}

/// Clauses 1 2 3, 2 3 4 and so on.
fn filled(held: u32) -> Outcome<Session> {
    let mut session = Session::open(2_048, 1_024, 8_192)?;
    for number in 1..=held {
        let first = number as i32;
        let clause = Literal::list(&[first, first + 1, first + 2])?;
        let frame = Frame::add(ClauseId::new(number)?, &clause)?;
        session.say(&frame).accepted()?;
    }
    Ok(session)
}

/// No clause holds the opposite of a witness, so none needs a group.
fn weaken_all(session: &mut Session, held: u32) -> Outcome {
    for number in 1..=held {
        let witness = Literal::list(&[number as i32])?;
        let frame = Frame::weaken(ClauseId::new(number)?, &witness).frame()?;
        session.say(&frame).accepted()?;
    }
    Ok(())
}

/// A clause that clause 1 proves, and its forgetting.
fn learn_and_forget(id: ClauseId) -> Outcome<[Frame; 2]> {
    let clause = Literal::list(&[1, 2, 3, 2_000])?;
    let learn = Frame::learn(id, &clause, &[ClauseId::new(1)?])?;
    Ok([learn, Frame::forget(id)])
}

fn micros(duration: Duration) -> f64 {
    duration.as_nanos() as f64 / 1_000.0
}

fn frame_cost(session: &mut Session) -> Outcome<f64> {
    let mut least = Duration::MAX;
    for _ in 0..TIMES {
        let id = session.next_id().ok_or("all ids are used")?;
        let [learn, forget] = learn_and_forget(id)?;
        let began = Instant::now();
        let answer = session.say(&learn);
        least = least.min(began.elapsed());
        answer.accepted()?;
        session.say(&forget).accepted()?;
    }
    Ok(micros(least))
}

fn line_cost(session: &mut Session) -> Outcome<f64> {
    let mut least = Duration::MAX;
    for _ in 0..TIMES / 10 {
        let mut id = session.next_id().ok_or("all ids are used")?;
        let mut lines = String::new();
        for _ in 0..LINES / 2 {
            learn_and_forget(id)?
                .iter()
                .for_each(|frame| lines += &frame.line());
            id = id.next().ok_or("all ids are used")?;
        }
        let began = Instant::now();
        session.give(lines.as_bytes());
        least = least.min(began.elapsed());
    }
    Ok(micros(least) / LINES as f64)
}

/// No frame at all: it is refused as soon as all is loaded.
fn loading_cost(session: &mut Session) -> f64 {
    let mut least = Duration::MAX;
    for _ in 0..TIMES {
        let began = Instant::now();
        session.say(&[]);
        least = least.min(began.elapsed());
    }
    micros(least)
}
