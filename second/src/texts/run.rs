//! Generated texts read by another implementation, each compared.

use super::histogram::Histogram;
use super::{Class, CLASSES};
use crate::dimacs::{read, Declared, Fault, Frames, Kind};
use crate::words::tell_frame;
use std::fmt;
use std::ops::Range;

/// Reading texts, whoever implements it.
pub trait Reads {
    /// V and the number of clauses of a sound text, or number and position of a faulty one's fault.
    fn judge(&mut self, text: &[u8]) -> Result<(u64, u64), (u64, u64)>;

    /// The words of the frames; none of a faulty text.
    fn frames(&mut self, text: &[u8]) -> Vec<Vec<i32>>;
}

/// Where another reader differs, in words.
#[derive(Clone, Debug, PartialEq, Eq)]
pub struct Difference {
    pub class: &'static str,
    pub seed: u64,
    pub expected: String,
    pub found: String,
}

impl fmt::Display for Difference {
    fn fmt(&self, out: &mut fmt::Formatter<'_>) -> fmt::Result {
        writeln!(out, "class    {}, seed {}", self.class, self.seed)?;
        write!(out, "expected {}\nfound    {}", self.expected, self.found)
    }
}

/// Has a text of every class read for each seed: what was tried, or the first difference.
pub fn run(reads: &mut dyn Reads, seeds: Range<u64>) -> Result<Histogram, Difference> {
    let mut tally = Histogram::default();
    for seed in seeds {
        run_seed(reads, seed, &mut tally)?;
    }
    Ok(tally)
}

/// Has the texts of one seed read.
pub fn run_seed(reads: &mut dyn Reads, seed: u64, tally: &mut Histogram) -> Result<(), Difference> {
    for class in &CLASSES {
        run_text(reads, class, seed, tally)?;
    }
    Ok(())
}

/// Has the text of a class and seed read.
pub fn run_text(
    reads: &mut dyn Reads,
    class: &'static Class,
    seed: u64,
    tally: &mut Histogram,
) -> Result<(), Difference> {
    let text = class.text(seed);
    let expected = read(&text);
    let found = reads.judge(&text);
    let frames = reads.frames(&text);
    let number = expected
        .as_ref()
        .err()
        .map_or(0, |fault| fault.kind.number());
    tally.count(class.name, number);
    match differs(&expected, found, &frames) {
        Some((expected, found)) => Err(Difference {
            class: class.name,
            seed,
            expected,
            found,
        }),
        None => Ok(()),
    }
}

/// What a reader says of a text.
type Judged = Result<(u64, u64), (u64, u64)>;

/// What was expected and what was found, if they differ.
fn differs(
    expected: &Result<(Declared, Frames), Fault>,
    found: Judged,
    frames: &[Vec<i32>],
) -> Option<(String, String)> {
    let (judged, expected_frames) = match expected {
        Ok((declared, frames)) => (
            Ok((declared.vars as u64, declared.clauses as u64)),
            frames.iter().collect(),
        ),
        Err(fault) => (
            Err((fault.kind.number().into(), fault.position as u64)),
            Vec::new(),
        ),
    };
    if judged != found {
        return Some((tell_judged(judged), tell_judged(found)));
    }
    let length = frames.len().max(expected_frames.len());
    let pairs = (0..length).map(|at| (expected_frames.get(at).copied(), frames.get(at)));
    let mut others = pairs.filter(|(one, other)| *one != other.map(Vec::as_slice));
    let (one, other) = others.next()?;
    let told = |frame: Option<&[i32]>| match frame {
        Some(frame) => tell_frame(frame),
        None => "no frame".to_string(),
    };
    Some((told(one), told(other.map(Vec::as_slice))))
}

fn tell_judged(judged: Judged) -> String {
    match judged {
        Ok((vars, clauses)) => format!("sound, V {vars}, {clauses} clauses"),
        Err((number, position)) => tell_fault(number, position),
    }
}

/// Number and position in words.
pub fn tell_fault(number: u64, position: u64) -> String {
    let kind = u32::try_from(number).ok().and_then(Kind::of);
    match kind {
        Some(kind) => format!("{kind} at byte {position}"),
        None => format!("{number} (no number of request 1) at byte {position}"),
    }
}
