//! What giving a part of the line input over lent tables must come to, and what its end.

use super::buffers::{essence, Buffers, Reader};
use super::expected::{is_change, is_lendable};
use super::reading::state_of;
use super::tables::Tables;
use crate::answer::{Answer, Refusal};
use crate::checker::{Checker, Checks};
use crate::histogram::{lines_of, Asked};
use crate::lines::{write_answer, Lines, LONGEST_ANSWER, SHORTEST_ANSWER};
use crate::state::State;
use crate::terms::LONGEST_FRAME;

/// What a part comes to. The detail is always 0.
#[derive(Clone, Debug, Default, PartialEq, Eq)]
pub struct Fed {
    pub code: u32,
    pub taken: usize,
    pub answers: Vec<u8>,
    /// The state that the tables spell afterwards; none where every word of them stays.
    pub state: Option<State>,
    /// The essence of the line held afterwards; none where every word of reader and frame buffer
    /// stays.
    pub line: Option<Vec<u8>>,
    /// What each line closed asked for, with the code that it got.
    pub closed: Vec<(Asked, u32)>,
}

/// A checker that keeps what was asked of it.
struct Watched {
    checker: Checker,
    changed: bool,
    asked: Vec<(Asked, u32)>,
}

impl Checks for Watched {
    fn step(&mut self, frame: &[i32]) -> Answer {
        let answer = self.checker.step(frame);
        self.changed |= is_change(frame, &answer);
        self.asked.push((Asked::of(frame), answer.code));
        answer
    }

    fn state(&self) -> &State {
        self.checker.state()
    }
}

/// Code 1 before all else: no state, lent sizes out of range, a reader with too many digits, a
/// frame buffer too short for the longest frame or a buffer too short for the longest answer.
pub fn expect_give(tables: &Tables, buffers: &Buffers, part: &[u8]) -> Fed {
    let state = state_of(&tables.entries, &tables.pool, &tables.carried);
    let room = buffers.out.len();
    let lent =
        is_lendable(tables) && buffers.frame.len() >= LONGEST_FRAME && room >= LONGEST_ANSWER;
    match (state, buffers.line()) {
        (Some(state), Some(line)) if lent => feed(state, line, part, room),
        _ => Fed {
            code: Refusal::Sizes.code(),
            ..Fed::default()
        },
    }
}

/// Feeds bytes as long as there is room for one more longest answer before each of them.
fn feed(state: State, line: Vec<u8>, part: &[u8], room: usize) -> Fed {
    let watched = Watched {
        checker: Checker::with_state(state),
        changed: false,
        asked: Vec::new(),
    };
    let mut lines = Lines::within(watched, line);
    let (mut taken, mut answers) = (0, Vec::new());
    while taken < part.len() && answers.len() + LONGEST_ANSWER <= room {
        let byte = &part[taken..=taken];
        lines
            .push(byte, &mut answers)
            .expect("a vector takes every byte");
        taken += 1;
    }
    let Watched { changed, asked, .. } = lines.checker();
    Fed {
        code: 0,
        taken,
        state: changed.then(|| lines.checker().state().clone()),
        line: Some(essence(lines.unclosed()).to_vec()),
        closed: with_bad_lines(asked, &answers),
        answers,
    }
}

/// What was asked, and those lines that no checker was asked.
fn with_bad_lines(asked: &[(Asked, u32)], answers: &[u8]) -> Vec<(Asked, u32)> {
    let mut closed = asked.to_vec();
    let refused = (Asked::BadLine, Refusal::Counts.code());
    closed.resize(lines_of(answers).count(), refused);
    closed
}

/// Code and answer of the end of input: a line "unclosed at the end, is refused 2". Code 1 for a
/// reader with too many digits, or a buffer too short for that answer.
pub fn expect_end(reader: &Reader, room: usize) -> (u32, Vec<u8>) {
    let mut answer = Vec::new();
    match reader.has_begun().filter(|_| room >= SHORTEST_ANSWER) {
        None => return (Refusal::Sizes.code(), answer),
        Some(true) => write_answer(&Refusal::Counts.into(), &mut answer),
        Some(false) => {}
    }
    (0, answer)
}
