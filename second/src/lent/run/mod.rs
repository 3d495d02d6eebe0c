//! Histories of calls over lent tables, each call compared.

mod frames;
mod lines;
mod tally;
mod wrong;

use super::asks::Asker;
use super::buffers::{Buffers, Reader};
use super::calls::Calls;
use super::input::Input;
use super::judging::{judge_open, Difference};
use super::laying::lay;
use super::states::{any_empty, any_state, reached};
use super::tables::Tables;
use crate::random::Random;
use crate::state::State;
use crate::terms::{LONGEST_FRAME, MOST_VARIABLES};

pub use lines::MISFITS;
pub use tally::{Tally, OUTCOMES};

/// One history: tables to begin with, then frames and parts of lines, some over wrong tables.
struct History<'c> {
    calls: &'c mut dyn Calls,
    random: Random,
    tables: Tables,
    /// What the tables spell.
    state: State,
    asker: Asker,
    /// The line that is begun; a buffer for answers is lent anew to each call.
    buffers: Buffers,
    input: Input,
    tally: &'c mut Tally,
}

/// Makes the calls of the history of a seed.
pub fn run(calls: &mut dyn Calls, seed: u64, tally: &mut Tally) -> Result<(), Difference> {
    let mut random = Random::new(seed);
    let state = match random.below(3) {
        0 => any_state(&mut random),
        1 => reached(&mut random),
        _ => any_empty(&mut random),
    };
    let mut history = History {
        calls,
        tables: lay(&state, &mut random),
        asker: Asker::new(&state, &mut random),
        buffers: any_buffers(&mut random),
        input: Input::default(),
        random,
        state,
        tally,
    };
    history.tell()
}

/// A reader of nothing, and a frame buffer of any words: as many as needed, or some more.
fn any_buffers(random: &mut Random) -> Buffers {
    let more = [0, 1, 50][random.below(3)];
    Buffers {
        reader: Reader::default(),
        frame: (0..LONGEST_FRAME + more)
            .map(|_| random.draw() as i32)
            .collect(),
        out: Vec::new(),
    }
}

impl History<'_> {
    fn tell(&mut self) -> Result<(), Difference> {
        if self.state.highest == 0 {
            self.open()?;
        }
        for _ in 0..self.random.between(12, 60) {
            match self.random.below(3) {
                0 => self.line_turn()?,
                _ => self.frame_turn()?,
            }
        }
        Ok(())
    }

    /// Opens over tables that hold anything, after openings that are refused.
    fn open(&mut self) -> Result<(), Difference> {
        for name in wrong::SIZES {
            let mut tables = self.resized(name);
            self.tally.wrong("open", name);
            self.open_over(self.state.vars as u32, &mut tables)?;
        }
        let mut tables = self.tables.clone();
        for wrong in [0, MOST_VARIABLES as u32 + 1, 1 << 31, u32::MAX] {
            self.open_over(wrong, &mut tables)?;
        }
        tables.carried.stack = tables.carried.stack.map(|_| self.random.draw() as u32);
        for entry in &mut tables.entries {
            entry.place = self.random.draw() as u32;
        }
        tables.carried.count = self.random.draw() as u32;
        self.open_over(self.state.vars as u32, &mut tables)?;
        self.tables = tables;
        Ok(())
    }

    fn open_over(&mut self, vars: u32, tables: &mut Tables) -> Result<(), Difference> {
        judge_open(self.calls, vars, tables)?;
        self.tally.made("open");
        Ok(())
    }
}
