//! Frames said over right and wrong tables.

use super::History;
use crate::lent::judging::{judge_step, Difference};
use crate::lent::tables::{Tables, MODEL_WORDS};

/// Numbers of words that no model buffer has.
const WRONG_BUFFERS: [(&str, usize); 4] = [
    ("buffer of 0 words", 0),
    ("buffer of 31 words", 31),
    ("buffer of 33 words", 33),
    ("buffer of 64 words", 64),
];

impl History<'_> {
    pub(super) fn frame_turn(&mut self) -> Result<(), Difference> {
        let frame = self.asker.next_frame(&self.state, &mut self.random);
        match self.random.below(8) {
            0..=2 => match self.wrong_tables("step") {
                Some(tables) => self.say_over(tables, &frame),
                None => Ok(()),
            },
            3 if self.random.one_in(2) => {
                let (name, words) = WRONG_BUFFERS[self.random.below(WRONG_BUFFERS.len())];
                self.tally.wrong("step", name);
                self.say(&frame, words)
            }
            _ => self.say(&frame, MODEL_WORDS),
        }
    }

    /// A buffer of any words.
    fn model(&mut self, words: usize) -> Vec<u64> {
        (0..words).map(|_| self.random.draw()).collect()
    }

    /// Says a frame over the tables, which go on as the call left them.
    fn say(&mut self, frame: &[i32], words: usize) -> Result<(), Difference> {
        let mut model = self.model(words);
        let expected = judge_step(self.calls, &mut self.tables, frame, &mut model)?;
        self.tally.said(frame, &expected);
        if let Some(state) = expected.state {
            self.state = state;
        }
        Ok(())
    }

    /// Says a frame over other tables than those of the history.
    fn say_over(&mut self, mut tables: Tables, frame: &[i32]) -> Result<(), Difference> {
        let mut model = self.model(MODEL_WORDS);
        let expected = judge_step(self.calls, &mut tables, frame, &mut model)?;
        self.tally.said(frame, &expected);
        Ok(())
    }
}
