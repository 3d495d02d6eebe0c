//! Parts of the line input given over right and wrong tables, its end, and clauses read.

use super::History;
use crate::lent::buffers::{Buffers, Reader};
use crate::lent::input::long_line;
use crate::lent::judging::{judge_parts, Difference};
use crate::lent::judging_lines::{judge_end, judge_give};
use crate::lent::tables::Tables;
use crate::lines::{write_frame, LONGEST_ANSWER, MOST_DIGITS, SHORTEST_ANSWER};
use crate::random::Random;
use crate::terms::LONGEST_FRAME;

/// Makes buffers such as no call of the line input takes.
type Misfit = fn(&mut Buffers);

/// Each with its name.
pub const MISFITS: [(&str, Misfit); 9] = [
    ("out buffer of 0 bytes", |lent| lent.out.clear()),
    ("out buffer of 16 bytes", |lent| lent.out.truncate(16)),
    ("out buffer of 17 bytes", |lent| lent.out.truncate(17)),
    ("out buffer of 16,400 bytes", |lent| {
        lent.out.truncate(LONGEST_ANSWER - 1)
    }),
    ("frame buffer of 0 words", |lent| lent.frame.clear()),
    ("frame buffer of 4,095 words", |lent| {
        lent.frame.truncate(LONGEST_FRAME - 1)
    }),
    ("reader of 32,769 digits", |lent| {
        lent.reader.digits = MOST_DIGITS as u64 + 1
    }),
    ("reader of 2^32 digits", |lent| lent.reader.digits = 1 << 32),
    ("reader of 2^64 - 1 digits", |lent| {
        lent.reader.digits = u64::MAX
    }),
];

impl History<'_> {
    pub(super) fn line_turn(&mut self) -> Result<(), Difference> {
        match self.random.below(16) {
            0 | 1 => self.end(),
            2 => self.give_misfitting(),
            3 | 4 => self.give_over_wrong_tables(),
            5 => self.give_within_a_line(),
            6 | 7 => self.read_clauses(),
            _ => self.give_next(),
        }
    }

    /// The next part of the input; what is not taken of it comes again.
    fn give_next(&mut self) -> Result<(), Difference> {
        let part = self.next_part();
        let mut buffers = self.lent_buffers();
        let taken = self.give(&mut buffers, &part)?;
        self.input.take(taken);
        self.buffers = buffers;
        Ok(())
    }

    fn next_part(&mut self) -> Vec<u8> {
        self.input
            .refill(&self.state, &mut self.asker, &mut self.random);
        self.input.next_part(&mut self.random).to_vec()
    }

    /// The line that is begun, and room for answers that is full of any bytes.
    fn lent_buffers(&mut self) -> Buffers {
        let room = any_room(&mut self.random);
        Buffers {
            out: any_bytes(room, &mut self.random),
            ..self.buffers.clone()
        }
    }

    /// Gives a part over the tables, which go on as the call left them; how much of it was taken.
    fn give(&mut self, buffers: &mut Buffers, part: &[u8]) -> Result<usize, Difference> {
        let fed = judge_give(self.calls, &mut self.tables, buffers, part)?;
        self.tally.given(part, &fed);
        if let Some(state) = fed.state {
            self.state = state;
        }
        Ok(fed.taken)
    }

    fn give_misfitting(&mut self) -> Result<(), Difference> {
        let part = self.next_part();
        let mut buffers = self.lent_buffers();
        let (name, misfit) = MISFITS[self.random.below(MISFITS.len())];
        misfit(&mut buffers);
        self.tally.wrong("give", name);
        self.give(&mut buffers, &part).map(drop)
    }

    fn give_over_wrong_tables(&mut self) -> Result<(), Difference> {
        let part = self.next_part();
        let mut buffers = self.lent_buffers();
        if self.random.one_in(4) {
            buffers.reader.spoilt = any_spoilt(&mut self.random);
        }
        let Some(mut tables) = self.wrong_tables("give") else {
            return Ok(());
        };
        let fed = judge_give(self.calls, &mut tables, &mut buffers, &part)?;
        self.tally.given(&part, &fed);
        Ok(())
    }

    /// Another line than that of the history, begun somewhere else, or spoilt.
    fn give_within_a_line(&mut self) -> Result<(), Difference> {
        let line = self.any_line();
        let near_end = self.random.below(24).min(line.len() - 1);
        let at = match self.random.below(3) {
            0 => self.random.below(line.len()),
            _ => line.len() - 1 - near_end,
        };
        let mut buffers = self.lent_buffers();
        buffers.hold(&line[..at], &mut self.random);
        if self.random.one_in(3) {
            buffers.reader.spoilt = any_spoilt(&mut self.random);
        }
        let length = match self.random.below(3) {
            0 => self.random.below(line.len() - at),
            _ => line.len() - at,
        };
        self.give(&mut buffers, &line[at..][..length]).map(drop)
    }

    /// A closed line: a frame of the asker, or one of about the most digits.
    fn any_line(&mut self) -> Vec<u8> {
        if self.random.one_in(2) {
            return long_line(&mut self.random);
        }
        let frame = self.asker.next_frame(&self.state, &mut self.random);
        let mut line = Vec::new();
        write_frame(&frame, &mut line);
        line
    }

    /// The end of input, with the reader of the history or another; then another input may begin.
    fn end(&mut self) -> Result<(), Difference> {
        let reader = match self.random.below(2) {
            0 => any_reader(&mut self.random),
            _ => self.buffers.reader,
        };
        let rooms = [0, 1, 16, 17, 18, 40, LONGEST_ANSWER];
        let room = rooms[self.random.below(rooms.len())];
        let mut out = any_bytes(room, &mut self.random);
        if judge_end(self.calls, &reader, &mut out)? != 0 {
            let short = room < SHORTEST_ANSWER;
            let name = if short { "out buffer" } else { "reader" };
            self.tally.wrong("end", name);
        }
        self.tally.made("end");
        if self.random.one_in(2) {
            self.buffers.reader = Reader::default();
            self.input = Default::default();
        }
        Ok(())
    }

    /// Some clauses and witnesses of right or wrong tables.
    fn read_clauses(&mut self) -> Result<(), Difference> {
        let wrong = match self.random.below(2) {
            0 => self.wrong_tables("clause and witness"),
            _ => None,
        };
        let mut tables = wrong.unwrap_or_else(|| self.tables.clone());
        for _ in 0..self.random.between(1, 6) {
            let entry = any_index(&tables, &mut self.random);
            if self.random.one_in(4) {
                lay_anywhere(&mut tables, entry, &mut self.random);
            }
            judge_parts(self.calls, &tables, entry)?;
            self.tally.made("clause");
            self.tally.made("witness");
        }
        Ok(())
    }
}

/// The index of a held entry, of any, or of none.
fn any_index(tables: &Tables, random: &mut Random) -> usize {
    let lent = tables.entries.len();
    match random.below(8) {
        0 => lent + random.below(2),
        1 => [1 << 32, (1 << 32) + random.below(lent + 1), usize::MAX][random.below(3)],
        2 => random.below(lent + 1),
        _ => random.below((tables.carried.count as usize).clamp(1, lent.max(1))),
    }
}

/// The entry, if there is such, comes to name words near the pool's end, past it, or so far that
/// places wrap around.
fn lay_anywhere(tables: &mut Tables, entry: usize, random: &mut Random) {
    let words = tables.pool.len();
    let mut any = || match random.below(4) {
        0 => random.below(4) as u32,
        1 => (words + 2 - random.below(4).min(words)) as u32,
        2 => random.below(words + 1) as u32,
        _ => u32::MAX - random.below(2 * words + 4) as u32,
    };
    if let Some(entry) = tables.entries.get_mut(entry) {
        (entry.start, entry.length, entry.witness) = (any(), any(), any());
    }
}

/// Room for one longest answer at least, often so that it runs out right before or behind the
/// next one.
fn any_room(random: &mut Random) -> usize {
    let more = match random.below(8) {
        0 => 0,
        1 => 1,
        2 => SHORTEST_ANSWER - 1 + random.below(3),
        3 => SHORTEST_ANSWER * random.between(1, 5) - 1 + random.below(3),
        4 => random.below(600),
        5 => LONGEST_ANSWER - 1 + random.below(3),
        _ => random.below(3 * LONGEST_ANSWER),
    };
    LONGEST_ANSWER + more
}

fn any_bytes(length: usize, random: &mut Random) -> Vec<u8> {
    let words = (0..length.div_ceil(8)).flat_map(|_| random.draw().to_le_bytes());
    words.take(length).collect()
}

/// What says that a line is spoilt; some are 0 when cut to fewer bits.
fn any_spoilt(random: &mut Random) -> u64 {
    [1, 2, 256, 1 << 32, u64::MAX][random.below(5)]
}

fn any_reader(random: &mut Random) -> Reader {
    let most = MOST_DIGITS as u64;
    let digits = [0, 0, 0, 1, 8, most, most + 1, 1 << 32, u64::MAX];
    Reader {
        digits: digits[random.below(digits.len())],
        word: random.draw(),
        spoilt: match random.below(3) {
            0 => any_spoilt(random),
            _ => 0,
        },
    }
}
