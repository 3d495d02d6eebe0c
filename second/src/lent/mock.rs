//! The calls made from the second implementation's own functions: a stand-in to try the run on.

use super::buffers::{Buffers, Given, Reader};
use super::calls::{Calls, Numbers};
use super::expected::{expect_open, expect_step, Expected};
use super::giving::{expect_end, expect_give};
use super::laying::lay;
use super::reading::{clause_part, witness_part};
use super::tables::Tables;
use crate::random::Random;

/// Lays the tables anew after each accepted change, so that nothing stays where it was, and writes
/// any words wherever a reader and a frame buffer say nothing.
pub struct Mock {
    random: Random,
}

impl Mock {
    pub fn new(seed: u64) -> Mock {
        Mock {
            random: Random::new(seed),
        }
    }

    fn write(&mut self, expected: &Expected, tables: &mut Tables) -> Numbers {
        if let Some(state) = &expected.state {
            *tables = lay(state, &mut self.random);
        }
        (expected.code.into(), expected.detail.into())
    }
}

impl Calls for Mock {
    fn open(&mut self, vars: u32, tables: &mut Tables) -> Numbers {
        let expected = expect_open(vars, tables);
        self.write(&expected, tables)
    }

    fn step(&mut self, tables: &mut Tables, frame: &[i32], model: &mut [u64]) -> Numbers {
        let expected = expect_step(tables, frame, model);
        if let Some(mended) = &expected.model {
            model.copy_from_slice(mended);
        }
        self.write(&expected, tables)
    }

    fn give(
        &mut self,
        tables: &mut Tables,
        buffers: &mut Buffers,
        part: &[u8],
    ) -> (Numbers, Given) {
        let expected = expect_give(tables, buffers, part);
        if let Some(state) = &expected.state {
            *tables = lay(state, &mut self.random);
        }
        if let Some(line) = &expected.line {
            buffers.hold(line, &mut self.random);
        }
        let written = expected.answers.len();
        buffers.out[..written].copy_from_slice(&expected.answers);
        let given = Given {
            taken: expected.taken as u64,
            written: written as u64,
        };
        ((expected.code.into(), 0), given)
    }

    fn end(&mut self, reader: &Reader, out: &mut [u8]) -> (Numbers, u64) {
        let (code, answer) = expect_end(reader, out.len());
        out[..answer.len()].copy_from_slice(&answer);
        ((code.into(), 0), answer.len() as u64)
    }

    fn clause<'t>(&mut self, tables: &'t Tables, entry: usize) -> &'t [i32] {
        &tables.pool[clause_part(&tables.entries, tables.pool.len(), entry)]
    }

    fn witness<'t>(&mut self, tables: &'t Tables, entry: usize) -> &'t [i32] {
        &tables.pool[witness_part(&tables.entries, tables.pool.len(), entry)]
    }
}
