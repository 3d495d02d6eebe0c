//! The calls of a host, whoever implements them.

use super::buffers::{Buffers, Given, Reader};
use super::tables::Tables;

/// The numbers of an answer: code and detail.
pub type Numbers = (u64, u64);

pub trait Calls {
    /// Opens for variables 1 to `vars`; of the tables only their sizes matter.
    fn open(&mut self, vars: u32, tables: &mut Tables) -> Numbers;

    /// Judges a frame over the tables, and writes what it does to them and to the buffer.
    fn step(&mut self, tables: &mut Tables, frame: &[i32], model: &mut [u64]) -> Numbers;

    /// Takes as much of a part of the input as there is room for answers to, and answers each
    /// line that it closes.
    fn give(&mut self, tables: &mut Tables, buffers: &mut Buffers, part: &[u8])
        -> (Numbers, Given);

    /// The input has ended; hands back how many bytes are written, too.
    fn end(&mut self, reader: &Reader, out: &mut [u8]) -> (Numbers, u64);

    /// The literals of the clause that an entry holds, where they lie.
    fn clause<'t>(&mut self, tables: &'t Tables, entry: usize) -> &'t [i32];

    /// The literals of its witness, where they lie.
    fn witness<'t>(&mut self, tables: &'t Tables, entry: usize) -> &'t [i32];
}
