//! The proved checker for Rust hosts: the calls of `include/zahrubel.h`, safe.
//!
//! The tables are the host's own; any bits may stand in them. The calls are safe because what C
//! asks of a caller is what references are: aligned, as long as they say, and apart from each
//! other where they can be written.
//!
//! A host that wants no more than to say frames opens a `Session` and says it each `Frame`:
//!
//! ```
//! use zahrubel::{ClauseId, Frame, Session, Variable};
//!
//! # fn main() -> Result<(), Box<dyn std::error::Error>> {
//! let mut session = Session::open(6, 16, 64)?;
//! let rule = ClauseId::new(3)?;
//! let (avx2, avx512f) = (Variable::new(4)?, Variable::new(5)?);
//! session.say(&Frame::add(rule, &[-avx512f, avx2.positive()])?).accepted()?;
//! session.say(&Frame::weaken(rule, &[-avx512f]).frame()?).accepted()?;
//! let changed = session.say(&Frame::sat(&[-avx2], &[avx512f])?).accepted()?;
//! assert_eq!((changed, session.model().count()), (1, 0));
//! # Ok(())
//! # }
//! ```

mod answers;
pub mod dimacs;
mod errors;
mod frames;
mod lines;
mod linked;
pub mod lrat;
mod replies;
mod session;
mod terms;
mod told;

pub use answers::{Answer, Code};
pub use errors::{FrameError, Refused};
pub use frames::{Frame, Operation, Weaken};
pub use lines::{end, give, Given, Reader, LONGEST_ANSWER, LONGEST_FRAME, SHORTEST_ANSWER};
pub use replies::Reply;
pub use session::{Held, Place, Session, Tables};
pub use terms::{ClauseId, Literal, Variable};

/// What is lent at most.
pub const MOST_ENTRIES: usize = 1_024;
pub const MOST_WORDS: usize = 8_192;
pub const MOST_VARIABLES: u32 = 2_048;
/// A model buffer always has this many words.
pub const MODEL_WORDS: usize = 32;
/// A clause, a witness or a list of assumptions has at most this many literals.
pub const MOST_LITERALS: usize = 256;

/// The places of clauses; any other number is no state.
pub const IRREDUNDANT: u32 = 0;
pub const LEARNED: u32 = 1;
pub const STACKED: u32 = 2;

/// The entry of a clause: its literals are `length` words of the pool from `start` on; the
/// `witness` literals of a stacked clause follow them.
#[repr(C)]
#[derive(Clone, Copy, Debug, Default, PartialEq, Eq)]
pub struct Entry {
    pub id: u32,
    pub place: u32,
    pub start: u32,
    pub length: u32,
    pub witness: u32,
}

/// What goes from call to call beside the tables: V; the highest id accepted; how many entries
/// are held, at the front of the table; how many literals and witness literals they have; how
/// many ids are on the stack, which `stack` lists from bottom to top.
#[repr(C)]
#[derive(Clone, Debug, PartialEq, Eq)]
pub struct Carried {
    pub vars: u32,
    pub highest: u32,
    pub count: u32,
    pub words: u32,
    pub depth: u32,
    pub stack: [u32; MOST_ENTRIES],
}

impl Default for Carried {
    /// No state: V is 0. An opening makes it one.
    fn default() -> Carried {
        Carried {
            vars: 0,
            highest: 0,
            count: 0,
            words: 0,
            depth: 0,
            stack: [0; MOST_ENTRIES],
        }
    }
}

/// Opens for the variables 1 to `vars`. Of the tables only their sizes matter; a refused opening
/// leaves what is carried.
pub fn open(vars: u32, entries: &[Entry], pool: &[i32], carried: &mut Carried) -> Answer {
    // SAFETY: each pointer comes from a reference, with that reference's length.
    unsafe {
        linked::zahrubel_open(
            vars,
            entries.as_ptr(),
            entries.len(),
            pool.as_ptr(),
            pool.len(),
            carried,
        )
    }
}

/// Judges one frame and, if it is accepted, does what it says. A refusal writes nothing.
pub fn step(
    entries: &mut [Entry],
    pool: &mut [i32],
    carried: &mut Carried,
    frame: &[i32],
    model: &mut [u64],
) -> Answer {
    // SAFETY: each pointer comes from a reference, with that reference's length; those that can
    // be written are exclusive.
    unsafe {
        linked::zahrubel_step(
            entries.as_mut_ptr(),
            entries.len(),
            pool.as_mut_ptr(),
            pool.len(),
            carried,
            frame.as_ptr(),
            frame.len(),
            model.as_mut_ptr(),
            model.len(),
        )
    }
}

/// The literals of the clause that an entry holds: a part of the pool, no copy. Past the table's
/// end there is no word, past the pool's end what there is of it.
pub fn clause<'p>(entries: &[Entry], pool: &'p [i32], entry: usize) -> &'p [i32] {
    // SAFETY: each pointer comes from a reference, with that reference's length.
    let part = unsafe {
        linked::zahrubel_clause(
            entries.as_ptr(),
            entries.len(),
            pool.as_ptr(),
            pool.len(),
            entry,
        )
    };
    part_of(pool, part)
}

/// The literals of its witness, in the same way.
pub fn witness<'p>(entries: &[Entry], pool: &'p [i32], entry: usize) -> &'p [i32] {
    // SAFETY: as for a clause.
    let part = unsafe {
        linked::zahrubel_witness(
            entries.as_ptr(),
            entries.len(),
            pool.as_ptr(),
            pool.len(),
            entry,
        )
    };
    part_of(pool, part)
}

fn part_of(pool: &[i32], part: linked::Part) -> &[i32] {
    let start = part.start as usize;
    &pool[start..start + part.length as usize]
}
