//! Proofs as LRAT text, of any bytes: checked against rules as DIMACS text, which have no model
//! where a proof is accepted. They have tables of their own and nothing to do with frames.
//!
//! ```
//! use zahrubel::{lrat, Code};
//!
//! # fn main() -> Result<(), Box<dyn std::error::Error>> {
//! let rules = b"p cnf 2 4\n1 2 0\n1 -2 0\n-1 2 0\n-1 -2 0\n";
//! lrat::check(rules, b"5 1 0 1 2 0\n6 0 5 3 4 0\n")?;
//! let refused = lrat::check(rules, b"5 1 0 1 2 0\n6 0 5 4 0\n").unwrap_err();
//! assert_eq!(refused.0.meaning(), Some(Code::FailedProof));
//! assert_eq!(refused.0.detail, 2);
//! # Ok(())
//! # }
//! ```

use crate::{linked, Answer, Carried, Entry, Refused, Tables};

/// Checks a proof whole, in tables of the largest size: accepted, or the first fault of the rules
/// with its byte, or what the proof is refused for with its line.
pub fn check(rules: &[u8], proof: &[u8]) -> Result<(), Refused> {
    let mut tables = Tables::largest();
    let Tables {
        entries,
        pool,
        carried,
    } = &mut tables;
    check_in(entries, pool, carried, rules, proof).accepted()?;
    Ok(())
}

/// The call that checks a proof whole. Of the entries only their number matters. Rules without
/// fault leave the tables opened empty, whatever the answer; else nothing is written.
pub fn check_in(
    entries: &[Entry],
    pool: &mut [i32],
    carried: &mut Carried,
    rules: &[u8],
    proof: &[u8],
) -> Answer {
    // SAFETY: each pointer comes from a reference, with that reference's length; those that can
    // be written are exclusive.
    unsafe {
        linked::zahrubel_lrat_check(
            entries.as_ptr(),
            entries.len(),
            pool.as_mut_ptr(),
            pool.len(),
            carried,
            rules.as_ptr(),
            rules.len(),
            proof.as_ptr(),
            proof.len(),
        )
    }
}

/// What is read of a proof that is given in parts. An opening sets it. Any bits may stand in it:
/// what is no reading is refused 1. A reading keeps at most 256 literals, each of a variable from 1
/// to 2,048, and notes no number below 31.
#[repr(C)]
#[derive(Clone, Debug, PartialEq, Eq)]
pub struct Proof {
    /// Lines closed so far; once the answer is known, its line.
    pub lines: u64,
    pub value: u64,
    pub kind: u32,
    pub minus: u32,
    pub phase: u32,
    pub noted: u32,
    pub id: u32,
    pub count: u32,
    pub proof: u32,
    /// Not 0: the answer is known, and no further byte is read.
    pub over: u32,
    /// Then: its code.
    pub code: u32,
    pub spare: u32,
    pub literals: [i32; 256],
    pub plus: [u64; 32],
    pub minuses: [u64; 32],
}

impl Default for Proof {
    /// No reading: an opening makes it one.
    fn default() -> Proof {
        Proof {
            lines: 0,
            value: 0,
            kind: 0,
            minus: 0,
            phase: 0,
            noted: 0,
            id: 0,
            count: 0,
            proof: 0,
            over: 0,
            code: 0,
            spare: 0,
            literals: [0; 256],
            plus: [0; 32],
            minuses: [0; 32],
        }
    }
}

/// The call that opens tables for a proof in parts: they hold the rules then, and nothing of a
/// proof is read. Without room for the rules they are opened empty; by any other refusal nothing is
/// written.
pub fn open_in(
    entries: &mut [Entry],
    pool: &mut [i32],
    carried: &mut Carried,
    proof: &mut Proof,
    rules: &[u8],
) -> Answer {
    // SAFETY: as above.
    unsafe {
        linked::zahrubel_lrat_open(
            entries.as_mut_ptr(),
            entries.len(),
            pool.as_mut_ptr(),
            pool.len(),
            carried,
            proof,
            rules.as_ptr(),
            rules.len(),
        )
    }
}

/// The call that gives a part of a proof, the last one or not. Accepted is a part where nothing is
/// refused so far, and the proof where `over` says so. Once it is over every call tells the same
/// and writes nothing.
pub fn give_in(
    entries: &mut [Entry],
    pool: &mut [i32],
    carried: &mut Carried,
    proof: &mut Proof,
    part: &[u8],
    last: bool,
) -> Answer {
    // SAFETY: as above.
    unsafe {
        linked::zahrubel_lrat_give(
            entries.as_mut_ptr(),
            entries.len(),
            pool.as_mut_ptr(),
            pool.len(),
            carried,
            proof,
            part.as_ptr(),
            part.len(),
            last.into(),
        )
    }
}

/// A proof that is checked as its parts come, of any bytes, in memory that does not grow with it.
///
/// ```
/// use zahrubel::lrat::Checking;
///
/// # fn main() -> Result<(), Box<dyn std::error::Error>> {
/// let mut checking = Checking::of_rules(b"p cnf 2 4\n1 2 0\n1 -2 0\n-1 2 0\n-1 -2 0\n")?;
/// checking.give(b"5 1 0 1 2 0\n6 0")?;
/// assert!(!checking.is_over());
/// checking.give(b" 5 3 4 0\n")?;
/// assert!(checking.is_over());
/// checking.end()?;
/// # Ok(())
/// # }
/// ```
#[derive(Clone, Debug)]
pub struct Checking {
    tables: Tables,
    proof: Box<Proof>,
}

impl Checking {
    /// Opens tables of the largest size for the rules of a text, or hands back why not.
    pub fn of_rules(rules: &[u8]) -> Result<Checking, Refused> {
        let mut tables = Tables::largest();
        let mut proof = Box::default();
        let Tables {
            entries,
            pool,
            carried,
        } = &mut tables;
        open_in(entries, pool, carried, &mut proof, rules).accepted()?;
        Ok(Checking { tables, proof })
    }

    /// Gives a part, some bytes or none; handed back is a refusal, as soon as it is known. Behind
    /// the end nothing is read, and the answer stays.
    pub fn give(&mut self, part: &[u8]) -> Result<(), Refused> {
        self.read(part, false)
    }

    /// Ends the proof: accepted, or refused.
    pub fn end(&mut self) -> Result<(), Refused> {
        self.read(&[], true)
    }

    /// Whether the answer is known: no more parts are needed.
    pub fn is_over(&self) -> bool {
        self.proof.over != 0
    }

    fn read(&mut self, part: &[u8], last: bool) -> Result<(), Refused> {
        let Tables {
            entries,
            pool,
            carried,
        } = &mut self.tables;
        give_in(entries, pool, carried, &mut self.proof, part, last).accepted()?;
        Ok(())
    }
}
