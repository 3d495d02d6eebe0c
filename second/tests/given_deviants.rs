//! A run of calls finds who gives lines or reads clauses in another way.

mod common;

use common::{entry, fresh_buffers};
use second::frames::{add, sat, unsat};
use second::lent::buffers::{Buffers, Given, Reader};
use second::lent::calls::{Calls, Numbers};
use second::lent::giving::expect_give;
use second::lent::judging_lines::judge_give;
use second::lent::mock::Mock;
use second::lent::run::{run, Tally};
use second::lent::tables::{Carried, Entry, Tables};
use second::lines::{write_frame, LONGEST_ANSWER};

/// A part given: what it was given over, and what it came to, which a fault may change.
struct Call<'c> {
    before: Tables,
    lent: Buffers,
    part: &'c [u8],
    tables: &'c mut Tables,
    buffers: &'c mut Buffers,
    numbers: Numbers,
    given: Given,
}

impl Call<'_> {
    fn is_accepted(&self) -> bool {
        self.numbers.0 == 0
    }

    /// Gives another part in place of this one, with so many bytes more room for answers.
    fn again(&mut self, part: &[u8], more: usize) {
        let room = self.lent.out.len();
        *self.tables = self.before.clone();
        *self.buffers = self.lent.clone();
        self.buffers.out.resize(room + more, 0);
        (self.numbers, self.given) = Mock::new(1).give(self.tables, self.buffers, part);
        self.buffers.out.truncate(room);
    }
}

type Fault = fn(&mut Call<'_>);
type End = fn(&Reader, &mut [u8]) -> (Numbers, u64);
type Part = for<'t> fn(&'t Tables, usize) -> &'t [i32];

/// A mock with faults.
struct Deviant {
    mock: Mock,
    give: Fault,
    end: End,
    clause: Part,
    witness: Part,
}

impl Deviant {
    /// One that does not deviate.
    fn right(seed: u64) -> Deviant {
        Deviant {
            mock: Mock::new(seed),
            give: |_| {},
            end: |reader, out| Mock::new(0).end(reader, out),
            clause: |tables, at| Mock::new(0).clause(tables, at),
            witness: |tables, at| Mock::new(0).witness(tables, at),
        }
    }
}

impl Calls for Deviant {
    fn open(&mut self, vars: u32, tables: &mut Tables) -> Numbers {
        self.mock.open(vars, tables)
    }

    fn step(&mut self, tables: &mut Tables, frame: &[i32], model: &mut [u64]) -> Numbers {
        self.mock.step(tables, frame, model)
    }

    fn give(
        &mut self,
        tables: &mut Tables,
        buffers: &mut Buffers,
        part: &[u8],
    ) -> (Numbers, Given) {
        let (before, lent) = (tables.clone(), buffers.clone());
        let (numbers, given) = self.mock.give(tables, buffers, part);
        let mut call = Call {
            before,
            lent,
            part,
            tables,
            buffers,
            numbers,
            given,
        };
        (self.give)(&mut call);
        (call.numbers, call.given)
    }

    fn end(&mut self, reader: &Reader, out: &mut [u8]) -> (Numbers, u64) {
        (self.end)(reader, out)
    }

    fn clause<'t>(&mut self, tables: &'t Tables, entry: usize) -> &'t [i32] {
        (self.clause)(tables, entry)
    }

    fn witness<'t>(&mut self, tables: &'t Tables, entry: usize) -> &'t [i32] {
        (self.witness)(tables, entry)
    }
}

/// Fails unless a deviant is found in so many of the first histories.
fn is_found(least: usize, what: &str, deviate: impl Fn(&mut Deviant)) {
    let differs = |seed: &u64| {
        let mut deviant = Deviant::right(*seed);
        deviate(&mut deviant);
        run(&mut deviant, *seed, &mut Tally::default()).is_err()
    };
    let found = (0..400).filter(differs).take(least).count();
    assert_eq!(found, least, "{what}: not found in enough histories");
}

fn is_found_giving(least: usize, what: &str, fault: Fault) {
    is_found(least, what, |deviant| deviant.give = fault);
}

// ---- tables written without an accepted change

/// Rows by rising id, as a checker may have them for itself.
fn arranged(call: &mut Call<'_>) {
    if call.is_accepted() {
        let count = call.tables.carried.count as usize;
        call.tables.entries[..count].sort_by_key(|entry| entry.id);
    }
}

/// Three clauses by falling id; the first, which is empty, starts past the pool.
fn falling() -> Tables {
    let rows = [
        [3, 0, 77, 0, 0],
        [2, 0, 1, 1, 0],
        [1, 0, 0, 1, 0],
        [9, 9, 9, 9, 9],
    ];
    Tables {
        entries: rows.map(entry).to_vec(),
        pool: vec![1, 2, 0, 0],
        carried: Carried {
            vars: 4,
            highest: 3,
            count: 3,
            words: 2,
            depth: 0,
            stack: [0; 1_024],
        },
    }
}

/// What the judge finds when a part is given over these tables, if anything.
fn found_over_falling(fault: Fault, part: &[u8]) -> Option<String> {
    let (mut tables, mut lent) = (falling(), fresh_buffers(20_000));
    let mut deviant = Deviant::right(1);
    deviant.give = fault;
    let judged = judge_give(&mut deviant, &mut tables, &mut lent, part);
    judged.err().map(|difference| difference.found)
}

#[test]
fn rows_stay_where_no_change_is_accepted() {
    let mut questions = Vec::new();
    write_frame(&sat(&[], &[]), &mut questions);
    write_frame(&unsat(&[1, -1], &[]), &mut questions);
    let unchanging: [&[u8]; 4] = [b"", b"\n", b"00000001", &questions];
    for part in unchanging {
        assert_eq!(found_over_falling(|_| {}, part), None);
        let found = found_over_falling(arranged, part);
        assert_eq!(found.as_deref(), Some("a word of the tables changed"));
    }
    // Where a change is accepted, rows may lie in any order.
    let mut change = Vec::new();
    write_frame(&add(4, &[3]), &mut change);
    assert_eq!(found_over_falling(arranged, &change), None);
}

#[test]
fn tables_written_without_a_change_are_found() {
    is_found_giving(60, "arranged rows", arranged);
    is_found_giving(30, "arranged rows after no byte", |call| {
        if call.part.is_empty() {
            arranged(call);
        }
    });
    is_found_giving(10, "empty clauses moved", |call| {
        let held = call.tables.carried.count as usize;
        let accepted = call.is_accepted();
        for entry in call.tables.entries.iter_mut().take(held) {
            if accepted && entry.words() == 0 {
                entry.start = 0;
            }
        }
    });
    is_found_giving(60, "stack cleared behind its end", |call| {
        let depth = call.tables.carried.depth as usize;
        if let (true, Some(behind)) = (
            call.is_accepted(),
            call.tables.carried.stack.get_mut(depth..),
        ) {
            behind.fill(0);
        }
    });
    is_found_giving(20, "pool cleared", |call| {
        if call.is_accepted() && call.tables.carried.words == 0 {
            call.tables.pool.fill(0);
        }
    });
}

// ---- how far a part is taken

#[test]
fn another_number_of_bytes_taken_is_found() {
    is_found_giving(150, "a byte too few", |call| {
        let taken = call.given.taken as usize;
        call.again(&call.part[..taken.saturating_sub(1)], 0);
    });
    is_found_giving(60, "a byte too many, where room ends", |call| {
        let taken = call.given.taken as usize;
        if call.is_accepted() && taken < call.part.len() {
            call.again(&call.part[..=taken], LONGEST_ANSWER);
        }
    });
    is_found_giving(15, "a byte of room unused", |call| {
        let mut lent = call.lent.clone();
        let short = lent.out.pop().is_some() && lent.out.len() >= LONGEST_ANSWER;
        let taken = expect_give(&call.before, &lent, call.part).taken;
        if short && (taken as u64) < call.given.taken {
            call.again(&call.part[..taken], 0);
        }
    });
    is_found_giving(150, "taken told one too high", |call| {
        call.given.taken += u64::from(call.given.taken > 0);
    });
}

// ---- answers

/// Puts other answers in place of those written.
fn answer(call: &mut Call<'_>, answers: &[u8]) {
    call.buffers.out.clone_from(&call.lent.out);
    call.buffers.out[..answers.len()].copy_from_slice(answers);
    call.given.written = answers.len() as u64;
}

/// The answers written, each with its end.
fn answers(call: &Call<'_>) -> Vec<Vec<u8>> {
    let written = &call.buffers.out[..call.given.written as usize];
    let lines = written.split_inclusive(|&byte| byte == b'\n');
    lines.map(<[u8]>::to_vec).collect()
}

#[test]
fn wrong_answers_are_found() {
    is_found_giving(60, "the second of several answers left out", |call| {
        let mut lines = answers(call);
        if lines.len() > 1 {
            lines.remove(1);
            answer(call, &lines.concat());
        }
    });
    is_found_giving(60, "answers in another order", |call| {
        let mut lines = answers(call);
        lines.reverse();
        answer(call, &lines.concat());
    });
    is_found_giving(30, "a model left out", |call| {
        let mut lines = answers(call);
        for line in lines.iter_mut().filter(|line| line.len() > 17) {
            line.drain(16..line.len() - 1);
        }
        answer(call, &lines.concat());
    });
    is_found_giving(150, "a byte behind the answers", |call| {
        let behind = call.given.written as usize;
        if let Some(byte) = call.buffers.out.get_mut(behind) {
            *byte ^= u8::from(behind > 0);
        }
    });
    is_found_giving(150, "answers written that are not told", |call| {
        call.given.written = 0;
    });
}

// ---- the line that is begun

#[test]
fn lines_lost_between_parts_are_found() {
    is_found_giving(60, "a begun line forgotten", |call| {
        if call.is_accepted() {
            call.buffers.reader = Reader::default();
        }
    });
    is_found_giving(20, "a spoilt line taken for a right one", |call| {
        if call.is_accepted() {
            call.buffers.reader.spoilt = 0;
        }
    });
    is_found_giving(30, "the digits of the last word forgotten", |call| {
        if call.is_accepted() {
            call.buffers.reader.word = 0;
        }
    });
    is_found_giving(30, "the first word written over", |call| {
        if call.is_accepted() {
            call.buffers.frame[0] ^= 1;
        }
    });
    is_found_giving(60, "a line that goes on after its end", |call| {
        if call.is_accepted() && call.given.written > 0 && call.buffers.reader.digits == 0 {
            call.buffers.reader.digits = 8;
        }
    });
    is_found_giving(20, "digits counted beyond the most", |call| {
        if call.is_accepted() && call.buffers.reader.spoilt == 1 {
            call.buffers.reader.digits = 32_769;
        }
    });
    is_found_giving(5, "another number for spoilt", |call| {
        if call.is_accepted() && call.lent.reader.spoilt > 1 && call.given.written == 0 {
            call.buffers.reader.spoilt = call.lent.reader.spoilt;
        }
    });
}

// ---- refused calls

#[test]
fn refusals_that_write_are_found() {
    is_found_giving(60, "a byte of the out buffer", |call| {
        if let (1, Some(byte)) = (call.numbers.0, call.buffers.out.last_mut()) {
            *byte ^= 1;
        }
    });
    is_found_giving(60, "a word of the frame buffer", |call| {
        if let (1, Some(word)) = (call.numbers.0, call.buffers.frame.last_mut()) {
            *word ^= 1;
        }
    });
    is_found_giving(15, "spoilt as 1", |call| {
        if call.numbers.0 == 1 {
            call.buffers.reader.spoilt = call.buffers.reader.spoilt.min(1);
        }
    });
    is_found_giving(60, "a fresh reader", |call| {
        if call.numbers.0 == 1 {
            call.buffers.reader = Reader::default();
        }
    });
    is_found_giving(60, "a word behind the stack", |call| {
        if call.numbers.0 == 1 {
            call.tables.carried.stack[1_023] ^= 1;
        }
    });
}

#[test]
fn buffers_that_are_too_short_must_be_refused() {
    is_found_giving(10, "a frame buffer of 4,095 words", |call| {
        if call.lent.frame.len() == 4_095 {
            call.lent.frame.push(0);
            call.again(call.part, 0);
            call.buffers.frame.pop();
        }
    });
    is_found_giving(10, "an out buffer of 16,400 bytes", |call| {
        if call.lent.out.len() == LONGEST_ANSWER - 1 {
            call.again(call.part, 1);
        }
    });
    is_found_giving(10, "a reader of 32,769 digits", |call| {
        if call.lent.reader.digits == 32_769 {
            call.lent.reader.digits = 32_768;
            call.again(call.part, 0);
        }
    });
}

// ---- the end of input

fn is_found_ending(least: usize, what: &str, end: End) {
    is_found(least, what, |deviant| deviant.end = end);
}

#[test]
fn other_ends_are_found() {
    is_found_ending(20, "no answer to a begun line", |reader, out| {
        let fresh = Reader {
            digits: reader.digits.saturating_sub(32_768),
            ..Reader::default()
        };
        Mock::new(0).end(&fresh, out)
    });
    is_found_ending(20, "an answer to no line", |reader, out| {
        let begun = Reader {
            spoilt: 1,
            ..*reader
        };
        Mock::new(0).end(&begun, out)
    });
    is_found_ending(
        10,
        "no answer to a spoilt line without digits",
        |reader, out| {
            let unspoilt = Reader {
                spoilt: 0,
                ..*reader
            };
            Mock::new(0).end(&unspoilt, out)
        },
    );
}

#[test]
fn ends_that_must_be_refused() {
    is_found_ending(10, "room of 16 bytes taken", |reader, out| {
        match out.len() {
            16 => ((0, 0), 0),
            _ => Mock::new(0).end(reader, out),
        }
    });
    is_found_ending(10, "any number of digits taken", |reader, out| {
        let fewer = Reader {
            digits: reader.digits.min(1),
            ..*reader
        };
        Mock::new(0).end(&fewer, out)
    });
}

// ---- parts of the pool

/// Words of the pool from one place to another, as far as they are there.
fn between(tables: &Tables, from: u64, to: u64) -> &[i32] {
    let within = |place: u64| place.min(tables.pool.len() as u64) as usize;
    &tables.pool[within(from)..within(to)]
}

/// The entry of an index, or one of no words.
fn entry_at(tables: &Tables, at: usize) -> Entry {
    tables.entries.get(at).copied().unwrap_or_default()
}

fn is_found_reading(least: usize, what: &str, clause: Part) {
    is_found(least, what, |deviant| deviant.clause = clause);
}

#[test]
fn other_clauses_are_found() {
    is_found_reading(60, "a clause as long as its witness", |tables, at| {
        let entry = entry_at(tables, at);
        let start = u64::from(entry.start);
        between(tables, start, start + u64::from(entry.witness))
    });
    is_found_reading(60, "a clause with its witness", |tables, at| {
        let entry = entry_at(tables, at);
        let start = u64::from(entry.start);
        between(tables, start, start + entry.words())
    });
    is_found_reading(60, "a copy", |tables, at| {
        let clause = Mock::new(0).clause(tables, at).to_vec();
        Box::leak(clause.into_boxed_slice())
    });
}

#[test]
fn entries_read_in_another_way_are_found() {
    is_found_reading(10, "an index cut to 32 bits", |tables, at| {
        Mock::new(0).clause(tables, at as u32 as usize)
    });
    is_found_reading(10, "no words where some are past the pool", |tables, at| {
        let entry = entry_at(tables, at);
        let (start, length) = (entry.start as usize, entry.length as usize);
        let part = tables.pool.get(start..start + length);
        part.unwrap_or_default()
    });
    is_found_reading(10, "entries held alone", |tables, at| {
        let held = at < tables.carried.count as usize;
        Mock::new(0).clause(tables, if held { at } else { usize::MAX })
    });
}

#[test]
fn other_witnesses_are_found() {
    let witnesses = |least, what, part: Part| is_found(least, what, |it| it.witness = part);
    witnesses(60, "a witness that begins with its clause", |tables, at| {
        let entry = entry_at(tables, at);
        let start = u64::from(entry.start);
        between(tables, start, start + u64::from(entry.witness))
    });
    witnesses(10, "places that wrap around", |tables, at| {
        let entry = entry_at(tables, at);
        let start = u64::from(entry.start.wrapping_add(entry.length));
        between(tables, start, start + u64::from(entry.witness))
    });
}
