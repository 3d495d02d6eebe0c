//! The linked archive behind the calls that the second implementation tries.

use second::lent::buffers::{Buffers, Given, Reader};
use second::lent::calls::{Calls, Numbers};
use second::lent::tables::{self, Tables};

pub struct Linked;

/// The same words in the types of the wrapper.
fn lent(tables: &Tables) -> (Vec<zahrubel::Entry>, zahrubel::Carried) {
    let entry = |entry: &tables::Entry| zahrubel::Entry {
        id: entry.id,
        place: entry.place,
        start: entry.start,
        length: entry.length,
        witness: entry.witness,
    };
    let carried = &tables.carried;
    let carried = zahrubel::Carried {
        vars: carried.vars,
        highest: carried.highest,
        count: carried.count,
        words: carried.words,
        depth: carried.depth,
        stack: carried.stack,
    };
    (tables.entries.iter().map(entry).collect(), carried)
}

fn lent_reader(reader: &Reader) -> zahrubel::Reader {
    zahrubel::Reader {
        digits: reader.digits,
        word: reader.word,
        spoilt: reader.spoilt,
    }
}

/// And back.
fn take_back(entries: &[zahrubel::Entry], carried: &zahrubel::Carried, tables: &mut Tables) {
    for (kept, entry) in tables.entries.iter_mut().zip(entries) {
        *kept = tables::Entry {
            id: entry.id,
            place: entry.place,
            start: entry.start,
            length: entry.length,
            witness: entry.witness,
        };
    }
    tables.carried = tables::Carried {
        vars: carried.vars,
        highest: carried.highest,
        count: carried.count,
        words: carried.words,
        depth: carried.depth,
        stack: carried.stack,
    };
}

impl Calls for Linked {
    fn open(&mut self, vars: u32, tables: &mut Tables) -> Numbers {
        let (entries, mut carried) = lent(tables);
        let answer = zahrubel::open(vars, &entries, &tables.pool, &mut carried);
        take_back(&entries, &carried, tables);
        (answer.code, answer.detail)
    }

    fn step(&mut self, tables: &mut Tables, frame: &[i32], model: &mut [u64]) -> Numbers {
        let (mut entries, mut carried) = lent(tables);
        let pool = &mut tables.pool;
        let answer = zahrubel::step(&mut entries, pool, &mut carried, frame, model);
        take_back(&entries, &carried, tables);
        (answer.code, answer.detail)
    }

    fn give(
        &mut self,
        tables: &mut Tables,
        buffers: &mut Buffers,
        part: &[u8],
    ) -> (Numbers, Given) {
        let (mut entries, mut carried) = lent(tables);
        let mut reader = lent_reader(&buffers.reader);
        let (answer, given) = zahrubel::give(
            &mut entries,
            &mut tables.pool,
            &mut carried,
            &mut reader,
            &mut buffers.frame,
            part,
            &mut buffers.out,
        );
        take_back(&entries, &carried, tables);
        buffers.reader = Reader {
            digits: reader.digits,
            word: reader.word,
            spoilt: reader.spoilt,
        };
        let given = Given {
            taken: given.taken,
            written: given.written,
        };
        ((answer.code, answer.detail), given)
    }

    fn end(&mut self, reader: &Reader, out: &mut [u8]) -> (Numbers, u64) {
        let (answer, written) = zahrubel::end(&lent_reader(reader), out);
        ((answer.code, answer.detail), written)
    }

    fn clause<'t>(&mut self, tables: &'t Tables, entry: usize) -> &'t [i32] {
        zahrubel::clause(&lent(tables).0, &tables.pool, entry)
    }

    fn witness<'t>(&mut self, tables: &'t Tables, entry: usize) -> &'t [i32] {
        zahrubel::witness(&lent(tables).0, &tables.pool, entry)
    }
}
