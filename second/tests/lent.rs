//! Lent tables: which are a state, and that a run of calls finds a wrong implementation.

mod common;

use common::{entry, reachable};
use second::frames::{add, weaken};
use second::histogram::ROWS;
use second::lent::buffers::{Buffers, Given, Reader};
use second::lent::calls::{Calls, Numbers};
use second::lent::damage::DAMAGES;
use second::lent::expected::expect_step;
use second::lent::laying::lay;
use second::lent::mock::Mock;
use second::lent::reading::state_of;
use second::lent::run::{run, Tally, MISFITS, OUTCOMES};
use second::lent::states::{any_state, reached};
use second::lent::tables::{Carried, Tables};
use second::random::Random;
use second::state::State;
use std::collections::BTreeMap;

fn read(tables: &Tables) -> Option<State> {
    state_of(&tables.entries, &tables.pool, &tables.carried)
}

/// Clause 5 (1 -2) irredundant, 3 (2 3) stacked with witness (3), in a pool of six words.
fn small() -> Tables {
    let mut carried = Carried {
        vars: 3,
        highest: 5,
        count: 2,
        words: 5,
        depth: 1,
        stack: [9; 1_024],
    };
    carried.stack[0] = 3;
    Tables {
        entries: vec![
            entry([5, 0, 4, 2, 0]),
            entry([3, 2, 0, 2, 1]),
            entry([7, 7, 7, 7, 7]),
        ],
        pool: vec![2, 3, 3, 77, 1, -2],
        carried,
    }
}

#[test]
fn tables_are_read_where_they_lie() {
    let state = read(&small()).unwrap();
    assert_eq!((state.vars, state.highest), (3, 5));
    assert_eq!((state.entries, state.words), (3, 6));
    assert_eq!(state.irredundant[&5], [1, -2]);
    assert_eq!(state.stack[0].clause, [2, 3]);
    assert_eq!(state.stack[0].witness, [3]);
    assert!(state.learned.is_empty());
}

#[test]
fn an_entry_without_words_may_start_anywhere() {
    let mut tables = small();
    tables.entries[2] = entry([4, 1, u32::MAX, 0, 0]);
    tables.carried.count = 3;
    assert_eq!(read(&tables).unwrap().learned[&4], []);
    tables.entries[2].start = 1;
    assert_eq!(read(&tables).unwrap().learned[&4], []);
}

#[test]
fn counts_alone_decide_room() {
    let numbers = |tables: &Tables, frame: &[i32]| {
        let expected = expect_step(tables, frame, &[0; 32]);
        (expected.code, expected.detail, expected.state.is_some())
    };
    assert_eq!(numbers(&small(), &add(6, &[1])), (0, 0, true));
    assert_eq!(numbers(&small(), &add(6, &[1, 2])), (13, 0, false));
    assert_eq!(numbers(&small(), &weaken(5, &[1], &[])), (0, 0, true));
    let mut full = small();
    full.entries.pop();
    assert_eq!(numbers(&full, &add(6, &[1])), (12, 0, false));
    assert_eq!(expect_step(&small(), &add(6, &[1]), &[0; 31]).code, 1);
}

#[test]
fn a_state_laid_out_anyhow_is_read_back() {
    for seed in 0..600 {
        let mut random = Random::new(seed);
        let state = match seed % 2 {
            0 => any_state(&mut random),
            _ => reached(&mut random),
        };
        assert_eq!(read(&lay(&state, &mut random)), Some(state), "seed {seed}");
    }
}

#[test]
fn damaged_tables_are_no_state() {
    let mut damaged = BTreeMap::new();
    for seed in 0..300 {
        let mut random = Random::new(seed);
        let state = any_state(&mut random);
        for (name, damage) in DAMAGES {
            let mut tables = lay(&state, &mut random);
            if damage(&mut tables, &mut random).is_some() {
                assert_eq!(read(&tables), None, "seed {seed}, {name}");
                *damaged.entry(name).or_insert(0) += 1;
            }
        }
    }
    for (name, _) in DAMAGES {
        assert!(
            damaged.get(name) > Some(&10),
            "{name}: {:?}",
            damaged.get(name)
        );
    }
}

#[test]
fn the_run_finds_nothing_in_the_second_itself() {
    let mut tally = Tally::default();
    for seed in 0..1_500 {
        if let Err(difference) = run(&mut Mock::new(seed), seed, &mut tally) {
            panic!("seed {seed}\n{difference}");
        }
    }
    assert!(tally.calls > 20_000, "{tally}");
    for (name, _) in DAMAGES {
        for call in ["step", "give", "clause and witness"] {
            let tried = tally.wrong.contains_key(&(call, name));
            assert!(tried, "never tried: {call}, {name}\n{tally}");
        }
    }
    for asked in ROWS.into_iter().take(10) {
        for &code in [1].iter().chain(reachable(asked)) {
            let times = tally.frames.times(asked, code);
            assert!(times > 0, "{asked} never got {code}\n{tally}");
        }
    }
    for asked in ROWS {
        for &code in reachable(asked) {
            let times = tally.lines.times(asked, code);
            assert!(times > 0, "a line {asked} never got {code}\n{tally}");
        }
    }
    for name in OUTCOMES {
        assert!(tally.outcomes[name] > 0, "never: {name}\n{tally}");
    }
    for (name, _) in MISFITS {
        let tried = tally.wrong.contains_key(&("give", name));
        assert!(tried, "never tried: {name}\n{tally}");
    }
}

// ---- wrong implementations

/// A mock whose tables, buffer or answer are tampered with after each call.
struct Faulty {
    mock: Mock,
    fault: fn(&Left<'_>, &mut Tables, &mut [u64]) -> Option<Numbers>,
}

/// What a fault may look at.
struct Left<'b> {
    before: &'b Tables,
    frame: &'b [i32],
    numbers: Numbers,
}

impl Calls for Faulty {
    fn open(&mut self, vars: u32, tables: &mut Tables) -> Numbers {
        self.mock.open(vars, tables)
    }

    fn step(&mut self, tables: &mut Tables, frame: &[i32], model: &mut [u64]) -> Numbers {
        let before = tables.clone();
        let numbers = self.mock.step(tables, frame, model);
        let left = Left {
            before: &before,
            frame,
            numbers,
        };
        (self.fault)(&left, tables, model).unwrap_or(numbers)
    }

    fn give(
        &mut self,
        tables: &mut Tables,
        buffers: &mut Buffers,
        part: &[u8],
    ) -> (Numbers, Given) {
        self.mock.give(tables, buffers, part)
    }

    fn end(&mut self, reader: &Reader, out: &mut [u8]) -> (Numbers, u64) {
        self.mock.end(reader, out)
    }

    fn clause<'t>(&mut self, tables: &'t Tables, entry: usize) -> &'t [i32] {
        self.mock.clause(tables, entry)
    }

    fn witness<'t>(&mut self, tables: &'t Tables, entry: usize) -> &'t [i32] {
        self.mock.witness(tables, entry)
    }
}

/// How many of the first histories a fault is found in.
fn found(fault: fn(&Left<'_>, &mut Tables, &mut [u64]) -> Option<Numbers>) -> usize {
    let differs = |seed: &u64| {
        let mock = Mock::new(*seed);
        run(&mut Faulty { mock, fault }, *seed, &mut Tally::default()).is_err()
    };
    (0..300).filter(differs).count()
}

#[test]
fn a_refusal_that_writes_is_found() {
    let behind_the_stack = |left: &Left<'_>, tables: &mut Tables, _: &mut [u64]| {
        let depth = tables.carried.depth as usize;
        if left.numbers.0 != 0 && depth < 1_024 {
            tables.carried.stack[depth] ^= 1;
        }
        None
    };
    let behind_the_entries = |left: &Left<'_>, tables: &mut Tables, _: &mut [u64]| {
        if left.numbers.0 == 12 || left.numbers.0 == 7 {
            tables.entries.last_mut()?.start ^= 4;
        }
        None
    };
    let a_gap = |left: &Left<'_>, tables: &mut Tables, _: &mut [u64]| {
        if left.numbers.0 == 2 {
            *tables.pool.last_mut()? ^= 1;
        }
        None
    };
    assert!(found(behind_the_stack) > 200);
    assert!(found(behind_the_entries) > 20);
    assert!(found(a_gap) > 20);
}

#[test]
fn questions_that_write_the_tables_are_found() {
    let sorted_in_place = |left: &Left<'_>, tables: &mut Tables, _: &mut [u64]| {
        if left.numbers.0 == 0 && left.frame[0] >= 8 {
            let count = tables.carried.count as usize;
            tables.entries[..count].sort_by_key(|entry| entry.id);
        }
        None
    };
    assert!(found(sorted_in_place) > 20);
}

#[test]
fn wrong_states_are_found() {
    let highest_stays = |left: &Left<'_>, tables: &mut Tables, _: &mut [u64]| {
        if tables.carried.highest > left.before.carried.highest {
            tables.carried.highest -= 1;
        }
        None
    };
    let words_stay = |left: &Left<'_>, tables: &mut Tables, _: &mut [u64]| {
        tables.carried.words = left.before.carried.words;
        None
    };
    let stack_turned = |left: &Left<'_>, tables: &mut Tables, _: &mut [u64]| {
        if left.frame.first() == Some(&6) && left.numbers.0 == 0 {
            let depth = tables.carried.depth as usize;
            tables.carried.stack[..depth].reverse();
        }
        None
    };
    assert!(found(highest_stays) > 20);
    assert!(found(words_stay) > 20);
    assert!(found(stack_turned) > 20);
}

#[test]
fn wrong_buffers_and_numbers_are_found() {
    let bits_above_vars = |left: &Left<'_>, tables: &mut Tables, model: &mut [u64]| {
        if left.numbers.0 == 0 && left.frame[0] == 8 && tables.carried.vars < 2_048 {
            model[31] |= 1 << 63;
        }
        None
    };
    let model_of_refused = |left: &Left<'_>, _: &mut Tables, model: &mut [u64]| {
        if left.numbers.0 == 10 {
            model.fill(0);
        }
        None
    };
    let one_more_changed = |left: &Left<'_>, _: &mut Tables, _: &mut [u64]| {
        let accepted = left.numbers.0 == 0 && left.frame[0] == 8;
        accepted.then_some((0, left.numbers.1 + 1))
    };
    assert!(found(bits_above_vars) > 20);
    assert!(found(model_of_refused) > 5);
    assert!(found(one_more_changed) > 20);
}

#[test]
fn wrong_tables_taken_for_right_ones_are_found() {
    let no_clause = |left: &Left<'_>, _: &mut Tables, _: &mut [u64]| {
        let id = left.frame.get(1).copied().unwrap_or(0);
        (left.numbers.0 == 1).then_some((4, id as u64))
    };
    assert!(found(no_clause) > 250);
}
