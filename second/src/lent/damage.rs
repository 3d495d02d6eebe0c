//! Every way of being no state, as damage to tables that are one.
//!
//! Each damage breaks one sentence of the list in document 01 and keeps the others, counts
//! included, wherever that can be had: a reader that forgets this one sentence must be seen.

use super::tables::{Carried, Entry, Tables, IRREDUNDANT, LEARNED, STACKED};
use crate::random::Random;
use crate::terms::{variable, MOST_LITERALS, MOST_VARIABLES};

/// Damages the tables, or tells that they have nothing to damage in this way.
pub type Damage = fn(&mut Tables, &mut Random) -> Option<()>;

/// Each damage with its name.
pub const DAMAGES: [(&str, Damage); 33] = [
    ("V is 0", no_variables),
    ("V above 2,048", too_many_variables),
    ("V below a literal", fewer_variables),
    ("highest id above 2,147,483,647", highest_too_high),
    ("highest id below a held one", highest_too_low),
    ("id 0", id_zero),
    ("id above the highest", id_above_highest),
    ("id above 2,147,483,647", id_past_all),
    ("id held twice", id_twice),
    ("place above 2", no_place),
    ("two clauses in one part", same_part),
    ("parts that share some words", shared_words),
    ("part past the pool", past_the_pool),
    ("part that wraps around", wrapped_part),
    ("lengths that wrap around", wrapped_lengths),
    ("literal 0", literal_zero),
    ("literal past V", literal_past_vars),
    ("variable twice in a clause", variable_twice),
    ("variable twice in a witness", variable_twice_in_witness),
    ("clause of 257 literals", long_clause),
    ("witness of 257 literals", long_witness),
    (
        "irredundant clause with a witness",
        irredundant_with_witness,
    ),
    ("learned clause with a witness", learned_with_witness),
    ("stacked clause without a witness", stacked_without_witness),
    ("witness that misses its clause", witness_misses),
    ("stack lists one twice, another not", listed_for_another),
    ("stack lists one twice", listed_twice),
    ("stack does not list one", not_listed),
    ("stack lists an unstacked clause", lists_unstacked),
    ("stack lists no clause", lists_nobody),
    ("count lies", count_lies),
    ("words lie", words_lie),
    ("depth lies", depth_lies),
];

// ---- which entry is meant

fn held(tables: &Tables) -> &[Entry] {
    &tables.entries[..tables.carried.count as usize]
}

/// The index of a held entry of some kind.
fn find(tables: &Tables, random: &mut Random, kind: fn(&Entry) -> bool) -> Option<usize> {
    let fitting = (0..held(tables).len()).filter(|&at| kind(&tables.entries[at]));
    random.pick(&fitting.collect::<Vec<usize>>()).copied()
}

/// A held entry of some kind other than `but`.
fn find_other(
    tables: &Tables,
    but: usize,
    random: &mut Random,
    kind: fn(&Entry) -> bool,
) -> Option<usize> {
    let fitting = (0..held(tables).len()).filter(|&at| at != but && kind(&tables.entries[at]));
    random.pick(&fitting.collect::<Vec<usize>>()).copied()
}

fn any(_: &Entry) -> bool {
    true
}

fn is_stacked(entry: &Entry) -> bool {
    entry.place == STACKED
}

fn is_unstacked(entry: &Entry) -> bool {
    entry.place != STACKED
}

/// A pool index of any of the entry's words.
fn any_word_of(entry: &Entry, random: &mut Random) -> usize {
    entry.start as usize + random.below(entry.words() as usize)
}

// ---- V and ids

fn no_variables(tables: &mut Tables, _: &mut Random) -> Option<()> {
    tables.carried.vars = 0;
    Some(())
}

fn too_many_variables(tables: &mut Tables, random: &mut Random) -> Option<()> {
    let most = MOST_VARIABLES as u32;
    let wrong = [most + 1, most + 64, 1 << 31, u32::MAX, u32::MAX - 4];
    tables.carried.vars = wrong[random.below(wrong.len())];
    Some(())
}

fn fewer_variables(tables: &mut Tables, _: &mut Random) -> Option<()> {
    let words = held(tables).iter().flat_map(|entry| {
        let start = entry.start as usize;
        &tables.pool[start.min(tables.pool.len())..][..entry.words() as usize]
    });
    let highest = words.map(|&literal| variable(literal)).max()?;
    tables.carried.vars = highest as u32 - 1;
    (highest > 1).then_some(())
}

fn highest_too_high(tables: &mut Tables, random: &mut Random) -> Option<()> {
    let wrong = [1 << 31, u32::MAX, (1 << 31) + tables.carried.highest];
    tables.carried.highest = wrong[random.below(wrong.len())];
    Some(())
}

fn highest_too_low(tables: &mut Tables, _: &mut Random) -> Option<()> {
    let highest = held(tables).iter().map(|entry| entry.id).max()?;
    tables.carried.highest = highest - 1;
    Some(())
}

/// Gives an entry another id; a stacked one is listed by it.
fn rename(tables: &mut Tables, at: usize, id: u32) {
    let old = std::mem::replace(&mut tables.entries[at].id, id);
    if is_stacked(&tables.entries[at]) {
        let depth = tables.carried.depth as usize;
        for listed in &mut tables.carried.stack[..depth] {
            if *listed == old {
                *listed = id;
            }
        }
    }
}

fn id_zero(tables: &mut Tables, random: &mut Random) -> Option<()> {
    let at = find(tables, random, any)?;
    rename(tables, at, 0);
    Some(())
}

fn id_above_highest(tables: &mut Tables, random: &mut Random) -> Option<()> {
    let at = find(tables, random, any)?;
    let id = tables.carried.highest + 1 + random.below(2) as u32;
    rename(tables, at, id);
    Some(())
}

fn id_past_all(tables: &mut Tables, random: &mut Random) -> Option<()> {
    let at = find(tables, random, any)?;
    let id = tables.entries[at].id | 1 << 31;
    rename(tables, at, id);
    Some(())
}

/// The entry that takes another's id is not stacked, so that the stack stays a right list.
fn id_twice(tables: &mut Tables, random: &mut Random) -> Option<()> {
    let at = find(tables, random, is_unstacked)?;
    let other = find_other(tables, at, random, any)?;
    tables.entries[at].id = tables.entries[other].id;
    Some(())
}

/// Also numbers that are a place when cut to fewer bits, and stacked clauses that stay listed.
fn no_place(tables: &mut Tables, random: &mut Random) -> Option<()> {
    let at = find(tables, random, any)?;
    let place = tables.entries[at].place;
    let wrong = [
        3,
        4,
        u32::MAX,
        place + 256,
        place | 1 << 16,
        place | 1 << 31,
    ];
    tables.entries[at].place = wrong[random.below(wrong.len())];
    Some(())
}

// ---- parts of the pool

/// Moves an unstacked entry onto other words, with the sum of words kept right.
fn move_onto(tables: &mut Tables, at: usize, start: u32, length: u32) {
    let entry = &mut tables.entries[at];
    tables.carried.words = tables.carried.words - entry.length + length;
    (entry.start, entry.length) = (start, length);
}

fn same_part(tables: &mut Tables, random: &mut Random) -> Option<()> {
    let at = find(tables, random, is_unstacked)?;
    let other = find_other(tables, at, random, |entry| entry.length > 0)?;
    let Entry { start, length, .. } = tables.entries[other];
    move_onto(tables, at, start, length);
    Some(())
}

fn shared_words(tables: &mut Tables, random: &mut Random) -> Option<()> {
    let at = find(tables, random, is_unstacked)?;
    let other = find_other(tables, at, random, |entry| entry.length > 1)?;
    let Entry { start, length, .. } = tables.entries[other];
    // The first or the last words of the other clause: they are a clause too.
    let shared = random.between(1, length as usize - 1) as u32;
    let from = if random.one_in(2) {
        start
    } else {
        start + length - shared
    };
    move_onto(tables, at, from, shared);
    Some(())
}

fn past_the_pool(tables: &mut Tables, random: &mut Random) -> Option<()> {
    let at = find(tables, random, |entry| entry.words() > 0)?;
    let fitting = tables.pool.len() as u32 - tables.entries[at].words() as u32;
    let wrong = [fitting + 1, tables.pool.len() as u32, u32::MAX, 1 << 31];
    tables.entries[at].start = wrong[random.below(wrong.len())];
    Some(())
}

/// The end of the part, cut to 32 bits, is inside the pool.
fn wrapped_part(tables: &mut Tables, random: &mut Random) -> Option<()> {
    let at = find(tables, random, |entry| entry.words() > 0)?;
    let words = tables.entries[at].words() as u32;
    tables.entries[at].start = u32::MAX - random.below(words as usize) as u32;
    Some(())
}

/// Length and witness together, cut to 32 bits, are what they were.
fn wrapped_lengths(tables: &mut Tables, random: &mut Random) -> Option<()> {
    let at = find(tables, random, is_stacked)?;
    let by = [1 << 30, 1 << 31, 3 << 30][random.below(3)];
    let entry = &mut tables.entries[at];
    entry.length = entry.length.wrapping_add(by);
    entry.witness = entry.witness.wrapping_sub(by);
    Some(())
}

// ---- clauses and witnesses

fn literal_zero(tables: &mut Tables, random: &mut Random) -> Option<()> {
    let at = find(tables, random, |entry| entry.words() > 0)?;
    let word = any_word_of(&tables.entries[at], random);
    tables.pool[word] = 0;
    Some(())
}

fn literal_past_vars(tables: &mut Tables, random: &mut Random) -> Option<()> {
    let at = find(tables, random, |entry| entry.words() > 0)?;
    let word = any_word_of(&tables.entries[at], random);
    let past = tables.carried.vars as i32 + 1;
    let wrong = [past, -past, i32::MIN, i32::MAX, -i32::MAX, past + 2_048];
    tables.pool[word] = wrong[random.below(wrong.len())];
    Some(())
}

/// Says a variable again in `length` words from `start` on, with either sign.
fn repeat_variable(tables: &mut Tables, start: u32, length: u32, random: &mut Random) {
    let list = &mut tables.pool[start as usize..][..length as usize];
    let from = random.below(list.len());
    let to = (from + random.between(1, list.len() - 1)) % list.len();
    list[to] = random.signed(list[from]);
}

fn variable_twice(tables: &mut Tables, random: &mut Random) -> Option<()> {
    // A witness might miss the clause afterwards, so the clause is not a stacked one.
    let at = find(tables, random, |entry| {
        is_unstacked(entry) && entry.length > 1
    })?;
    let Entry { start, length, .. } = tables.entries[at];
    repeat_variable(tables, start, length, random);
    Some(())
}

fn variable_twice_in_witness(tables: &mut Tables, random: &mut Random) -> Option<()> {
    let at = find(tables, random, |entry| entry.witness > 1)?;
    let Entry {
        start,
        length,
        witness,
        ..
    } = tables.entries[at];
    repeat_variable(tables, start + length, witness, random);
    Some(())
}

/// One literal more than a list may have, of distinct variables.
fn long_list(tables: &Tables, random: &mut Random) -> Option<Vec<i32>> {
    let vars = tables.carried.vars as usize;
    (vars > MOST_LITERALS).then(|| random.literals(vars as i32, MOST_LITERALS + 1))
}

/// Leaves in the tables nothing but one clause of these words, so that there is room for it.
fn only_clause(tables: &mut Tables, place: u32, clause: &[i32], witness: &[i32]) -> Option<()> {
    let words = [clause, witness].concat();
    tables.pool.get_mut(..words.len())?.copy_from_slice(&words);
    tables.carried.highest = tables.carried.highest.max(1);
    tables.entries[0] = Entry {
        id: 1,
        place,
        start: 0,
        length: clause.len() as u32,
        witness: witness.len() as u32,
    };
    tables.carried.count = 1;
    tables.carried.words = words.len() as u32;
    tables.carried.depth = u32::from(place == STACKED);
    tables.carried.stack[0] = 1;
    Some(())
}

fn long_clause(tables: &mut Tables, random: &mut Random) -> Option<()> {
    let clause = long_list(tables, random)?;
    match random.below(3) as u32 {
        STACKED => {
            let witness = [clause[0]];
            only_clause(tables, STACKED, &clause, &witness)
        }
        place => only_clause(tables, place, &clause, &[]),
    }
}

fn long_witness(tables: &mut Tables, random: &mut Random) -> Option<()> {
    let witness = long_list(tables, random)?;
    only_clause(tables, STACKED, &witness[..3], &witness)
}

// ---- places

/// Takes an id out of the stack's list, at a place of it.
fn unlist(carried: &mut Carried, at: usize) {
    carried.stack.copy_within(at + 1.., at);
    carried.depth -= 1;
}

/// Puts an id into the stack's list, at any place of it.
fn list(carried: &mut Carried, id: u32, random: &mut Random) -> Option<()> {
    let depth = carried.depth as usize;
    let at = random.below(depth + 1);
    let end = depth
        .checked_add(1)
        .filter(|&end| end <= carried.stack.len())?;
    carried.stack.copy_within(at..end - 1, at + 1);
    carried.stack[at] = id;
    carried.depth += 1;
    Some(())
}

/// Where the stack lists an id.
fn place_of(carried: &Carried, id: u32) -> Option<usize> {
    let listed = &carried.stack[..carried.depth as usize];
    listed.iter().position(|&listed| listed == id)
}

/// A stacked clause goes to another place with its witness.
fn replaced(tables: &mut Tables, place: u32, random: &mut Random) -> Option<()> {
    let at = find(tables, random, is_stacked)?;
    let listed = place_of(&tables.carried, tables.entries[at].id)?;
    tables.entries[at].place = place;
    unlist(&mut tables.carried, listed);
    Some(())
}

fn irredundant_with_witness(tables: &mut Tables, random: &mut Random) -> Option<()> {
    replaced(tables, IRREDUNDANT, random)
}

fn learned_with_witness(tables: &mut Tables, random: &mut Random) -> Option<()> {
    replaced(tables, LEARNED, random)
}

fn stacked_without_witness(tables: &mut Tables, random: &mut Random) -> Option<()> {
    let at = find(tables, random, is_unstacked)?;
    tables.entries[at].place = STACKED;
    list(&mut tables.carried, tables.entries[at].id, random)
}

/// Every witness literal that is in the clause is turned.
fn witness_misses(tables: &mut Tables, random: &mut Random) -> Option<()> {
    let at = find(tables, random, is_stacked)?;
    let Entry {
        start,
        length,
        witness,
        ..
    } = tables.entries[at];
    let words = &mut tables.pool[start as usize..][..(length + witness) as usize];
    let (clause, witness) = words.split_at_mut(length as usize);
    for literal in witness {
        if clause.contains(literal) {
            *literal = -*literal;
        }
    }
    Some(())
}

// ---- the stack

fn listed_for_another(tables: &mut Tables, random: &mut Random) -> Option<()> {
    let depth = tables.carried.depth as usize;
    let to = random.below(depth.max(1));
    let from = (to + 1) % depth.max(1);
    tables.carried.stack[to] = tables.carried.stack[from];
    (depth > 1).then_some(())
}

fn listed_twice(tables: &mut Tables, random: &mut Random) -> Option<()> {
    let depth = tables.carried.depth as usize;
    let id = *random.pick(&tables.carried.stack[..depth])?;
    list(&mut tables.carried, id, random)
}

fn not_listed(tables: &mut Tables, random: &mut Random) -> Option<()> {
    let depth = tables.carried.depth as usize;
    let at = random.below(depth.max(1));
    (depth > 0).then(|| unlist(&mut tables.carried, at))
}

fn lists_unstacked(tables: &mut Tables, random: &mut Random) -> Option<()> {
    let at = find(tables, random, is_unstacked)?;
    list(&mut tables.carried, tables.entries[at].id, random)
}

fn lists_nobody(tables: &mut Tables, random: &mut Random) -> Option<()> {
    let id = [0, tables.carried.highest + 1, u32::MAX][random.below(3)];
    list(&mut tables.carried, id, random)
}

// ---- kept counts

/// One entry too few leaves out words, or an id of the stack, or nothing but an empty clause:
/// so the count is set past the table, or one too high before an entry that repeats another.
fn count_lies(tables: &mut Tables, random: &mut Random) -> Option<()> {
    let count = tables.carried.count as usize;
    let lent = tables.entries.len();
    if count == 0 || count == lent || random.one_in(2) {
        let wrong = [lent as u32 + 1, 1_025, u32::MAX, 1 << 31];
        tables.carried.count = wrong[random.below(wrong.len())];
        return Some(());
    }
    let repeated = random.below(count);
    tables.entries[count] = Entry {
        length: 0,
        witness: 0,
        place: LEARNED,
        ..tables.entries[repeated]
    };
    tables.carried.count += 1;
    Some(())
}

fn words_lie(tables: &mut Tables, random: &mut Random) -> Option<()> {
    let words = tables.carried.words;
    let wrong = [
        words.wrapping_add(1),
        words.wrapping_sub(1),
        !words,
        words | 1 << 31,
    ];
    tables.carried.words = wrong[random.below(wrong.len())];
    Some(())
}

fn depth_lies(tables: &mut Tables, random: &mut Random) -> Option<()> {
    let depth = tables.carried.depth;
    let wrong = [
        depth.wrapping_add(1),
        depth.wrapping_sub(1),
        1_025,
        u32::MAX,
        1 << 31,
    ];
    tables.carried.depth = wrong[random.below(wrong.len())];
    Some(())
}
