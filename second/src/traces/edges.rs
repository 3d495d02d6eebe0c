//! Deep mending and the longest clauses and frames.

use super::author::Author;
use super::moves::any_word;
use crate::frames::{add, drop_clause, learn, restore, sat, unsat, weaken};
use crate::random::Random;
use crate::terms::{LONGEST_FRAME, MOST_LITERALS};

/// The true variables of the assignment that makes exactly these literals true.
fn offered(literals: &[i32]) -> Vec<i32> {
    let mut trues: Vec<i32> = literals.iter().copied().filter(|&l| l > 0).collect();
    trues.sort_unstable();
    trues
}

/// Each literal of `chain` with a random truth, mostly false.
fn mostly_false(chain: &[i32], random: &mut Random) -> Vec<i32> {
    let turned = chain
        .iter()
        .map(|&literal| if random.one_in(9) { literal } else { -literal });
    turned.collect()
}

/// Records (x1 -x2), (x2 -x3), .. weakened in this order: mending starts at the top and runs
/// down as far as all literals are false.
pub fn chains(author: &mut Author<'_>) {
    let depth = author.random.between(3, 40);
    let chain = author.literals(depth + 1);
    let first = author.state().highest + 1;
    for link in 0..depth {
        let top = link + 1 == depth;
        let next = if top { chain[depth] } else { -chain[link + 1] };
        author.say(&add(first + link as i32, &[chain[link], next]));
    }
    for (link, id) in (0..depth).zip(first..) {
        let mut witness = vec![chain[link]];
        if link > 0 && author.random.one_in(4) {
            // A lower record's literal turned back: the walk's order is told by the model.
            witness.push(-chain[link - 1]);
        }
        author.say(&weaken(id, &witness, &[]));
    }
    for _ in 0..8 {
        let truth = mostly_false(&chain, &mut author.random);
        author.say(&sat(&[], &offered(&truth)));
        let assumed = truth[author.random.below(truth.len())];
        author.say(&sat(&[assumed, assumed], &offered(&truth)));
        author.say(&sat(&[assumed, -assumed], &offered(&truth)));
        let record = first + author.random.below(depth) as i32;
        author.say(&restore(record));
        let id = author.new_id();
        let clause = [chain[author.random.below(depth)], chain[depth]];
        let signed = clause.map(|literal| author.random.signed(literal));
        author.say(&add(id, &signed));
    }
}

/// Clauses, witnesses and assumptions of 256 literals, and frames up to 4,096 words.
pub fn longest(author: &mut Author<'_>) {
    let clause = author.literals(MOST_LITERALS);
    let (one, other) = (author.new_id(), i32::MAX - 9);
    author.say(&add(one, &clause));
    let mut shuffled = clause.clone();
    author.random.shuffle(&mut shuffled);
    author.say(&learn(other, &shuffled, &[one]));
    long_frames(author, &shuffled, one);
    author.say(&weaken(one, &shuffled, &[]));
    author.say(&weaken(one, &clause[..1], &[]));
    let truth: Vec<i32> = clause.iter().map(|&literal| -literal).collect();
    author.say(&sat(&[], &offered(&truth)));
    author.say(&sat(&truth, &offered(&truth)));
    author.say(&sat(&clause, &offered(&clause)));
    author.say(&sat(&truth, &offered(&clause)));
    let all: Vec<i32> = (1..=author.state().vars).collect();
    author.say(&sat(&[], &all));
    author.say(&sat(&all[..MOST_LITERALS], &all));
    author.say(&add(other + 1, &truth));
    author.say(&restore(one));
    author.say(&add(other + 1, &truth));
}

/// Frames of about 4,096 words, proved by their first hints, by their last, and not at all.
fn long_frames(author: &mut Author<'_>, literals: &[i32], id: i32) {
    for length in [LONGEST_FRAME - 1, LONGEST_FRAME, LONGEST_FRAME + 1] {
        let assumptions: Vec<i32> = literals.iter().map(|&literal| -literal).collect();
        let mut frames = vec![
            unsat(&assumptions, &[id]),
            unsat(&[7, 3, -7], &[]),
            drop_clause(id, &[]),
            learn(i32::MAX - 3, literals, &[id]),
            weaken(id, literals, &[]),
            sat(&assumptions, &[]),
            add(i32::MAX - 1, literals),
        ];
        let frame = author.random.below(frames.len());
        let mut frame = frames.swap_remove(frame);
        while frame.len() < length {
            frame.push(any_word(&mut author.random));
        }
        author.say(&frame);
    }
}

/// A long way from the first literal to the last: as many hints as there are links.
pub fn long_proofs(author: &mut Author<'_>) {
    let links = author.random.between(300, 1_000);
    let chain = author.literals(links + 1);
    let first = author.state().highest + 1;
    let mut hints: Vec<i32> = (first..).take(links).collect();
    for (link, &id) in hints.iter().enumerate() {
        author.say(&add(id, &[-chain[link], chain[link + 1]]));
    }
    let ends = [-chain[0], chain[links]];
    let last = first + links as i32;
    author.say(&learn(last, &ends, &hints));
    author.say(&learn(last, &ends, &hints[1..]));
    author.say(&learn(last, &ends, &hints[..links - 1]));
    author.say(&unsat(&[chain[0], -chain[links]], &hints));
    author.say(&add(last + 1, &ends));
    hints.reverse();
    author.say(&drop_clause(last + 1, &hints));
    let place = author.random.below(links);
    hints[place] = last;
    author.say(&drop_clause(last + 1, &hints));
    author.say(&unsat(&[-chain[links], chain[0]], &hints));
}
