//! Frames at fault in counts, literals, ids, hints and groups, each kind on purpose.

use super::author::Author;
use super::histories::tell;
use super::moves::{any_word, Mix};
use crate::frames::{add, drop_clause, forget, learn, promote, restore, sat, unsat, weaken, Group};
use crate::terms::MOST_LITERALS;
use std::collections::BTreeMap;

/// A short history to stand on.
fn prelude(author: &mut Author<'_>) {
    let mix = Mix {
        used: 6,
        shortest: 1,
        longest: 3,
        crowded: 10,
    };
    tell(author, &mix, 20, usize::MAX);
}

fn say_shuffled(author: &mut Author<'_>, mut frames: Vec<Vec<i32>>) {
    author.random.shuffle(&mut frames);
    for frame in &frames {
        author.say(frame);
    }
}

/// Code 2 in every operation.
pub fn counts(author: &mut Author<'_>) {
    prelude(author);
    let id = author.new_id();
    let over = author.literals(MOST_LITERALS + 1);
    let few = author.literals(3);
    let mut frames = vec![vec![], add(id, &over), learn(id, &over, &[])];
    frames.push(weaken(1, &over, &[]));
    frames.push(weaken(1, &[], &[]));
    frames.push(sat(&over, &[]));
    frames.push(unsat(&over, &[]));
    for operation in [0, 10, -1, i32::MIN, i32::MAX, any_word(&mut author.random)] {
        frames.push(vec![operation, 1]);
    }
    for operation in 1..=9 {
        frames.push(vec![operation]);
        let wrong = [0, -1, i32::MIN, -(MOST_LITERALS as i32)];
        frames.extend(wrong.map(|word| vec![operation, word]));
        // Counts are judged before literals: the literal 0 is not what is refused.
        frames.extend(wrong.map(|word| vec![operation, word, 0]));
    }
    for operation in [2, 6] {
        frames.push(vec![operation, id]);
        for count in [-1, 4, 257, i32::MIN, i32::MAX] {
            frames.push([&[operation, id, count], few.as_slice()].concat());
        }
    }
    for operation in [8, 9] {
        for count in [-1, 4, 257, i32::MIN, i32::MAX] {
            frames.push([&[operation, count], few.as_slice()].concat());
        }
    }
    for operation in [3, 4, 7] {
        frames.push(vec![operation, 1, any_word(&mut author.random)]);
    }
    say_shuffled(author, frames);
}

/// A list of literals with a fault of each kind, at a random place, sometimes two.
fn faulty_lists(author: &mut Author<'_>) -> Vec<Vec<i32>> {
    let vars = author.state().vars;
    let mut lists = Vec::new();
    let words = [0, vars + 1, -vars - 1, i32::MAX, i32::MIN, vars, -vars];
    for word in words {
        let length = author.random.between(1, 9);
        let mut list = author.literals(length);
        for _ in 0..author.random.between(1, 2) {
            let place = author.random.below(length);
            list[place] = word;
        }
        lists.push(list);
    }
    for sign in [1, -1] {
        let length = author.random.between(2, MOST_LITERALS);
        let mut list = author.literals(length);
        let (one, other) = (author.random.below(length), author.random.below(length));
        list[one] = sign * list[other];
        lists.push(list);
    }
    lists
}

/// Code 3 in every list of literals, also where the id is at fault too.
pub fn literals(author: &mut Author<'_>) {
    prelude(author);
    let mut frames = Vec::new();
    for list in faulty_lists(author) {
        let id = author.new_id();
        let old = author.random.between(1, id as usize) as i32;
        frames.push(add(id, &list));
        frames.push(add(old, &list));
        frames.push(learn(id, &list, &[1, 2]));
        frames.push(learn(old, &list, &[0]));
        frames.push(weaken(old, &list, &[]));
        frames.push(sat(&list, &[1, 2]));
        frames.push(sat(&list, &[2, 2]));
        frames.push(unsat(&list, &[0]));
    }
    for trues in faulty_true_variables(author) {
        let length = author.random.below(3);
        let assumptions = author.literals(length);
        frames.push(sat(&assumptions, &trues));
    }
    say_shuffled(author, frames);
}

/// Rising variables with a word that is out of range or does not rise.
fn faulty_true_variables(author: &mut Author<'_>) -> Vec<Vec<i32>> {
    let vars = author.state().vars;
    let mut lists = Vec::new();
    for word in [0, -1, -vars, vars + 1, i32::MIN, i32::MAX] {
        let mut list = rising(author);
        let place = author.random.below(list.len());
        list[place] = word;
        lists.push(list);
    }
    for _ in 0..3 {
        let mut list = rising(author);
        let place = author.random.below(list.len());
        list.insert(place, list[place]);
        lists.push(list);
        let mut list = rising(author);
        list.reverse();
        lists.push(list);
    }
    lists
}

fn rising(author: &mut Author<'_>) -> Vec<i32> {
    let length = author.random.between(2, 9);
    let mut list: Vec<i32> = author.literals(length).iter().map(|l| l.abs()).collect();
    list.sort_unstable();
    list
}

/// Code 4: every operation on clauses of every place, on ids that went and on ids to come.
pub fn places(author: &mut Author<'_>) {
    prelude(author);
    for _ in 0..40 {
        let (state, random) = author.desk();
        let stacked = state.stack.iter().map(|record| record.id);
        let held = state
            .irredundant
            .keys()
            .chain(state.learned.keys())
            .copied();
        let mut ids: Vec<i32> = held.chain(stacked).collect();
        ids.push(random.between(1, state.highest as usize + 1) as i32);
        let near = ids[random.below(ids.len())];
        ids.push(i32::MAX);
        let id = ids[random.below(ids.len())];
        let hint = ids[random.below(ids.len())];
        let literal = random.literals(6, 1);
        let frame = match random.below(8) {
            0 => add(near, &literal),
            1 => learn(near, &literal, &[hint]),
            2 => forget(id),
            3 => promote(id),
            4 => drop_clause(id, &[hint]),
            5 => weaken(id, &literal, &[]),
            _ => restore(id),
        };
        author.say(&frame);
    }
}

/// Ids up to 2,147,483,647, after which none is new.
pub fn highest_ids(author: &mut Author<'_>) {
    let literals = author.literals(4);
    let near = i32::MAX - author.random.below(3) as i32 - 1;
    let mut frames = vec![
        add(near, &literals[..2]),
        learn(i32::MAX, &literals[..3], &[near]),
        add(i32::MAX, &literals[..1]),
        learn(near, &literals[..2], &[near]),
        weaken(near, &literals[..1], &[]),
        sat(&[], &[]),
        restore(near),
        promote(i32::MAX),
        drop_clause(i32::MAX, &[near]),
        // Ids that went stay used.
        add(i32::MAX, &literals[..1]),
        learn(i32::MAX, &literals[..2], &[near]),
        weaken(i32::MAX, &literals[..1], &[]),
        restore(i32::MAX),
        unsat(&[-literals[0], -literals[1]], &[i32::MAX]),
        unsat(&[-literals[0], -literals[1]], &[near]),
    ];
    if author.random.one_in(2) {
        frames.insert(2, forget(i32::MAX));
    }
    for frame in &frames {
        author.say(frame);
    }
}

/// The clauses that the hints of class `hints` are about.
struct Ground {
    literals: Vec<i32>,
    /// Three links that together prove the clause (first, last).
    links: [i32; 3],
    /// An irredundant clause that the links prove.
    implied: i32,
    /// A clause that the links allow to be weakened, and the clause it needs a group for.
    weakened: i32,
    needing: i32,
    /// Learned, and one with two open literals.
    learned: i32,
    loose: i32,
    /// Stacked, and proves at once where it may be named.
    stacked: i32,
}

fn lay_ground(author: &mut Author<'_>) -> Ground {
    let l = author.literals(12);
    let mut added = |clause: &[i32]| {
        let id = author.new_id();
        author.say(&add(id, clause));
        id
    };
    let links = [[l[0], l[1]], [-l[1], l[2]], [-l[2], l[3]]].map(|link| added(&link));
    let implied = added(&[l[3], l[0]]);
    let weakened = added(&[l[9], l[0]]);
    let needing = added(&[l[3], -l[9]]);
    let loose = added(&[l[4], l[5]]);
    let stacked = added(&[l[3], l[0]]);
    author.say(&weaken(stacked, &[l[3]], &[]));
    let learned = author.new_id();
    author.say(&learn(learned, &[l[0], l[2]], &links[..2]));
    Ground {
        literals: l,
        links,
        implied,
        weakened,
        needing,
        learned,
        loose,
        stacked,
    }
}

impl Ground {
    /// The same hints in each operation that reads any.
    fn frames(&self, id: i32, hints: &[i32]) -> Vec<Vec<i32>> {
        let l = &self.literals;
        vec![
            learn(id, &[l[0], l[3]], hints),
            drop_clause(self.implied, hints),
            unsat(&[-l[0], -l[3]], hints),
            weaken(self.weakened, &[l[9]], &[(self.needing, hints.to_vec())]),
        ]
    }

    /// Words that are bad hints somewhere.
    fn bad_hints(&self) -> Vec<i32> {
        vec![
            0,
            -1,
            i32::MIN,
            i32::MAX,
            -self.links[0],
            self.links[0],
            self.links[1],
            self.implied,
            self.weakened,
            self.needing,
            self.learned,
            self.loose,
            self.stacked,
        ]
    }
}

/// Codes 7 and 8 wherever hints are read, and words behind a proof that nobody reads.
pub fn hints(author: &mut Author<'_>) {
    let ground = lay_ground(author);
    let mut refused = Vec::new();
    for bad in ground.bad_hints() {
        for place in 0..=3 {
            let mut hints = ground.links.to_vec();
            hints.insert(place, bad);
            refused.push(hints);
        }
    }
    refused.extend((0..3).map(|length| ground.links[..length].to_vec()));
    author.random.shuffle(&mut refused);
    for hints in &refused {
        let id = author.new_id();
        let frames = ground.frames(id, hints);
        let frame = author.random.below(frames.len());
        author.say(&frames[frame]);
    }
    let id = author.new_id();
    for frame in ground.frames(id, &ground.links) {
        author.say(&frame);
    }
    empty_clauses(author);
}

/// "The empty clause is allowed": as a hint it proves at once, as a target it needs a hint.
fn empty_clauses(author: &mut Author<'_>) {
    let l = author.literals(2);
    let (one, other, empty) = (author.new_id(), i32::MAX - 2, i32::MAX - 1);
    author.say(&add(one, &l[..1]));
    author.say(&add(other, &[-l[0]]));
    author.say(&unsat(&[], &[one, other, 0]));
    author.say(&unsat(&[], &[]));
    author.say(&unsat(&[l[1], -l[1]], &[i32::MIN]));
    author.say(&learn(empty, &[], &[one]));
    author.say(&learn(empty, &[], &[one, other]));
    author.say(&unsat(&[l[1], l[1]], &[empty, -5]));
    author.say(&sat(&[], &[]));
    author.say(&promote(empty));
    author.say(&sat(&[], &[]));
    author.say(&weaken(empty, &l[..1], &[]));
    author.say(&drop_clause(other, &[empty]));
    author.say(&drop_clause(empty, &[one]));
    author.say(&learn(i32::MAX, &l, &[empty, 0]));
}

/// A clause C, its witness and the groups it needs.
struct Needs {
    clause: i32,
    witness: Vec<i32>,
    groups: Vec<Group>,
    /// A clause that needs no group.
    other: i32,
    learned: i32,
    /// Would prove a group if stacked clauses could.
    stacked: i32,
}

/// C = (x p) with three pairs of (-x q) and the resolvent (p q), and (-x -p), which opposite
/// literals prove. With the witness (y x) there are besides: (-y q), a hint of its own group
/// together with (y p); and (-x y), which holds a literal of the witness.
fn lay_needs(author: &mut Author<'_>) -> Needs {
    let l = author.literals(8);
    let (x, p, y) = (l[0], l[1], l[2]);
    let two = author.random.one_in(2);
    let mut clauses = vec![vec![x, p], vec![p, l[3]], vec![-p, -x]];
    for &q in &l[4..7] {
        clauses.extend([vec![-x, q], vec![p, q]]);
    }
    if two {
        clauses.extend([vec![-y, l[7]], vec![y, p], vec![-x, y]]);
    }
    author.random.shuffle(&mut clauses);
    let mut ids = BTreeMap::new();
    for clause in clauses {
        let id = author.new_id();
        author.say(&add(id, &clause));
        ids.insert(clause, id);
    }
    let id_of = |clause: [i32; 2]| ids[clause.as_slice()];
    let learned = author.new_id();
    author.say(&learn(learned, &[x, p], &[id_of([x, p])]));
    let stacked = author.new_id();
    author.say(&add(stacked, &[p, l[4]]));
    author.say(&weaken(stacked, &l[4..5], &[]));
    let mut groups: Vec<Group> = vec![(id_of([-p, -x]), vec![])];
    for &q in &l[4..7] {
        groups.push((id_of([-x, q]), vec![id_of([p, q])]));
    }
    if two {
        let own = id_of([-y, l[7]]);
        groups.push((own, vec![own, id_of([y, p])]));
    }
    groups.sort_unstable();
    Needs {
        clause: id_of([x, p]),
        witness: if two { vec![y, x] } else { vec![x] },
        groups,
        other: id_of([p, l[3]]),
        learned,
        stacked,
    }
}

impl Needs {
    fn frame(&self, groups: &[Group]) -> Vec<i32> {
        weaken(self.clause, &self.witness, groups)
    }

    /// The index of the word where a group's id is due.
    fn header(&self, group: usize) -> usize {
        self.frame(&self.groups[..group]).len()
    }

    /// Faults of one group's id and k.
    fn header_faults(&self, group: usize) -> Vec<Vec<i32>> {
        let right = self.frame(&self.groups);
        let header = self.header(group);
        let length = right.len() as i32;
        let behind = length - header as i32 - 2;
        let mut frames = vec![right[..header].to_vec(), right[..=header].to_vec()];
        for id in [0, -1, i32::MIN, i32::MAX, self.clause, self.other] {
            frames.push(replaced(&right, header, id));
        }
        for count in [-1, i32::MIN, i32::MAX, behind, behind + 1, length] {
            frames.push(replaced(&right, header + 1, count));
        }
        frames
    }

    /// Faults of one group's hints, alone and with a fault of another group beside.
    fn hint_faults(&self, group: usize) -> Vec<Vec<i32>> {
        let mut frames = Vec::new();
        let held = [self.clause, self.learned, self.stacked, self.other];
        let bad = [0, -7, i32::MAX].into_iter().chain(held);
        let lists = bad.map(|hint| vec![hint]).chain([vec![]]);
        for hints in lists {
            let mut groups = self.groups.clone();
            groups[group].1 = hints;
            let frame = self.frame(&groups);
            frames.push(frame[..frame.len() - 1].to_vec());
            frames.push(replaced(&frame, self.header(0), 0));
            frames.push([frame.as_slice(), &[0]].concat());
            frames.push(frame);
        }
        frames
    }

    /// Groups that are one too many or out of order.
    fn order_faults(&self, group: usize) -> Vec<Vec<i32>> {
        let mut twice = self.groups.clone();
        twice.insert(group, twice[group].clone());
        let mut swapped = self.groups.clone();
        swapped.swap(0, group);
        let mut foreign = self.groups.clone();
        foreign.insert(group, (self.other, vec![]));
        let mut last = self.groups.clone();
        last.push((self.other, vec![0]));
        [twice, swapped, foreign, last]
            .iter()
            .map(|groups| self.frame(groups))
            .collect()
    }
}

fn replaced(frame: &[i32], place: usize, word: i32) -> Vec<i32> {
    let mut frame = frame.to_vec();
    if let Some(old) = frame.get_mut(place) {
        *old = word;
    }
    frame
}

/// Code 9, and 7 and 8 in every group of WEAKEN, then the right groups.
pub fn groups(author: &mut Author<'_>) {
    let needs = lay_needs(author);
    let mut frames = Vec::new();
    for group in 0..needs.groups.len() {
        frames.extend(needs.header_faults(group));
        frames.extend(needs.hint_faults(group));
        frames.extend(needs.order_faults(group));
    }
    author.random.shuffle(&mut frames);
    frames.truncate(60);
    for frame in &frames {
        author.say(frame);
    }
    // Hints behind the proof are not read, also where opposite literals prove.
    let mut unread = needs.groups.clone();
    for (_, hints) in &mut unread {
        let garbage = author.random.below(4);
        hints.extend((0..garbage).map(|_| any_word(&mut author.random)));
    }
    author.say(&needs.frame(&unread));
    author.say(&needs.frame(&needs.groups));
    author.say(&restore(needs.clause));
    author.say(&needs.frame(&needs.groups));
}
