//! Faults planted into one line of a sound proof, one or two in a given order of their places.

use super::draft::{any_first, Draft, Moment, Step};
use super::layout::{word, Line, Word};
use super::room::full_for;
use super::Pair;
use crate::lrat::Refusal;
use crate::random::Random;
use crate::terms::MOST_LITERALS;
use crate::texts::numbers::past_a_power;
use crate::texts::words::{any_no_number, any_past};

/// The parts of a line, in order.
#[derive(Clone, Copy, Debug, PartialEq, Eq, PartialOrd, Ord)]
enum Zone {
    Id,
    Middle,
    Ids,
    End,
}

/// Where a fault can stand; that there is no room stands nowhere.
fn zones(kind: Refusal) -> &'static [Zone] {
    match kind {
        Refusal::Malformed => &[Zone::Id, Zone::Middle, Zone::Ids, Zone::End],
        Refusal::PastCount | Refusal::AgainstTerms => &[Zone::Middle],
        Refusal::IdNotAbove => &[Zone::Id],
        Refusal::NotHeld | Refusal::NegativeHint | Refusal::Unproved => &[Zone::Ids],
        Refusal::Entries | Refusal::Words | Refusal::NoEmptyClause => &[],
    }
}

/// The zones that two faults can stand in, one behind the other.
fn zones_of(first: Refusal, second: Refusal) -> Vec<[Zone; 2]> {
    let behind = |&one: &Zone| zones(second).iter().map(move |&other| [one, other]);
    let has_order = |&[one, other]: &[Zone; 2]| {
        let takes_several = matches!(one, Zone::Middle | Zone::Ids);
        one < other || one == other && takes_several
    };
    zones(first)
        .iter()
        .flat_map(behind)
        .filter(has_order)
        .collect()
}

/// Every pair of faults of one line, in every order in which they can stand in it. No room stands nowhere, so its pairs
/// come in the list's order.
pub fn all_pairs() -> Vec<[Refusal; 2]> {
    let kinds = Refusal::OF_A_LINE;
    let pairs = kinds
        .into_iter()
        .flat_map(|one| kinds.map(|other| [one, other]));
    pairs
        .filter(|&[one, other]| can_stand(one, other))
        .collect()
}

fn can_stand(first: Refusal, second: Refusal) -> bool {
    let deletes = [first, second].contains(&Refusal::NotHeld);
    let is_of_deletion = |kind| matches!(kind, Refusal::Malformed | Refusal::NotHeld);
    if first == second || deletes && !(is_of_deletion(first) && is_of_deletion(second)) {
        return false;
    }
    match zones(first).is_empty() || zones(second).is_empty() {
        true => first < second,
        false => !zones_of(first, second).is_empty(),
    }
}

/// A pair of texts in which one line has these faults, each behind the one before it, and nothing else
/// is wrong up to it.
pub fn planted(kinds: &[Refusal], random: &mut Random) -> Pair {
    let (draft, place) = host_of(kinds, random);
    let line = faulty_line(&draft, place, kinds, random);
    Pair::with_line(&draft, place, line, random)
}

/// The step of a sound proof with these faults.
pub fn faulty_line(
    draft: &Draft,
    place: usize,
    kinds: &[Refusal],
    random: &mut Random,
) -> Vec<Word> {
    let mut planter = Planter {
        vars: draft.rules.vars,
        deletes: matches!(draft.steps[place], Step::Delete { .. }),
        moment: draft.moment(place),
        line: Line::of(&draft.steps[place]),
        random,
    };
    planter.plant_all(kinds);
    planter.line.words()
}

/// A sound proof and the place of a step that can have these faults.
fn host_of(kinds: &[Refusal], random: &mut Random) -> (Draft, usize) {
    if kinds.iter().any(|kind| zones(*kind).is_empty()) {
        return full_for(kinds, random);
    }
    let mut draft = Draft::any(random);
    if random.one_in(4) {
        draft.spread_ids(random);
    }
    let deletes = kinds.contains(&Refusal::NotHeld);
    if deletes || kinds == [Refusal::Malformed] && random.one_in(2) {
        let place = draft.any_place(random);
        let step = any_deletion(&draft.moment(place), random);
        draft.steps.insert(place, step);
        return (draft, place);
    }
    let additions = draft.additions();
    let place = additions[random.below(additions.len())];
    (draft, place)
}

/// A line that deletes some held clauses, or none.
fn any_deletion(moment: &Moment, random: &mut Random) -> Step {
    let mut ids: Vec<i64> = moment.held.keys().copied().collect();
    random.shuffle(&mut ids);
    ids.truncate(random.below(4));
    Step::Delete {
        first: any_first(moment.highest, random),
        ids,
    }
}

struct Planter<'r> {
    vars: i32,
    deletes: bool,
    moment: Moment,
    line: Line,
    random: &'r mut Random,
}

impl Planter<'_> {
    fn plant_all(&mut self, kinds: &[Refusal]) {
        let kinds = kinds.iter().copied();
        let placed: Vec<Refusal> = kinds.filter(|&kind| !zones(kind).is_empty()).collect();
        match *placed.as_slice() {
            [kind] => {
                let zone = zones(kind)[self.random.below(zones(kind).len())];
                self.plant(kind, zone, usize::MAX);
            }
            [first, second] => {
                let both = zones_of(first, second);
                let [one, other] = both[self.random.below(both.len())];
                // The one behind goes in first, so that it knows its place.
                let place = self.plant(second, other, usize::MAX);
                let most = if one == other { place } else { usize::MAX };
                self.plant(first, one, most);
            }
            _ => {}
        }
    }

    /// Plants a fault in a zone, in a list at this place or before it, and tells the place.
    fn plant(&mut self, kind: Refusal, zone: Zone, most: usize) -> usize {
        match zone {
            Zone::Id => self.line.id = self.any_id(kind),
            Zone::Middle if self.deletes && self.random.one_in(2) => {
                let others = ["D", "dd", "d0", "-d", "del", "d1"];
                self.line.middle = vec![word(others[self.random.below(others.len())])];
            }
            Zone::Middle => {
                let words = self.any_in_middle(kind);
                // The 0 behind the literals stays last; d is a word like others.
                let last = self.line.middle.len() - usize::from(!self.deletes);
                let place = self.random.between(0, last.min(most));
                self.line.middle.splice(place..place, words);
                return place;
            }
            Zone::Ids => {
                let word = self.any_among_ids(kind);
                // A hint behind the conflict would not be read.
                let unread = usize::from(kind == Refusal::Unproved && !self.line.ids.is_empty());
                let last = self.line.ids.len() - unread;
                let place = self.random.between(0, last.min(most));
                self.line.ids.insert(place, word);
                return place;
            }
            Zone::End => self.spoil_end(),
        }
        0
    }

    fn any_id(&mut self, kind: Refusal) -> Word {
        let highest = self.moment.highest;
        if kind == Refusal::IdNotAbove {
            return word(self.random.between(1, highest as usize));
        }
        match self.random.below(6) {
            0 if !self.deletes => word(0),
            1 if !self.deletes => word(-highest - 1),
            2 if !self.deletes => word(1i64 << 31),
            3 if !self.deletes => word((1i64 << 32) + highest + 1),
            _ => any_no_number(self.random),
        }
    }

    fn any_in_middle(&mut self, kind: Refusal) -> Vec<Word> {
        let too_many = MOST_LITERALS + 1;
        match kind {
            Refusal::PastCount => vec![any_past(self.vars, self.random)],
            Refusal::Malformed => vec![any_no_number(self.random)],
            _ if self.vars as usize >= too_many && self.random.one_in(2) => {
                let literals = self.random.literals(self.vars, too_many);
                literals.into_iter().map(word).collect()
            }
            _ => {
                let variable = self.random.variable(self.vars);
                let literals = [(); 2].map(|()| self.random.signed(variable));
                literals.map(word).to_vec()
            }
        }
    }

    fn any_among_ids(&mut self, kind: Refusal) -> Word {
        let held = self.moment.any_held(self.random);
        let twice = self.line.ids.first().cloned();
        match (kind, self.random.below(5)) {
            (Refusal::Malformed, 0) => word(0),
            (Refusal::Malformed, 1 | 2) if self.deletes => word(-held),
            (Refusal::Malformed, _) => any_no_number(self.random),
            (Refusal::NegativeHint, 0) => [b"-", &self.any_wrapping(held)[..]].concat(),
            (Refusal::NegativeHint, 1) => word(-self.moment.not_held(self.random)),
            (Refusal::NegativeHint, _) => word(-held),
            (_, 0) => self.any_wrapping(held),
            (Refusal::NotHeld, 1 | 2) if twice.is_some() => twice.unwrap_or_default(),
            _ => word(self.moment.not_held(self.random)),
        }
    }

    /// An id past all that would be this one if bits or digits were lost.
    fn any_wrapping(&mut self, id: i64) -> Word {
        loop {
            let number = past_a_power(id as u32, self.random);
            if number.len() > 10 {
                return number;
            }
        }
    }

    /// The last 0 is missing, or it is not the last word.
    fn spoil_end(&mut self) {
        match self.random.below(4) {
            0 => self.line.end.clear(),
            1 => self.line.end.push(word(0)),
            2 => self.line.end.push(any_no_number(self.random)),
            _ => self.line.end.push(word(self.moment.highest)),
        }
    }
}
