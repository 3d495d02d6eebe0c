//! The checker: one state, one answer for each frame.
//!
//! The state is held in maps by id and a vector of records. Beside it stand two sums that can
//! be had from it at any time, so that no frame counts them anew, and two notebooks.

use crate::answer::{Answer, Refusal};
use crate::assignment::Assignment;
use crate::frame::{Frame, Part};
use crate::propagation::{prove, Unproved};
use crate::state::{Place, Record, State};
use crate::terms::{variable, MOST_ENTRIES, MOST_VARIABLES, MOST_WORDS};
use crate::values::Values;

/// What answers frames and shows its state: the checker, or one that deviates from it.
pub trait Checks {
    fn step(&mut self, frame: &[i32]) -> Answer;
    fn state(&self) -> &State;
}

#[derive(Clone, Debug)]
pub struct Checker {
    state: State,
    /// How many literals and witness literals the state holds.
    held_words: usize,
    /// How many stacked witnesses hold each literal.
    witnessed: Witnessed,
    /// A set of literals the current frame asks about.
    marks: Values,
    /// What propagation has found so far.
    values: Values,
}

impl Checks for Checker {
    /// "Every code but 0 leaves all tables, V, the highest id and the model buffer as found":
    /// each operation judges first and changes the state last.
    fn step(&mut self, frame: &[i32]) -> Answer {
        self.judge(frame).unwrap_or_else(Answer::from)
    }

    fn state(&self) -> &State {
        &self.state
    }
}

impl Checker {
    /// Opening "gives 1 for lent sizes only and then 3".
    pub fn open(vars: i32, entries: usize, words: usize) -> Result<Checker, Answer> {
        if !(1..=MOST_ENTRIES).contains(&entries) || !(1..=MOST_WORDS).contains(&words) {
            return Err(Refusal::Sizes.into());
        }
        if !(1..=MOST_VARIABLES).contains(&vars) {
            return Err(Refusal::Literal { word: 0 }.into());
        }
        Ok(Checker::with_state(State::empty(vars, entries, words)))
    }

    /// A checker that goes on from a state. What it is given must be one by document 01.
    pub fn with_state(state: State) -> Checker {
        let mut witnessed = Witnessed::new(state.vars);
        for record in &state.stack {
            witnessed.add(&record.witness);
        }
        Checker {
            held_words: state.held_words(),
            witnessed,
            marks: Values::new(state.vars),
            values: Values::new(state.vars),
            state,
        }
    }

    fn judge(&mut self, words: &[i32]) -> Result<Answer, Refusal> {
        let frame = Frame::read(words)?;
        frame.judge_literals(self.state.vars, &mut self.marks)?;
        match frame {
            Frame::Add { id, clause } => self.add(id, clause.words)?,
            Frame::Learn { id, clause, hints } => self.learn(id, clause.words, hints)?,
            Frame::Forget { id } => self.forget(id)?,
            Frame::Promote { id } => self.promote(id)?,
            Frame::Drop { id, hints } => self.drop_clause(id, hints)?,
            Frame::Weaken {
                id,
                witness,
                groups,
            } => self.weaken(id, witness.words, groups)?,
            Frame::Restore { id } => self.restore(id)?,
            Frame::Sat {
                assumptions,
                true_variables,
            } => return self.sat(assumptions, true_variables.words),
            Frame::Unsat { assumptions, hints } => self.unsat(assumptions.words, hints)?,
        }
        Ok(Answer::accepted())
    }

    fn add(&mut self, id: i32, clause: &[i32]) -> Result<(), Refusal> {
        self.judge_new(id)?;
        self.judge_clean(clause)?;
        self.judge_room(clause)?;
        self.accept_new(id, clause);
        self.state.irredundant.insert(id, clause.to_vec());
        Ok(())
    }

    fn learn(&mut self, id: i32, clause: &[i32], hints: Part<'_>) -> Result<(), Refusal> {
        self.judge_new(id)?;
        self.judge_room(clause)?;
        self.prove_from_held(clause.iter().copied(), hints)?;
        self.accept_new(id, clause);
        self.state.learned.insert(id, clause.to_vec());
        Ok(())
    }

    fn forget(&mut self, id: i32) -> Result<(), Refusal> {
        let clause = take(&mut self.state.learned, id)?;
        self.held_words -= clause.len();
        Ok(())
    }

    fn promote(&mut self, id: i32) -> Result<(), Refusal> {
        let clause = take(&mut self.state.learned, id)?;
        self.state.irredundant.insert(id, clause);
        Ok(())
    }

    /// "irredundant, proved from the *other* irredundant clauses; goes". Of stacked clauses
    /// document 02 says: "DROP and WEAKEN still may not."
    fn drop_clause(&mut self, id: i32, hints: Part<'_>) -> Result<(), Refusal> {
        let irredundant = &self.state.irredundant;
        let clause = find(irredundant, id)?;
        prove(
            &mut self.values,
            clause.iter().copied(),
            hints.indexed(),
            |hint| other_than(irredundant, id, hint),
        )
        .map_err(|unproved| refusal(unproved, 0))?;
        self.held_words -= clause.len();
        self.state.irredundant.remove(&id);
        Ok(())
    }

    /// "irredundant clause moves to the top of the stack with its witness"; its hints name
    /// irredundant clauses alone, as those of DROP do.
    fn weaken(&mut self, id: i32, witness: &[i32], groups: Part<'_>) -> Result<(), Refusal> {
        let clause = find(&self.state.irredundant, id)?;
        self.marks.become_set(witness);
        if !clause.iter().any(|&literal| self.marks.is_true(literal)) {
            return Err(Refusal::Witness);
        }
        self.judge_words(witness.len())?;
        judge_groups(
            &self.state.irredundant,
            id,
            &self.marks,
            groups,
            &mut self.values,
        )?;
        let clause = take(&mut self.state.irredundant, id)?;
        self.held_words += witness.len();
        self.witnessed.add(witness);
        self.state.stack.push(Record {
            id,
            clause,
            witness: witness.to_vec(),
        });
        Ok(())
    }

    /// "stacked clause, clean against every record above it"; its own record is not above.
    fn restore(&mut self, id: i32) -> Result<(), Refusal> {
        let stack = &self.state.stack;
        let place = stack.iter().rposition(|record| record.id == id);
        let place = place.ok_or(Refusal::Id { id })?;
        self.marks.become_set(&stack[place].clause);
        judge_clean_against(&stack[place + 1..], &self.marks)?;
        let record = self.state.stack.remove(place);
        self.held_words -= record.witness.len();
        self.witnessed.remove(&record.witness);
        self.state.irredundant.insert(id, record.clause);
        Ok(())
    }

    /// "Order: ... SAT 11, 5, 10"
    fn sat(&mut self, assumptions: Part<'_>, true_variables: &[i32]) -> Result<Answer, Refusal> {
        let offered = Assignment::new(self.state.vars, true_variables);
        let mut indexed = assumptions.indexed();
        if let Some((word, _)) = indexed.find(|&(_, literal)| !offered.makes_true(literal)) {
            return Err(Refusal::FalseAssumption { word });
        }
        self.judge_clean(assumptions.words)?;
        let mut irredundant = self.state.irredundant.iter();
        if let Some((&id, _)) = irredundant.find(|(_, clause)| !offered.satisfies(clause)) {
            return Err(Refusal::FalseClause { id });
        }
        let mended = mend(offered.clone(), &self.state.stack);
        Ok(Answer::mended(
            offered.changed(&mended),
            mended.true_variables(),
        ))
    }

    /// "the opposites of the assumptions, as target, proved from irredundant and learned", and
    /// from stacked clauses by document 02.
    fn unsat(&mut self, assumptions: &[i32], hints: Part<'_>) -> Result<(), Refusal> {
        self.prove_from_held(assumptions.iter().map(|&literal| -literal), hints)
    }

    /// Irredundant and learned clauses by document 01, and by document 02: "A stacked clause
    /// follows from what was added, so LEARN and UNSAT may name it as a hint from now on."
    fn prove_from_held(
        &mut self,
        target: impl Iterator<Item = i32>,
        hints: Part<'_>,
    ) -> Result<(), Refusal> {
        let state = &self.state;
        prove(&mut self.values, target, hints.indexed(), |hint| {
            state.find(hint)
        })
        .map_err(|unproved| refusal(unproved, 0))
    }

    /// "A new id must be greater than every id accepted before since opening."
    fn judge_new(&self, id: i32) -> Result<(), Refusal> {
        if id <= self.state.highest {
            return Err(Refusal::Id { id });
        }
        Ok(())
    }

    /// Clean against every record. Most sets meet no witness at all, which the sums tell
    /// without a look at the stack.
    fn judge_clean(&mut self, literals: &[i32]) -> Result<(), Refusal> {
        if !self.witnessed.any_opposite(literals) {
            return Ok(());
        }
        self.marks.become_set(literals);
        judge_clean_against(&self.state.stack, &self.marks)
    }

    /// 12, then 13.
    fn judge_room(&self, clause: &[i32]) -> Result<(), Refusal> {
        if self.state.clauses() >= self.state.entries {
            return Err(Refusal::Entries);
        }
        self.judge_words(clause.len())
    }

    /// "literals and witness literals held, plus the new ones, exceed the lent words"
    fn judge_words(&self, new: usize) -> Result<(), Refusal> {
        if self.held_words + new > self.state.words {
            return Err(Refusal::Words);
        }
        Ok(())
    }

    fn accept_new(&mut self, id: i32, clause: &[i32]) {
        self.state.highest = id;
        self.held_words += clause.len();
    }
}

/// Each other irredundant clause D that holds the opposite of a literal of W and no literal of
/// W needs one group, by rising id; "No other group may be there." The marks are W.
fn judge_groups(
    irredundant: &Place,
    id: i32,
    marks: &Values,
    mut groups: Part<'_>,
    values: &mut Values,
) -> Result<(), Refusal> {
    let clause = find(irredundant, id)?;
    for (&other, touched) in irredundant {
        if other == id || !needs_group(touched, marks) {
            continue;
        }
        let hints = next_group(&mut groups, other)?;
        // "The target is C together with D less the opposites of W".
        let rest = touched.iter().filter(|&&literal| !marks.is_false(literal));
        prove(
            values,
            clause.iter().chain(rest).copied(),
            hints.indexed(),
            |hint| other_than(irredundant, id, hint),
        )
        .map_err(|unproved| refusal(unproved, other))?;
    }
    if groups.words.is_empty() {
        Ok(())
    } else {
        Err(Refusal::Group { word: groups.start })
    }
}

fn needs_group(clause: &[i32], witness: &Values) -> bool {
    let mut opposite = false;
    for &literal in clause {
        if witness.is_true(literal) {
            return false;
        }
        opposite |= witness.is_false(literal);
    }
    opposite
}

/// Takes D's id, k and k hints from the front, and hands back the hints.
fn next_group<'f>(groups: &mut Part<'f>, id: i32) -> Result<Part<'f>, Refusal> {
    let frame_length = groups.start + groups.words.len();
    let missing = Refusal::Group { word: frame_length };
    let wrong = |word| Refusal::Group { word };
    let (header, behind) = groups.split(1).ok_or(missing)?;
    if header.words[0] != id {
        return Err(wrong(header.start));
    }
    let (count, behind) = behind.split(1).ok_or(missing)?;
    let hints = usize::try_from(count.words[0])
        .ok()
        .and_then(|length| behind.split(length));
    let (hints, behind) = hints.ok_or(wrong(count.start))?;
    *groups = behind;
    Ok(hints)
}

/// "A clause is *clean* against a record when it holds no literal whose opposite is in the
/// witness." The marks are the clause. The detail is the topmost offending record.
fn judge_clean_against(records: &[Record], marks: &Values) -> Result<(), Refusal> {
    let offends = |record: &&Record| {
        record
            .witness
            .iter()
            .any(|&literal| marks.is_false(literal))
    };
    match records.iter().rev().find(offends) {
        Some(record) => Err(Refusal::NotClean { record: record.id }),
        None => Ok(()),
    }
}

/// "walk the records from top to bottom: where the record's clause has no true literal, make
/// all its witness literals true"
fn mend(mut assignment: Assignment, stack: &[Record]) -> Assignment {
    for record in stack.iter().rev() {
        if !assignment.satisfies(&record.clause) {
            for &literal in &record.witness {
                assignment.make_true(literal);
            }
        }
    }
    assignment
}

fn find(place: &Place, id: i32) -> Result<&[i32], Refusal> {
    place.get(&id).map(Vec::as_slice).ok_or(Refusal::Id { id })
}

fn take(place: &mut Place, id: i32) -> Result<Vec<i32>, Refusal> {
    place.remove(&id).ok_or(Refusal::Id { id })
}

/// The clause a hint names, unless it is the one that leaves.
fn other_than(irredundant: &Place, leaving: i32, hint: i32) -> Option<&[i32]> {
    if hint == leaving {
        return None;
    }
    irredundant.get(&hint).map(Vec::as_slice)
}

/// Refusal 7 or 8; 8 carries the id of D for WEAKEN, else 0.
fn refusal(unproved: Unproved, clause: i32) -> Refusal {
    match unproved {
        Unproved::Hint { word } => Refusal::Hint { word },
        Unproved::UsedUp => Refusal::UsedUp { clause },
    }
}

/// How many stacked witnesses hold each literal.
#[derive(Clone, Debug)]
struct Witnessed {
    /// By literal: twice its variable, one more when negative.
    times: Vec<u32>,
}

impl Witnessed {
    fn new(vars: i32) -> Witnessed {
        Witnessed {
            times: vec![0; 2 * (vars as usize + 1)],
        }
    }

    fn slot(literal: i32) -> usize {
        2 * variable(literal) + usize::from(literal < 0)
    }

    fn add(&mut self, witness: &[i32]) {
        for &literal in witness {
            self.times[Witnessed::slot(literal)] += 1;
        }
    }

    fn remove(&mut self, witness: &[i32]) {
        for &literal in witness {
            self.times[Witnessed::slot(literal)] -= 1;
        }
    }

    /// Whether the opposite of one of these literals is in a stacked witness.
    fn any_opposite(&self, literals: &[i32]) -> bool {
        let mut opposites = literals.iter().map(|&literal| Witnessed::slot(-literal));
        opposites.any(|slot| self.times[slot] > 0)
    }
}
