//! Tables, what is carried, a model and a line, held together for a host that wants no more.

use crate::dimacs;
use crate::replies::write_line;
use crate::{clause, end, give, open, step, witness};
use crate::{Answer, Carried, ClauseId, Code, Entry, Frame, Literal, Operation, Reader};
use crate::{Refused, Reply, Variable, IRREDUNDANT, LEARNED};
use crate::{LONGEST_ANSWER, LONGEST_FRAME, SHORTEST_ANSWER};
use crate::{MODEL_WORDS, MOST_ENTRIES, MOST_WORDS};

/// What a session goes on from: plain words, which may be kept anywhere.
#[derive(Clone, Debug, PartialEq, Eq)]
pub struct Tables {
    pub entries: Vec<Entry>,
    pub pool: Vec<i32>,
    pub carried: Box<Carried>,
}

impl Tables {
    fn unopened(entries: usize, words: usize) -> Tables {
        Tables {
            entries: vec![Entry::default(); entries],
            pool: vec![0; words],
            carried: Box::default(),
        }
    }

    /// As much as can be lent, not opened yet.
    pub(crate) fn largest() -> Tables {
        Tables::unopened(MOST_ENTRIES, MOST_WORDS)
    }
}

/// A line that is begun: how far it is read, and its words.
#[derive(Clone)]
struct Line {
    reader: Reader,
    frame: Vec<i32>,
}

impl Line {
    fn fresh() -> Line {
        Line {
            reader: Reader::default(),
            frame: vec![0; LONGEST_FRAME],
        }
    }
}

/// Room for the answers to some thousand lines: `give` takes no more of a part than it can answer.
const OUT_BYTES: usize = LONGEST_ANSWER + 256 * 1_024;

/// A checker with tables of its own. What it lends is always a state, since only the calls write it.
#[derive(Clone)]
pub struct Session {
    tables: Tables,
    model: [u64; MODEL_WORDS],
    line: Line,
    out: Vec<u8>,
}

/// Where a clause stands.
#[derive(Clone, Copy, Debug, PartialEq, Eq, PartialOrd, Ord, Hash)]
pub enum Place {
    Irredundant,
    Learned,
    Stacked,
}

/// A clause that a session holds, where it lies. Only a stacked clause has a witness.
#[derive(Clone, Copy, Debug, PartialEq, Eq)]
pub struct Held<'s> {
    pub id: ClauseId,
    pub place: Place,
    pub clause: &'s [Literal],
    pub witness: &'s [Literal],
}

impl Session {
    /// Opens with tables of these sizes, or hands back the refusal.
    pub fn open(vars: u32, entries: usize, words: usize) -> Result<Session, Refused> {
        // One more than can be lent is refused like any number above, and costs no memory.
        let mut tables = Tables::unopened(entries.min(MOST_ENTRIES + 1), words.min(MOST_WORDS + 1));
        open(vars, &tables.entries, &tables.pool, &mut tables.carried).accepted()?;
        Ok(Session::over(tables))
    }

    /// Opens for the variables of a text and says its clauses: rule after rule, ids from 1 on. A
    /// fault of the text is handed back, or the first refusal of a rule.
    pub fn of_rules(text: &[u8], entries: usize, words: usize) -> Result<Session, Refused> {
        let vars = dimacs::judge(text)?.vars as u32; // at most 2,048
        let mut session = Session::open(vars, entries, words)?;
        // No table has room for more, so the one behind the last is refused at the latest.
        let rules = dimacs::frames(text).take(MOST_ENTRIES + 1);
        let rules: Vec<Frame> = rules.collect::<Result<_, _>>()?;
        for reply in session.say_all(&rules) {
            reply.answer.accepted()?;
        }
        Ok(session)
    }

    /// Goes on from tables that were kept elsewhere. They may have any bits: what is no state is
    /// refused. The model is empty until a SAT is said, and no line is begun.
    pub fn from_tables(tables: Tables) -> Result<Session, Refused> {
        let mut session = Session::over(tables);
        // That tables are a state is asked before all else, so no frame at all asks for just that.
        let answer = session.say(&[]);
        if answer.meaning() == Some(Code::NoState) {
            return Err(Refused(answer));
        }
        Ok(session)
    }

    fn over(tables: Tables) -> Session {
        Session {
            tables,
            model: [0; MODEL_WORDS],
            line: Line::fresh(),
            out: vec![0; OUT_BYTES],
        }
    }

    pub fn tables(&self) -> &Tables {
        &self.tables
    }

    /// The tables, to keep them elsewhere. A line that is begun is lost.
    pub fn into_tables(self) -> Tables {
        self.tables
    }

    /// Says one frame: a `Frame`, or any words.
    pub fn say(&mut self, frame: &(impl AsRef<[i32]> + ?Sized)) -> Answer {
        step(
            &mut self.tables.entries,
            &mut self.tables.pool,
            &mut self.tables.carried,
            frame.as_ref(),
            &mut self.model,
        )
    }

    /// Says many frames at once, as lines: the tables are loaded once for all of them, or again
    /// where answers are many. Answers, what is held and the model are those of saying them one by
    /// one.
    pub fn say_all(&mut self, frames: &[impl AsRef<[i32]>]) -> Vec<Reply> {
        let mut lines = Vec::new();
        for frame in frames {
            write_line(frame.as_ref(), &mut lines);
        }
        // A line that is begun by `give` is none of theirs.
        let answers = give_all(&mut self.tables, &mut Line::fresh(), &lines, &mut self.out);
        let replies = Reply::read_all(&answers).expect("answers are lines of words");
        for (frame, reply) in frames.iter().zip(&replies) {
            let is_sat = frame.as_ref().first() == Some(&(Operation::Sat as i32));
            if is_sat && reply.answer.is_accepted() {
                self.model = words_of(&reply.model);
            }
        }
        replies
    }

    /// Gives bytes of the line input, all of them; the answers to the lines that they close.
    pub fn give(&mut self, bytes: &[u8]) -> Vec<u8> {
        give_all(&mut self.tables, &mut self.line, bytes, &mut self.out)
    }

    /// Ends the line input; the answer to a line that was not closed, if there is such. What is
    /// given then is another input.
    pub fn end(&mut self) -> Vec<u8> {
        let mut out = vec![0; SHORTEST_ANSWER];
        let (answer, written) = end(&self.line.reader, &mut out);
        assert!(answer.is_accepted(), "what a session lends is a reader");
        out.truncate(written as usize);
        self.line.reader = Reader::default();
        out
    }
}

/// What a session holds.
impl Session {
    /// How many variables there are.
    pub fn vars(&self) -> u32 {
        self.tables.carried.vars
    }

    /// The least id that ADD and LEARN take, unless the last one is used.
    pub fn next_id(&self) -> Option<ClauseId> {
        ClauseId::new(self.tables.carried.highest + 1).ok()
    }

    /// Every clause that is held, as they lie: by rising id, unless tables from elsewhere had
    /// another order and no change was accepted since.
    pub fn held(&self) -> impl Iterator<Item = Held<'_>> {
        (0..self.tables.carried.count as usize).map(|at| self.held_at(at))
    }

    /// The clause of an id, if it is held.
    pub fn clause(&self, id: ClauseId) -> Option<Held<'_>> {
        self.held().find(|held| held.id == id)
    }

    /// The ids of the records, from the bottom of the stack to its top.
    pub fn stack(&self) -> impl DoubleEndedIterator<Item = ClauseId> + '_ {
        let carried = &self.tables.carried;
        let ids = &carried.stack[..carried.depth as usize];
        ids.iter().map(|&id| ClauseId::held(id))
    }

    /// The true variables of the last accepted SAT that was said, rising.
    pub fn model(&self) -> impl Iterator<Item = Variable> + '_ {
        let all = (1..=self.vars()).filter_map(|number| Variable::new(number).ok());
        all.filter(|&variable| self.is_true(variable))
    }

    /// The same as words: variable v is bit (v - 1) % 64 of word (v - 1) / 64.
    pub fn model_words(&self) -> &[u64; MODEL_WORDS] {
        &self.model
    }

    /// What it says of a variable.
    pub fn is_true(&self, variable: Variable) -> bool {
        let (word, bit) = variable.place();
        self.model[word] & bit != 0
    }

    fn held_at(&self, at: usize) -> Held<'_> {
        let Tables { entries, pool, .. } = &self.tables;
        Held {
            id: ClauseId::held(entries[at].id),
            place: match entries[at].place {
                IRREDUNDANT => Place::Irredundant,
                LEARNED => Place::Learned,
                _ => Place::Stacked,
            },
            clause: Literal::held(clause(entries, pool, at)),
            witness: Literal::held(witness(entries, pool, at)),
        }
    }
}

/// Gives all of the bytes, as far as there is room for answers each time.
fn give_all(tables: &mut Tables, line: &mut Line, mut bytes: &[u8], out: &mut [u8]) -> Vec<u8> {
    let mut answers = Vec::new();
    while !bytes.is_empty() {
        let (answer, given) = give(
            &mut tables.entries,
            &mut tables.pool,
            &mut tables.carried,
            &mut line.reader,
            &mut line.frame,
            bytes,
            out,
        );
        assert!(answer.is_accepted(), "what a session lends is a state");
        answers.extend_from_slice(&out[..given.written as usize]);
        bytes = &bytes[given.taken as usize..];
    }
    answers
}

fn words_of(model: &[Variable]) -> [u64; MODEL_WORDS] {
    let mut words = [0; MODEL_WORDS];
    for variable in model {
        let (word, bit) = variable.place();
        words[word] |= bit;
    }
    words
}
