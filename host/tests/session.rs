//! A session: what it holds and hands out, many frames at once, and going on from kept tables.

use second::checker::Checks;
use second::histogram::lines_of;
use second::lines::{opened, read_words};
use second::state::State;
use second::traces::CLASSES;
use zahrubel::{Code, Held, Literal, Place, Refused, Reply, Session, Tables, Variable};

fn session() -> Session {
    Session::open(2_048, 1_024, 8_192).expect("these sizes can be lent")
}

/// The frames of one trace of each class, spoilt ones among them: no trace that is for timing.
fn traces() -> impl Iterator<Item = (&'static str, Vec<Vec<i32>>)> {
    let classes = CLASSES.iter().filter(|class| class.name != "heavy");
    classes.map(|class| {
        let frames = lines_of(&class.trace(3))
            .filter_map(|(line, _)| {
                let mut words = Vec::new();
                read_words(line, &mut words).map(|()| words)
            })
            .collect();
        (class.name, frames)
    })
}

fn words(literals: &[Literal]) -> Vec<i32> {
    literals.iter().map(|literal| literal.word()).collect()
}

/// What a session holds is what the second implementation holds.
fn check_held(session: &Session, state: &State) {
    let held = |place| session.held().filter(move |held| held.place == place);
    let pair = |held: Held<'_>| (held.id.word(), words(held.clause));
    assert!(held(Place::Irredundant)
        .map(pair)
        .eq(state.irredundant.clone()));
    assert!(held(Place::Learned).map(pair).eq(state.learned.clone()));
    let stack: Vec<_> = session
        .stack()
        .map(|id| session.clause(id).expect("a record is held"))
        .collect();
    assert_eq!(stack.len(), state.stack.len());
    for (held, record) in stack.iter().zip(&state.stack) {
        assert_eq!((held.id.word(), held.place), (record.id, Place::Stacked));
        assert_eq!(words(held.clause), record.clause);
        assert_eq!(words(held.witness), record.witness);
    }
    let next = session.next_id().map(|id| i64::from(id.number()));
    let highest = i64::from(state.highest);
    assert_eq!(next, (state.highest < i32::MAX).then_some(highest + 1));
}

#[test]
fn what_is_held_is_what_the_second_holds() {
    for (_, frames) in traces() {
        let (mut session, mut checker) = (session(), opened());
        for (at, frame) in frames.iter().enumerate() {
            session.say(frame);
            checker.step(frame);
            if at % 40 == 0 {
                check_held(&session, checker.state());
            }
        }
        check_held(&session, checker.state());
    }
}

/// Says frames one by one, with the model that each accepted SAT hands out.
fn one_by_one(session: &mut Session, frames: &[Vec<i32>]) -> Vec<Reply> {
    let reply = |frame: &Vec<i32>| {
        let answer = session.say(frame);
        let is_sat = answer.is_accepted() && frame[0] == 8;
        let model = session.model().filter(|_| is_sat).collect();
        Reply { answer, model }
    };
    frames.iter().map(reply).collect()
}

#[test]
fn many_frames_at_once_are_many_frames_one_by_one() {
    for (name, frames) in traces() {
        let (mut one, mut other) = (session(), session());
        // A line that is begun goes on behind them.
        assert_eq!(other.give(b"0000000"), b"");
        let replies = other.say_all(&frames);
        assert!(one_by_one(&mut one, &frames) == replies, "{name}");
        // Where clauses lie may differ.
        assert!(one.held().eq(other.held()), "{name}");
        assert!(one.stack().eq(other.stack()), "{name}");
        assert_eq!(one.next_id(), other.next_id());
        assert_eq!(one.model_words(), other.model_words());
        assert_eq!(other.give(b"7\n"), b"0000000200000000\n");
    }
}

#[test]
fn no_frame_and_a_frame_too_long_are_answered_at_once_too() {
    let mut session = session();
    assert!(session.say_all(&[] as &[Vec<i32>]).is_empty());
    let replies = session.say_all(&[Vec::new(), vec![9; 4_097], vec![8, 0]]);
    let codes: Vec<_> = replies.iter().map(|reply| reply.answer.code).collect();
    assert_eq!(codes, [2, 2, 0]);
}

#[test]
fn answers_that_are_many_are_all_there() {
    let mut session = session();
    let mut all = vec![8, 0];
    all.extend(1..=2_048);
    // Together they are longer than what is answered at once.
    let replies = session.say_all(&vec![all; 40]);
    assert_eq!(replies.len(), 40);
    let is_whole = |reply: &Reply| reply.answer.is_accepted() && reply.model.len() == 2_048;
    assert!(replies.iter().all(is_whole));
    assert_eq!(session.model_words(), &[u64::MAX; 32]);
}

#[test]
fn a_session_goes_on_from_tables_kept_elsewhere() {
    for (name, frames) in traces() {
        let (mut whole, mut first) = (session(), session());
        let (before, after) = frames.split_at(frames.len() / 2);
        whole.say_all(before);
        first.say_all(before);
        let kept = first.into_tables();
        let mut second = Session::from_tables(kept.clone()).expect("a state");
        assert!(*second.tables() == kept, "looking at them changes nothing");
        assert_eq!(second.model_words(), &[0; 32]);
        assert!(whole.say_all(after) == second.say_all(after), "{name}");
        assert!(whole.into_tables() == second.into_tables(), "{name}");
    }
}

/// Clause 1 stacked with a witness, clause 2 irredundant.
fn small() -> Tables {
    let mut session = Session::open(4, 2, 8).expect("these sizes can be lent");
    for frame in [[1, 1, 1, 2], [6, 1, 1, 1], [1, 2, 3, -4]] {
        assert!(session.say(&frame).is_accepted());
    }
    session.into_tables()
}

#[test]
fn tables_that_are_no_state_are_refused() {
    type Damage = fn(&mut Tables);
    let damages: [Damage; 12] = [
        |tables| tables.entries.clear(),
        |tables| tables.pool.clear(),
        |tables| tables.entries.resize(1_025, Default::default()),
        |tables| tables.pool.resize(8_193, 0),
        |tables| tables.carried.vars = 3,
        |tables| tables.carried.highest = 1,
        |tables| tables.carried.count = 3,
        |tables| tables.carried.words += 1,
        |tables| tables.carried.depth = 0,
        |tables| tables.carried.stack[0] = 2,
        |tables| tables.entries[1].id = 1,
        |tables| tables.pool[tables.entries[0].start as usize] = 0,
    ];
    for (at, damage) in damages.iter().enumerate() {
        let mut tables = small();
        assert!(Session::from_tables(tables.clone()).is_ok());
        damage(&mut tables);
        let Err(Refused(answer)) = Session::from_tables(tables) else {
            panic!("damage {at} is a state");
        };
        assert_eq!(answer.meaning(), Some(Code::NoState), "damage {at}");
    }
}

#[test]
fn sizes_that_cannot_be_lent_are_refused() {
    let refused = |vars, entries, words| match Session::open(vars, entries, words) {
        Ok(_) => None,
        Err(Refused(answer)) => answer.meaning(),
    };
    assert_eq!(refused(0, 1, 1), Some(Code::BadLiteral));
    assert_eq!(refused(2_049, 1, 1), Some(Code::BadLiteral));
    assert_eq!(refused(1, 0, 1), Some(Code::NoState));
    assert_eq!(refused(1, usize::MAX, 1), Some(Code::NoState));
    assert_eq!(refused(1, 1, usize::MAX), Some(Code::NoState));
    assert_eq!(refused(1, 1, 1), None);
}

#[test]
fn a_model_is_handed_out_as_variables_and_as_words() {
    let mut session = Session::open(130, 4, 16).expect("these sizes can be lent");
    assert_eq!(session.vars(), 130);
    assert_eq!(session.model().count(), 0);
    assert!(session.say(&[8, 0, 1, 64, 65, 130]).is_accepted());
    let model: Vec<u32> = session.model().map(Variable::number).collect();
    assert_eq!(model, [1, 64, 65, 130]);
    assert_eq!(session.model_words()[..3], [1 << 63 | 1, 1, 2]);
    let variables = Variable::list(&[1, 2, 65, 2_048]).expect("variables");
    let told = variables.iter().map(|&variable| session.is_true(variable));
    assert_eq!(told.collect::<Vec<bool>>(), [true, false, true, false]);
    // A refused SAT hands out nothing.
    assert!(!session.say(&[8, 0, 131]).is_accepted());
    assert_eq!(session.model().count(), 4);
}
