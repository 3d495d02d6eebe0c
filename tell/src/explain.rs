//! explain: each frame in words, under it the program's answer, and if asked what is held then.

use crate::arguments::{Common, Trace};
use crate::check::{lost, not_written};
use crate::screen::Screen;
use crate::session::Session;
use crate::trouble::Trouble;
use crate::verdict::{Tally, Verdict};

pub struct Explain {
    pub common: Common,
    pub trace: Trace,
    /// Whether to tell what is held behind each line.
    pub state: bool,
}

pub fn run(task: &Explain) -> Verdict {
    let mut screen = Screen::new();
    let mut tally = Tally::default();
    let verdict = match explain(task, &mut tally, &mut screen) {
        Ok(()) => tally.verdict(),
        Err(trouble) => lost(&task.trace, &trouble, &mut screen),
    };
    let told = format!("{}: {}\n", task.trace.name(), tally.told(verdict));
    match screen.say(&told).and_then(|()| screen.end()) {
        Ok(()) => verdict,
        Err(error) => lost(&task.trace, &not_written(error), &mut screen),
    }
}

fn explain(task: &Explain, tally: &mut Tally, screen: &mut Screen) -> Result<(), Trouble> {
    const INDENT: &str = "    ";
    let (mut session, length) = Session::start(&task.common, &task.trace)?;
    screen.begin(length);
    while session.next()? {
        tally.add(session.is_accepted());
        let (number, frame) = (session.number(), session.told_frame());
        let answer = session.told_answer();
        let mut told = format!("line {number}: {frame}\n{INDENT}{answer}\n");
        session.settle();
        if task.state {
            told += &session.held.told(INDENT);
        }
        screen.say(&told).map_err(not_written)?;
        screen.step(session.length()).map_err(not_written)?;
        if !session.at_hand() {
            screen.flush().map_err(not_written)?;
        }
    }
    Ok(())
}
