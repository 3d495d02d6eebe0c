//! The command line: `tell PROGRAM.. -- check ..` or `tell PROGRAM.. -- explain ..`.

use crate::check::Check;
use crate::codes;
use crate::digits::read_words;
use crate::explain::Explain;
use crate::say_wrong;
use std::ffi::{OsStr, OsString};
use std::fs::File;
use std::io::{self, Read};
use std::path::PathBuf;
use std::time::Duration;

/// The launcher shows the same files.
const CHECK_HELP: &str = include_str!("../help/check.txt");
const EXPLAIN_HELP: &str = include_str!("../help/explain.txt");

/// How long the program may take for an answer, if nothing else is said.
const LIMIT: Duration = Duration::from_secs(600);

pub enum Asked {
    Help(&'static str),
    /// A code, told.
    Code(String),
    /// Only whether these can be read.
    Look(Vec<Trace>),
    Run(Task),
}

pub enum Task {
    Check(Check),
    Explain(Explain),
}

/// What both tasks need.
pub struct Common {
    pub program: Vec<OsString>,
    pub limit: Duration,
}

#[derive(Clone, Debug, PartialEq, Eq)]
pub enum Trace {
    Input,
    File(PathBuf),
}

impl Trace {
    fn named(word: &OsStr) -> Trace {
        match word.to_str() {
            Some("-") => Trace::Input,
            _ => Trace::File(PathBuf::from(word)),
        }
    }

    pub fn name(&self) -> String {
        match self {
            Trace::Input => "standard input".to_string(),
            Trace::File(path) => path.display().to_string(),
        }
    }

    /// Its bytes, and how many they are where that is known.
    pub fn open(&self) -> io::Result<(Box<dyn Read + Send>, Option<u64>)> {
        match self {
            Trace::Input => Ok((Box::new(io::stdin()), None)),
            Trace::File(path) => {
                let file = File::open(path)?;
                let about = file.metadata()?;
                let length = about.is_file().then_some(about.len());
                Ok((Box::new(file), length))
            }
        }
    }
}

/// Whether every trace can be opened: asked before the program is proved, which takes minutes.
pub fn look(traces: &[Trace]) -> u8 {
    let mut status = 0;
    for trace in traces {
        if let Err(error) = trace.open() {
            say_wrong(&format!("{}: cannot be read: {error}", trace.name()));
            status = crate::COULD_NOT;
        }
    }
    status
}

/// What was said behind the program and the task's name.
#[derive(Default)]
struct Said {
    help: bool,
    state: bool,
    answers: Option<PathBuf>,
    limit: Option<Duration>,
    code: Option<String>,
    traces: Vec<Trace>,
}

/// Reads all arguments; where they are wrong, what to say.
pub fn read(arguments: impl Iterator<Item = OsString>) -> Result<Asked, String> {
    let mut arguments = arguments;
    let program = arguments.by_ref().take_while(|word| word != "--").collect();
    let task = arguments.next().unwrap_or_default();
    match task.to_str() {
        Some("check") => check(program, arguments).map_err(|wrong| usage(&wrong, CHECK_HELP)),
        Some("explain") => explain(program, arguments).map_err(|wrong| usage(&wrong, EXPLAIN_HELP)),
        _ => Err("usage: tell PROGRAM.. -- check|explain ..".to_string()),
    }
}

/// What is wrong, and the first line of the help.
fn usage(wrong: &str, help: &str) -> String {
    let first = help.lines().next().unwrap_or_default();
    format!("{wrong}\n{first}")
}

fn check(
    program: Vec<OsString>,
    arguments: impl Iterator<Item = OsString>,
) -> Result<Asked, String> {
    let said = said(arguments, &["--answers"])?;
    if said.help {
        return Ok(Asked::Help(CHECK_HELP));
    }
    if said.traces.is_empty() {
        return Err("no trace is named".to_string());
    }
    if said.answers.is_some() && said.traces.len() > 1 {
        return Err("--answers goes with one trace".to_string());
    }
    if program.is_empty() {
        return Ok(Asked::Look(said.traces));
    }
    Ok(Asked::Run(Task::Check(Check {
        common: common(program, said.limit),
        traces: said.traces,
        answers: said.answers,
    })))
}

fn explain(
    program: Vec<OsString>,
    arguments: impl Iterator<Item = OsString>,
) -> Result<Asked, String> {
    let said = said(arguments, &["--state", "--code"])?;
    if said.help {
        return Ok(Asked::Help(EXPLAIN_HELP));
    }
    if let Some(told) = said.code {
        let alone = said.traces.is_empty() && !said.state && said.limit.is_none();
        return alone
            .then_some(Asked::Code(told))
            .ok_or("--code goes alone".to_string());
    }
    let [trace] = said.traces.as_slice() else {
        return Err("one trace is to be named".to_string());
    };
    if program.is_empty() {
        return Ok(Asked::Look(said.traces));
    }
    Ok(Asked::Run(Task::Explain(Explain {
        common: common(program, said.limit),
        trace: trace.clone(),
        state: said.state,
    })))
}

fn common(program: Vec<OsString>, limit: Option<Duration>) -> Common {
    Common {
        program,
        limit: limit.unwrap_or(LIMIT),
    }
}

/// Options, of which some are the task's own, and traces; behind `--` all are traces.
fn said(arguments: impl Iterator<Item = OsString>, own: &[&str]) -> Result<Said, String> {
    let mut said = Said::default();
    let mut arguments = arguments;
    while let Some(word) = arguments.next() {
        let is_own = |option: &str| own.contains(&option);
        match word.to_str() {
            Some("--help" | "-h") => said.help = true,
            Some("--limit") => said.limit = Some(seconds(arguments.next())?),
            Some(option @ "--answers") if is_own(option) => {
                said.answers = Some(file(arguments.next())?)
            }
            Some(option @ "--state") if is_own(option) => said.state = true,
            Some(option @ "--code") if is_own(option) => said.code = Some(code(arguments.next())?),
            Some("--") => {
                let behind = arguments.by_ref().map(|word| Trace::named(&word));
                said.traces.extend(behind);
            }
            Some(option) if option.starts_with('-') && option != "-" => {
                return Err(format!("unknown argument {option}"));
            }
            _ => said.traces.push(Trace::named(&word)),
        }
    }
    Ok(said)
}

fn seconds(word: Option<OsString>) -> Result<Duration, String> {
    let word = word.ok_or("--limit needs a number of seconds")?;
    let number = word.to_str().and_then(|word| word.parse().ok());
    let limit = number.and_then(|number| Duration::try_from_secs_f64(number).ok());
    match limit {
        Some(limit) if !limit.is_zero() => Ok(limit),
        _ => Err("--limit needs a number of seconds above 0".to_string()),
    }
}

fn file(word: Option<OsString>) -> Result<PathBuf, String> {
    match word {
        Some(word) if word != "-" => Ok(PathBuf::from(word)),
        _ => Err("--answers needs a file".to_string()),
    }
}

/// A code as people say it, or the digits of an answer, in which the number beside it may follow.
fn code(word: Option<OsString>) -> Result<String, String> {
    let word = word.unwrap_or_default();
    let word = word.to_str().unwrap_or_default();
    let (number, beside) = digits(word)
        .or_else(|| Some((word.parse().ok()?, None)))
        .ok_or("--code needs a number such as 25, or an answer's digits such as 00000019")?;
    codes::told(number, beside).ok_or_else(|| {
        format!(
            "no answer has code {number}; there are 0 to 13, 21 to 29 for a text's faults, and 31 to 38 for a proof file's. \
             Digits of an answer are read where they are whole: 00000019 is 25"
        )
    })
}

fn digits(word: &str) -> Option<(u32, Option<u32>)> {
    let mut words = Vec::new();
    read_words(word.as_bytes(), &mut words)?;
    let code = *words.first()? as u32;
    Some((code, words.get(1).map(|&beside| beside as u32)))
}
