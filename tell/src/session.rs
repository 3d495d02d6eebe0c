//! One trace before the program, from an empty state to its end.

use crate::answer::Answer;
use crate::arguments::{Common, Trace};
use crate::digits::read_words;
use crate::frame::{operation_name, Frame};
use crate::held::Held;
use crate::noframe;
use crate::program::Program;
use crate::refusal::Refused;
use crate::telling;
use crate::trouble::{Fault, Trouble};

pub struct Session {
    program: Program,
    /// What is held before the line at hand; after `settle`, behind it.
    pub held: Held,
    answer: Answer,
    /// The words of the line at hand, or what is wrong with its bytes.
    words: Vec<i32>,
    fault: Option<String>,
}

impl Session {
    /// Starts the program over a trace; hands back how long the trace is, where that is known.
    pub fn start(common: &Common, trace: &Trace) -> Result<(Session, Option<u64>), Trouble> {
        let (stream, length) = trace.open().map_err(|error| Trouble::NotRead(0, error))?;
        let program =
            Program::start(&common.program, stream, common.limit).map_err(Fault::NotStarted)?;
        let session = Session {
            program,
            held: Held::default(),
            answer: Answer {
                code: 0,
                detail: 0,
                model: Vec::new(),
            },
            words: Vec::new(),
            fault: None,
        };
        Ok((session, length))
    }

    /// Whether the next line and its answer are here already.
    pub fn at_hand(&self) -> bool {
        self.program.at_hand()
    }

    /// Goes to the next line; false at the end of the trace.
    pub fn next(&mut self) -> Result<bool, Trouble> {
        let Some(answer) = self.program.next()? else {
            return Ok(false);
        };
        self.answer = answer;
        self.words.clear();
        let line = &self.program.line;
        self.fault = noframe::fault(line);
        if self.fault.is_none() && read_words(&line.bytes, &mut self.words).is_none() {
            self.fault = Some("no words".to_string());
        }
        let is_sat = self.words.first() == Some(&8);
        if !self.answer.model.is_empty() && !is_sat {
            return Err(self.program.no_answer().into());
        }
        Ok(true)
    }

    /// Follows an accepted frame.
    pub fn settle(&mut self) {
        if !self.is_accepted() || self.fault.is_some() {
            return;
        }
        if let Ok(frame) = Frame::read(&self.words) {
            self.held.accept(&frame);
        }
    }

    pub fn is_accepted(&self) -> bool {
        self.answer.is_accepted()
    }

    /// Lines count from 1.
    pub fn number(&self) -> u64 {
        self.program.number
    }

    /// How many bytes of the trace the line at hand takes.
    pub fn length(&self) -> u64 {
        self.program.line.length + u64::from(self.program.line.closed)
    }

    /// The answer as the program wrote it, without its 0A.
    pub fn raw_answer(&self) -> &[u8] {
        &self.program.raw.bytes
    }

    /// The operation's name and a blank, where the line has one.
    pub fn told_operation(&self) -> String {
        let operation = self.words.first().copied();
        match operation.and_then(operation_name) {
            Some(name) => format!("{name} "),
            None => String::new(),
        }
    }

    pub fn told_frame(&self) -> String {
        match Frame::read(&self.words) {
            _ if self.fault.is_some() => self.told_bytes(),
            Ok(frame) => telling::frame(&frame, &self.held),
            Err(_) => self.told_bytes(),
        }
    }

    /// The beginning of a line that is no frame.
    fn told_bytes(&self) -> String {
        const SHOWN: usize = 64;
        let line = &self.program.line;
        let shown = line.bytes.len().min(SHOWN);
        let mut told = format!("no frame: \"{}\"", line.bytes[..shown].escape_ascii());
        if line.length > shown as u64 {
            told += &format!(" .. {} bytes", line.length);
        }
        told
    }

    /// The answer in words. It is asked for before the frame is followed.
    pub fn told_answer(&self) -> String {
        match (&self.fault, Frame::read(&self.words)) {
            (None, Ok(frame)) if self.is_accepted() => telling::accepted(&frame, &self.answer),
            _ if self.is_accepted() => "accepted".to_string(),
            (fault, _) => format!("refused {}: {}", self.answer.code, self.why(fault)),
        }
    }

    fn why(&self, fault: &Option<String>) -> String {
        match fault {
            Some(fault) if self.answer.code == 2 => fault.clone(),
            Some(_) => self.answer.meaning().to_string(),
            None => Refused {
                answer: &self.answer,
                words: &self.words,
                held: &self.held,
            }
            .why(),
        }
    }
}
