//! Lines out of a stream that another thread hands over in parts.

use std::io;
use std::sync::atomic::{AtomicBool, Ordering};
use std::sync::mpsc::{Receiver, RecvTimeoutError, TryRecvError};
use std::sync::Arc;
use std::time::Duration;

/// What the other thread hands over.
#[derive(Debug)]
pub enum Part {
    Bytes(Vec<u8>),
    End,
    /// The stream cannot be read.
    Failed(io::Error),
    /// The program does not take what was read.
    NotTaken(io::Error),
}

/// A line without its 0A. Of a long one only the beginning is kept.
#[derive(Debug, Default)]
pub struct Line {
    pub bytes: Vec<u8>,
    pub length: u64,
    pub closed: bool,
}

impl Line {
    fn clear(&mut self) {
        self.bytes.clear();
        self.length = 0;
        self.closed = false;
    }

    fn push(&mut self, piece: &[u8], most: usize) {
        let kept = piece.len().min(most - self.bytes.len());
        self.bytes.extend_from_slice(&piece[..kept]);
        self.length += piece.len() as u64;
    }

    /// Whether some of it was not kept.
    pub fn is_cut(&self) -> bool {
        self.length > self.bytes.len() as u64
    }
}

/// What the next look at a stream brings.
#[derive(Debug)]
pub enum Next {
    Line,
    End,
    /// Nothing came within the limit.
    Late,
    Failed(io::Error),
    NotTaken(io::Error),
}

pub struct Lines {
    parts: Receiver<Part>,
    part: Vec<u8>,
    at: usize,
    ended: bool,
    /// How many bytes of a line are kept.
    most: usize,
    limit: Duration,
    /// A stream that may be slow by itself is late only while this holds.
    stuck: Option<Arc<AtomicBool>>,
}

impl Lines {
    /// Of each line `most` bytes are kept; no part may take longer than the limit.
    pub fn new(parts: Receiver<Part>, most: usize, limit: Duration) -> Lines {
        Lines {
            parts,
            part: Vec::new(),
            at: 0,
            ended: false,
            most,
            limit,
            stuck: None,
        }
    }

    /// A part may take any time, unless the thread that hands it over is stuck elsewhere; and a
    /// line may be of any length.
    pub fn patient(mut self, stuck: Arc<AtomicBool>) -> Lines {
        self.stuck = Some(stuck);
        self
    }

    /// Whether the next line is here already, so that asking for it does not wait.
    pub fn at_hand(&self) -> bool {
        self.part[self.at..].contains(&b'\n')
    }

    pub fn next(&mut self, line: &mut Line) -> Next {
        line.clear();
        loop {
            let rest = &self.part[self.at..];
            if let Some(end) = rest.iter().position(|&byte| byte == b'\n') {
                line.push(&rest[..end], self.most);
                line.closed = true;
                self.at += end + 1;
                return Next::Line;
            }
            if self.ended {
                return Next::End;
            }
            line.push(rest, self.most);
            self.at = self.part.len();
            // What has no end must not be waited for; a trace is read to the end of its line.
            if line.is_cut() && self.stuck.is_none() {
                return Next::Line;
            }
            match self.receive() {
                Some(Part::Bytes(part)) => (self.part, self.at) = (part, 0),
                Some(Part::End) => {
                    self.ended = true;
                    return if line.length > 0 {
                        Next::Line
                    } else {
                        Next::End
                    };
                }
                Some(Part::Failed(error)) => return Next::Failed(error),
                Some(Part::NotTaken(error)) => return Next::NotTaken(error),
                None => return Next::Late,
            }
        }
    }

    fn receive(&mut self) -> Option<Part> {
        loop {
            match self.parts.recv_timeout(self.limit) {
                Ok(part) => return Some(part),
                Err(RecvTimeoutError::Disconnected) => return Some(lost()),
                Err(RecvTimeoutError::Timeout) => {}
            }
            match &self.stuck {
                Some(stuck) if !stuck.load(Ordering::SeqCst) => continue,
                _ => {}
            }
            // A part that came after the limit, and on which the other thread then got stuck, is taken first.
            match self.parts.try_recv() {
                Ok(part) => return Some(part),
                Err(TryRecvError::Disconnected) => return Some(lost()),
                Err(TryRecvError::Empty) => return None,
            }
        }
    }
}

/// A thread says how its stream ended; one that is gone without a word has failed itself.
fn lost() -> Part {
    Part::Failed(io::Error::other("its thread failed"))
}

#[cfg(test)]
mod tests {
    use super::*;
    use std::sync::mpsc::sync_channel;

    const SHORT: Duration = Duration::from_millis(20);

    fn lines(parts: Vec<Part>) -> Lines {
        let (sender, receiver) = sync_channel(parts.len());
        for part in parts {
            sender.send(part).expect("room for every part");
        }
        Lines::new(receiver, 6, SHORT)
    }

    fn bytes(text: &str) -> Part {
        Part::Bytes(text.as_bytes().to_vec())
    }

    #[test]
    fn lines_are_put_together_from_parts() {
        let mut lines = lines(vec![bytes("ab\nc"), bytes("d"), bytes("\n\nef"), Part::End]);
        let mut line = Line::default();
        for (text, closed) in [("ab", true), ("cd", true), ("", true), ("ef", false)] {
            assert!(matches!(lines.next(&mut line), Next::Line));
            assert_eq!(
                (line.bytes.as_slice(), line.closed),
                (text.as_bytes(), closed)
            );
        }
        assert!(matches!(lines.next(&mut line), Next::End));
    }

    #[test]
    fn of_a_long_line_the_beginning_is_kept() {
        let parts = || vec![bytes("0123"), bytes("4567"), bytes("89\n"), Part::End];
        let mut line = Line::default();
        let mut patient = lines(parts()).patient(Arc::new(AtomicBool::new(false)));
        assert!(matches!(patient.next(&mut line), Next::Line));
        assert_eq!((line.bytes.as_slice(), line.length), (&b"012345"[..], 10));
        assert!(line.is_cut() && line.closed);
        assert!(matches!(patient.next(&mut line), Next::End));
        assert!(matches!(lines(parts()).next(&mut line), Next::Line));
        assert!(line.is_cut() && !line.closed);
    }

    #[test]
    fn a_stream_may_be_late_lost_or_patient() {
        let (sender, receiver) = sync_channel(1);
        let mut line = Line::default();
        let mut lines = Lines::new(receiver, 6, SHORT);
        assert!(matches!(lines.next(&mut line), Next::Late));
        let stuck = Arc::new(AtomicBool::new(false));
        lines = lines.patient(stuck.clone());
        let later = std::thread::spawn(move || {
            std::thread::sleep(3 * SHORT);
            drop(sender.send(bytes("a\n")));
            sender
        });
        assert!(matches!(lines.next(&mut line), Next::Line));
        stuck.store(true, Ordering::SeqCst);
        assert!(matches!(lines.next(&mut line), Next::Late));
        drop(later.join());
        assert!(matches!(lines.next(&mut line), Next::Failed(_)));
    }
}
