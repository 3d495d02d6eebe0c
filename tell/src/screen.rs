//! Standard output, and a progress bar on standard error where that is a terminal.

use std::io::{self, BufWriter, IsTerminal, Stdout, Write};
use std::time::{Duration, Instant};

/// A bar is drawn for what takes longer than this, and so often.
const PATIENCE: Duration = Duration::from_secs(1);
const PAUSE: Duration = Duration::from_millis(100);

pub struct Screen {
    out: BufWriter<Stdout>,
    bar: Bar,
}

/// How far a trace is.
struct Bar {
    /// Whether standard error is a terminal.
    shows: bool,
    began: Instant,
    /// When it was drawn last, and whether it is there still.
    drawn: Option<Instant>,
    visible: bool,
    total: Option<u64>,
    done: u64,
    lines: u64,
}

impl Screen {
    pub fn new() -> Screen {
        Screen {
            out: BufWriter::new(io::stdout()),
            bar: Bar {
                shows: io::stderr().is_terminal(),
                began: Instant::now(),
                drawn: None,
                visible: false,
                total: None,
                done: 0,
                lines: 0,
            },
        }
    }

    /// Another trace begins, of so many bytes where that is known.
    pub fn begin(&mut self, total: Option<u64>) {
        self.bar = Bar {
            shows: self.bar.shows,
            began: Instant::now(),
            drawn: None,
            visible: false,
            total,
            done: 0,
            lines: 0,
        };
    }

    /// Writes lines. The bar goes first, so that they do not stand behind it.
    pub fn say(&mut self, lines: &str) -> io::Result<()> {
        self.bar.clear();
        self.out.write_all(lines.as_bytes())
    }

    /// Another line of the trace is done, of so many bytes.
    pub fn step(&mut self, bytes: u64) -> io::Result<()> {
        self.bar.done += bytes;
        self.bar.lines += 1;
        if self.bar.is_due() {
            self.out.flush()?;
            self.bar.draw();
        }
        Ok(())
    }

    /// What was said gets out.
    pub fn flush(&mut self) -> io::Result<()> {
        self.out.flush()
    }

    /// Nothing of the bar is left behind.
    pub fn end(&mut self) -> io::Result<()> {
        self.bar.clear();
        self.out.flush()
    }
}

impl Bar {
    fn is_due(&self) -> bool {
        self.shows
            && match self.drawn {
                None => self.began.elapsed() > PATIENCE,
                Some(last) => last.elapsed() > PAUSE,
            }
    }

    fn draw(&mut self) {
        self.drawn = Some(Instant::now());
        self.visible = true;
        let told = told(self.done, self.total, self.lines);
        // A bar that cannot be drawn is none.
        drop(write!(io::stderr(), "\r\x1b[K{told}"));
    }

    fn clear(&mut self) {
        if self.visible {
            drop(write!(io::stderr(), "\r\x1b[K"));
            self.visible = false;
        }
    }
}

/// The bar, or the lines alone where the trace's length is not known.
fn told(done: u64, total: Option<u64>, lines: u64) -> String {
    const WIDTH: u64 = 30;
    match total {
        Some(total @ 1..) => {
            let done = done.min(total);
            let full = (WIDTH * done / total) as usize;
            let rest = WIDTH as usize - full;
            let percent = 100 * done / total;
            format!(
                "[{}{}] {percent:3} %  {lines} lines",
                "#".repeat(full),
                "-".repeat(rest)
            )
        }
        _ => format!("{lines} lines"),
    }
}

#[cfg(test)]
mod tests {
    use super::*;

    #[test]
    fn a_bar_grows() {
        let bar = |done| told(done, Some(200), 7);
        assert_eq!(bar(0), format!("[{}]   0 %  7 lines", "-".repeat(30)));
        let half = format!("[{}{}]  50 %  7 lines", "#".repeat(15), "-".repeat(15));
        assert_eq!(bar(100), half);
        assert_eq!(bar(300), format!("[{}] 100 %  7 lines", "#".repeat(30)));
        assert_eq!(told(5, None, 7), "7 lines");
        assert_eq!(told(0, Some(0), 0), "0 lines");
    }
}
