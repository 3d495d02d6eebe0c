//! Help, and how far a long run is: about how long it takes beforehand, and on a terminal how
//! much of it is done. All but the help goes to standard error.

use std::io::{self, IsTerminal, Write};
use std::process::ExitCode;
use std::time::{Duration, Instant};

/// The status of a wrong usage.
const USAGE_STATUS: u8 = 2;
/// How often a line of progress is drawn.
const PAUSE: Duration = Duration::from_millis(200);

/// Whether help is asked for.
pub fn asks_for_help(arguments: &[String]) -> bool {
    matches!(arguments.first(), Some(word) if word == "--help" || word == "-h")
}

/// Prints the help. Whoever closes standard output does not want it.
pub fn help(text: &str) -> ExitCode {
    drop(writeln!(io::stdout(), "{text}"));
    ExitCode::SUCCESS
}

/// Prints the first line of the help, which is the usage.
pub fn wrong_usage(text: &str) -> ExitCode {
    let usage = text.lines().next().unwrap_or_default();
    eprintln!("{usage}");
    ExitCode::from(USAGE_STATUS)
}

/// A run of so many equal steps.
pub struct Progress {
    noun: &'static str,
    total: u64,
    done: u64,
    began: Instant,
    drawn: Instant,
    /// Whether standard error is a terminal.
    shows: bool,
}

impl Progress {
    /// Says about how long so many steps take, if each takes so long.
    pub fn begin(program: &str, total: u64, noun: &'static str, each: Duration) -> Progress {
        let whole = each.mul_f64(total as f64);
        eprintln!("{program}: {total} {noun}, about {}", told(whole));
        Progress {
            noun,
            total,
            done: 0,
            began: Instant::now(),
            drawn: Instant::now(),
            shows: io::stderr().is_terminal(),
        }
    }

    /// Another step is done.
    pub fn step(&mut self) {
        self.done += 1;
        if !self.shows || self.drawn.elapsed() < PAUSE {
            return;
        }
        self.drawn = Instant::now();
        let left = self
            .began
            .elapsed()
            .mul_f64((self.total - self.done) as f64 / self.done as f64);
        let (done, total, noun, left) = (self.done, self.total, self.noun, told(left));
        eprint!("\r\x1b[K{done} of {total} {noun}, about {left} left");
    }
}

impl Drop for Progress {
    /// What is printed next starts on a clear line.
    fn drop(&mut self) {
        if self.shows {
            eprint!("\r\x1b[K");
        }
    }
}

/// A time as one says it.
fn told(time: Duration) -> String {
    match time.as_secs() {
        0 => "a second".to_string(),
        seconds @ 1..=99 => format!("{seconds} s"),
        seconds @ 100..=5_999 => format!("{} min", (seconds + 30) / 60),
        seconds => format!("{:.1} h", seconds as f64 / 3_600.0),
    }
}

#[cfg(test)]
mod tests {
    use super::*;

    #[test]
    fn times_are_told_roughly() {
        let told = |seconds| told(Duration::from_secs(seconds));
        assert_eq!(told(0), "a second");
        assert_eq!(told(17), "17 s");
        assert_eq!(told(170), "3 min");
        assert_eq!(told(7_200), "2.0 h");
    }

    #[test]
    fn help_is_asked_for_first() {
        let words =
            |words: &[&str]| -> Vec<String> { words.iter().map(|word| word.to_string()).collect() };
        assert!(asks_for_help(&words(&["--help"])));
        assert!(asks_for_help(&words(&["-h", "x"])));
        assert!(!asks_for_help(&words(&["x", "--help"])));
        assert!(!asks_for_help(&words(&[])));
    }
}
