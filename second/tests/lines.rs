//! The hexadecimal lines: document 01's whole example, the faults of a line, and parts.

use second::lines::{answers, opened, run, Lines, MOST_DIGITS};
use std::cell::RefCell;
use std::io::{self, Read, Write};

const INPUT: &str = "\
00000001000000010000000100000002
00000006000000010000000100000001
0000000800000000
0000000100000002ffffffff
0000000700000001
0000000100000002ffffffff
";

const OUTPUT: &str = "\
0000000000000000
0000000000000000
000000000000000100000001
0000000500000001
0000000000000000
0000000000000000
";

const ACCEPTED: &str = "0000000000000000\n";
const REFUSED: &str = "0000000200000000\n";

fn answered(input: &[u8]) -> String {
    String::from_utf8(answers(input)).expect("answers are digits")
}

#[test]
fn the_whole_example() {
    assert_eq!(answered(INPUT.as_bytes()), OUTPUT);
}

#[test]
fn empty_input_has_no_answer() {
    assert_eq!(answered(b""), "");
}

#[test]
fn a_lone_newline_is_an_empty_frame() {
    assert_eq!(answered(b"\n\n"), [REFUSED, REFUSED].concat());
}

#[test]
fn any_other_byte_is_refused() {
    for byte in (0..=u8::MAX).filter(|byte| !b"0123456789abcdef\n".contains(byte)) {
        let mut line = b"0000000800000000\n".to_vec();
        line[3] = byte;
        assert_eq!(answered(&line), REFUSED, "byte {byte:02x}");
    }
    assert_eq!(answered(b"0000000800000000\r\n"), REFUSED);
    assert_eq!(answered(b" 0000000800000000\n"), REFUSED);
    assert_eq!(answered(b"0000000A00000000\n"), REFUSED);
}

#[test]
fn a_cut_word_is_refused() {
    for length in 1..16 {
        let line = &b"0000000800000000"[..length];
        assert_eq!(answered(&[line, b"\n"].concat()), REFUSED);
    }
}

#[test]
fn an_unclosed_line_is_refused_and_changes_nothing() {
    assert_eq!(
        answered(b"0000000800000000\n0000000800000000"),
        [ACCEPTED, REFUSED].concat()
    );
    assert_eq!(answered(b"0"), REFUSED);
    assert_eq!(answered(&[b'0'; 3 * MOST_DIGITS]), REFUSED);
}

/// UNSAT assuming 1 -1, and as many hints, none of which is read, as fill the line.
fn digits(length: usize) -> Vec<u8> {
    let mut line = b"000000090000000200000001ffffffff".to_vec();
    line.resize(length, b'0');
    line.push(b'\n');
    line
}

#[test]
fn exactly_32768_digits_are_a_frame() {
    assert_eq!(answered(&digits(MOST_DIGITS)), ACCEPTED);
    assert_eq!(answered(&digits(MOST_DIGITS + 1)), REFUSED);
    assert_eq!(answered(&digits(MOST_DIGITS + 8)), REFUSED);
    let overlong = [digits(50 * MOST_DIGITS), digits(MOST_DIGITS)].concat();
    assert_eq!(answered(&overlong), [REFUSED, ACCEPTED].concat());
}

#[test]
fn the_example_in_parts_of_every_length() {
    for length in 1..=INPUT.len() {
        let mut output = Vec::new();
        let mut lines = Lines::new(opened());
        for part in INPUT.as_bytes().chunks(length) {
            lines.push(part, &mut output).unwrap();
            lines.push(b"", &mut output).unwrap();
        }
        lines.end(&mut output).unwrap();
        assert_eq!(output, OUTPUT.as_bytes(), "parts of {length}");
    }
}

/// Hands out one line a read, and only once the line before it is answered.
struct Patient<'a> {
    lines: std::slice::ChunksExact<'a, u8>,
    read: usize,
    answered: &'a RefCell<Vec<u8>>,
}

impl Read for Patient<'_> {
    fn read(&mut self, part: &mut [u8]) -> io::Result<usize> {
        assert_eq!(self.answered.borrow().len(), self.read * ACCEPTED.len());
        self.read += 1;
        let line = self.lines.next().unwrap_or_default();
        part[..line.len()].copy_from_slice(line);
        Ok(line.len())
    }
}

struct Answered<'a>(&'a RefCell<Vec<u8>>);

impl Write for Answered<'_> {
    fn write(&mut self, bytes: &[u8]) -> io::Result<usize> {
        self.0.borrow_mut().write(bytes)
    }

    fn flush(&mut self) -> io::Result<()> {
        Ok(())
    }
}

#[test]
fn answers_are_written_before_more_is_read() {
    let line = b"0000000800000000\n";
    let answered = RefCell::new(Vec::new());
    let input = line.repeat(5);
    let patient = Patient {
        lines: input.chunks_exact(line.len()),
        read: 0,
        answered: &answered,
    };
    run(patient, Answered(&answered)).unwrap();
    assert_eq!(answered.into_inner(), ACCEPTED.repeat(5).as_bytes());
}
