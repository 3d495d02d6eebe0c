//! Why a line is not even words.

use crate::digits::{value, DIGITS, MOST_DIGITS};
use crate::lists::count;
use crate::stream::Line;

/// What is wrong with a line's bytes, if something is. Columns count from 1.
pub fn fault(line: &Line) -> Option<String> {
    if !line.closed {
        return Some("no 0A at the end".to_string());
    }
    let mut bytes = line.bytes.iter().take(MOST_DIGITS);
    if let Some(place) = bytes.position(|&byte| value(byte).is_none()) {
        return Some(format!(
            "{} at column {}",
            name(line.bytes[place]),
            place + 1
        ));
    }
    if line.length > MOST_DIGITS as u64 {
        return Some(format!("more than 32,768 digits: {}", line.length));
    }
    let digits = line.bytes.len();
    if digits % DIGITS != 0 {
        let digits = count(digits, "digit");
        return Some(format!("not a multiple of eight digits: {digits}"));
    }
    None
}

fn name(byte: u8) -> String {
    match byte {
        b'A'..=b'F' => "a capital digit".to_string(),
        b'\r' => "a carriage return".to_string(),
        b' ' => "a blank".to_string(),
        b'\t' => "a tab".to_string(),
        b'!'..=b'~' => format!("the character '{}'", char::from(byte)),
        _ => format!("the byte {byte:02x}"),
    }
}

#[cfg(test)]
mod tests {
    use super::*;

    fn told(bytes: &[u8], closed: bool) -> Option<String> {
        let kept = bytes.len().min(MOST_DIGITS + 1);
        fault(&Line {
            bytes: bytes[..kept].to_vec(),
            length: bytes.len() as u64,
            closed,
        })
    }

    #[test]
    fn every_fault_has_words() {
        let long = vec![b'0'; MOST_DIGITS + 8];
        for (bytes, words) in [
            (&b"000000010000000A"[..], "a capital digit at column 16"),
            (b"00000001\r", "a carriage return at column 9"),
            (b"00000001 00000002", "a blank at column 9"),
            (b"\t00000001", "a tab at column 1"),
            (b"0x000001", "the character 'x' at column 2"),
            (b"\x000000001", "the byte 00 at column 1"),
            (b"\xff", "the byte ff at column 1"),
            (b"0000001", "not a multiple of eight digits: 7 digits"),
            (&long, "more than 32,768 digits: 32776"),
        ] {
            assert_eq!(told(bytes, true).as_deref(), Some(words));
        }
        assert_eq!(
            told(b"00000001", false).as_deref(),
            Some("no 0A at the end")
        );
    }

    #[test]
    fn words_have_no_fault() {
        assert_eq!(told(b"", true), None);
        assert_eq!(told(b"0000000a", true), None);
        assert_eq!(told(&[b'f'; MOST_DIGITS], true), None);
    }
}
