//! From a line's bytes to words.

/// Eight lowercase hexadecimal digits a word, most significant first.
pub const DIGITS: usize = 8;
/// A frame has at most 4,096 words.
pub const MOST_DIGITS: usize = 4_096 * DIGITS;

/// Reads a line, without its 0A, into words; none where it is anything else than words.
pub fn read_words(line: &[u8], words: &mut Vec<i32>) -> Option<()> {
    words.clear();
    if line.len() % DIGITS != 0 {
        return None;
    }
    for digits in line.chunks_exact(DIGITS) {
        words.push(read_word(digits)?);
    }
    Some(())
}

fn read_word(digits: &[u8]) -> Option<i32> {
    let mut word = 0u32;
    for &digit in digits {
        word = word << 4 | u32::from(value(digit)?);
    }
    // Negative words are in two's complement.
    Some(word as i32)
}

/// What a digit counts; any other byte, a capital digit too, is none.
pub fn value(byte: u8) -> Option<u8> {
    match byte {
        b'0'..=b'9' => Some(byte - b'0'),
        b'a'..=b'f' => Some(byte - b'a' + 10),
        _ => None,
    }
}

#[cfg(test)]
mod tests {
    use super::*;

    fn words(line: &str) -> Option<Vec<i32>> {
        let mut words = Vec::new();
        read_words(line.as_bytes(), &mut words).map(|()| words)
    }

    #[test]
    fn words_are_eight_digits() {
        assert_eq!(words(""), Some(vec![]));
        assert_eq!(words("00000001ffffffff"), Some(vec![1, -1]));
        assert_eq!(words("80000000"), Some(vec![i32::MIN]));
        assert_eq!(words("0000000"), None);
        assert_eq!(words("0000000A"), None);
        assert_eq!(words("0000000\r"), None);
    }
}
