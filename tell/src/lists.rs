//! Lists and counts in words.

/// A clause or witness, whole.
pub fn clause(literals: &[i32]) -> String {
    format!("({})", joined(literals))
}

/// A list of any length; a long one is cut in its middle.
pub fn cut(words: &[i32]) -> String {
    const MOST: usize = 24;
    if words.len() <= MOST {
        return joined(words);
    }
    let (first, last) = (&words[..MOST / 2], &words[words.len() - MOST / 2..]);
    let left_out = words.len() - MOST;
    format!("{} .. {left_out} more .. {}", joined(first), joined(last))
}

fn joined(words: &[i32]) -> String {
    let told: Vec<String> = words.iter().map(i32::to_string).collect();
    told.join(" ")
}

/// A count with its noun: 1 word, 2 words.
pub fn count(number: usize, noun: &str) -> String {
    match number {
        1 => format!("1 {noun}"),
        _ => format!("{number} {noun}s"),
    }
}

#[cfg(test)]
mod tests {
    use super::*;

    #[test]
    fn lists_and_counts() {
        assert_eq!(clause(&[]), "()");
        assert_eq!(clause(&[1, -7, 12]), "(1 -7 12)");
        let many: Vec<i32> = (1..=30).collect();
        assert_eq!(
            cut(&many),
            "1 2 3 4 5 6 7 8 9 10 11 12 .. 6 more .. 19 20 21 22 23 24 25 26 27 28 29 30"
        );
        assert_eq!(cut(&many[..24]).matches(' ').count(), 23);
        assert_eq!(count(1, "word"), "1 word");
        assert_eq!(count(0, "word"), "0 words");
    }
}
