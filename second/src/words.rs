//! Frames and answers told in the words of document 01.

use crate::lines::read_words;

const OPERATIONS: [&str; 9] = [
    "ADD", "LEARN", "FORGET", "PROMOTE", "DROP", "WEAKEN", "RESTORE", "SAT", "UNSAT",
];

/// The name of an operation 1 to 9.
pub fn operation_name(operation: i32) -> &'static str {
    let row = usize::try_from(operation).unwrap_or(0).wrapping_sub(1);
    OPERATIONS.get(row).copied().unwrap_or("unknown operation")
}

/// What a code says.
pub fn code_meaning(code: i32) -> &'static str {
    match code {
        0 => "accepted",
        1 => "no state, or lent sizes out of bounds",
        2 => "no frame, or a wrong count",
        3 => "a word is no literal, repeats a variable or does not rise",
        4 => "id not new, or its clause not in the place",
        5 => "not clean",
        6 => "witness has no literal of the clause",
        7 => "bad hint",
        8 => "hints used up",
        9 => "groups are wrong",
        10 => "model falsifies an irredundant clause",
        11 => "model falsifies an assumption",
        12 => "entries are full",
        13 => "words do not suffice",
        _ => "no code of document 01",
    }
}

/// A line of a trace, without its 0A, in words.
pub fn tell_line(line: &[u8]) -> String {
    let mut words = Vec::new();
    match read_words(line, &mut words) {
        Some(()) => tell_frame(&words),
        None => format!("no frame: {} bytes", line.len()),
    }
}

/// A frame in words, as far as its counts allow.
pub fn tell_frame(frame: &[i32]) -> String {
    let Some((&operation, rest)) = frame.split_first() else {
        return "empty frame".to_string();
    };
    let name = operation_name(operation);
    let told = match operation {
        1..=7 => match rest.split_first() {
            Some((id, rest)) => format!("{name} {id}{}", tell_parts(operation, rest)),
            None => format!("{name} without an id"),
        },
        8 | 9 => format!("{name}{}", tell_parts(operation, rest)),
        _ => format!("{name} {operation}, {} words behind it", rest.len()),
    };
    format!("{told} [{} words]", frame.len())
}

fn tell_parts(operation: i32, rest: &[i32]) -> String {
    match operation {
        1 => tell_list("", rest),
        2 => tell_counted(rest, "", "hints", tell_list),
        5 => tell_list("hints", rest),
        6 => tell_counted(rest, "witness", "groups", tell_groups),
        8 => tell_counted(rest, "assuming", "true", tell_list),
        9 => tell_counted(rest, "assuming", "hints", tell_list),
        _ if rest.is_empty() => String::new(),
        _ => tell_list("and more words", rest),
    }
}

/// A count, the list it counts, and what is behind it.
fn tell_counted(
    rest: &[i32],
    list: &str,
    behind: &str,
    tell_behind: fn(&str, &[i32]) -> String,
) -> String {
    let Some((&count, rest)) = rest.split_first() else {
        return " without a count".to_string();
    };
    let parts = usize::try_from(count)
        .ok()
        .and_then(|count| rest.split_at_checked(count));
    match parts {
        Some((counted, others)) => tell_list(list, counted) + &tell_behind(behind, others),
        None => format!(" count {count} of{}", tell_list("", rest)),
    }
}

/// The words of a list; a long one is cut in its middle.
fn tell_list(name: &str, words: &[i32]) -> String {
    const MOST: usize = 24;
    let joined = |words: &[i32]| {
        let told: Vec<String> = words.iter().map(i32::to_string).collect();
        told.join(" ")
    };
    let told = if words.len() > MOST {
        let (first, last) = (&words[..MOST / 2], &words[words.len() - MOST / 2..]);
        let left_out = words.len() - first.len() - last.len();
        format!("{} .. {left_out} more .. {}", joined(first), joined(last))
    } else {
        joined(words)
    };
    match name {
        "" => format!(" ({told})"),
        _ => format!(" {name} ({told})"),
    }
}

fn tell_groups(name: &str, mut words: &[i32]) -> String {
    let mut told = format!(" {name}");
    while let [id, count, rest @ ..] = words {
        let parts = usize::try_from(*count)
            .ok()
            .and_then(|count| rest.split_at_checked(count));
        let Some((hints, behind)) = parts else {
            break;
        };
        told += &format!(" {id}:{}", tell_list("", hints));
        words = behind;
    }
    if !words.is_empty() {
        told += &tell_list("and more words", words);
    }
    told
}

/// An answer line, without its 0A, in words.
pub fn tell_answer(line: &[u8]) -> String {
    let mut words = Vec::new();
    match (read_words(line, &mut words), words.as_slice()) {
        (Some(()), [code, detail, model @ ..]) => {
            let told = format!("{code} ({}), detail {detail}", code_meaning(*code));
            if model.is_empty() {
                told
            } else {
                told + &tell_list("model", model)
            }
        }
        _ => format!("no answer: {:?}", String::from_utf8_lossy(line)),
    }
}

#[cfg(test)]
mod tests {
    use super::*;
    use crate::frames::{add, learn, restore, sat, weaken};

    #[test]
    fn frames_are_told_in_words() {
        assert_eq!(tell_frame(&add(4, &[1, -3])), "ADD 4 (1 -3) [4 words]");
        assert_eq!(
            tell_frame(&learn(3, &[1, 2], &[1, 2])),
            "LEARN 3 (1 2) hints (1 2) [7 words]"
        );
        assert_eq!(
            tell_frame(&weaken(1, &[3], &[(2, vec![3]), (4, vec![])])),
            "WEAKEN 1 witness (3) groups 2: (3) 4: () [9 words]"
        );
        assert_eq!(tell_frame(&restore(1)), "RESTORE 1 [2 words]");
        assert_eq!(
            tell_frame(&sat(&[-3], &[2])),
            "SAT assuming (-3) true (2) [4 words]"
        );
    }

    #[test]
    fn faulty_frames_are_told_as_far_as_they_go() {
        assert_eq!(tell_frame(&[]), "empty frame");
        assert_eq!(tell_frame(&[1]), "ADD without an id [1 words]");
        assert_eq!(
            tell_frame(&[2, 1, 5, 7]),
            "LEARN 1 count 5 of (7) [4 words]"
        );
        assert_eq!(
            tell_frame(&[6, 1, 1, 1, 2, -1]),
            "WEAKEN 1 witness (1) groups and more words (2 -1) [6 words]"
        );
        assert_eq!(tell_line(b"0g"), "no frame: 2 bytes");
    }

    #[test]
    fn answers_are_told_in_words() {
        assert_eq!(
            tell_answer(b"000000000000000100000001"),
            "0 (accepted), detail 1 model (1)"
        );
        assert_eq!(tell_answer(b"0000000500000001"), "5 (not clean), detail 1");
        assert_eq!(tell_answer(b"00"), "no answer: \"00\"");
    }
}
