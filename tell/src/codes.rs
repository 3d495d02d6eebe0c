//! What a code says by itself: those of frames' answers, of the faults of a DIMACS text, and of a refused proof file.

use std::ops::RangeInclusive;

/// Its number, what it says, and what the number beside it is: a detail, a position in a text, or a line of a proof.
struct Code(u32, &'static str, &'static str);

/// Faults of a text; positions stand beside them.
const OF_TEXTS: RangeInclusive<u32> = 21..=29;
/// Faults of a proof's line, which stands beside them.
const OF_LINES: RangeInclusive<u32> = 31..=37;
/// The end of a proof; the number of its lines stands beside it.
const OF_AN_END: u32 = 38;

const CODES: &[Code] = &[
    Code(
        0,
        "accepted",
        "after SAT the number of variables changed, else 0",
    ),
    Code(
        1,
        "the tables are no state, or lent sizes are out of range",
        "always 0",
    ),
    Code(2, "the line is no frame: empty, too long, unknown operation, a wrong count, an id that is not positive", "always 0"),
    Code(
        3,
        "a literal or variable is out of range or repeated",
        "index of the first such word in the frame, from 0",
    ),
    Code(
        4,
        "the id is not new, or its clause is not in that place",
        "the id",
    ),
    Code(5, "not clean: the repair of a record could undo it", "id of the topmost offending record"),
    Code(6, "the witness has no literal of the clause", "always 0"),
    Code(7, "a bad hint", "index of its word in the frame, from 0"),
    Code(
        8,
        "the hints are used up",
        "in WEAKEN the id of the clause whose group it is, else 0",
    ),
    Code(
        9,
        "a group is missing or wrong",
        "index of that word in the frame, from 0; the frame's length if it is missing",
    ),
    Code(
        10,
        "the model falsifies an irredundant clause",
        "the least id of such a clause",
    ),
    Code(
        11,
        "the model falsifies an assumption",
        "index of the first such word in the frame, from 0",
    ),
    Code(12, "no entry is free", OF_ROOM),
    Code(13, "not enough literal words are free", OF_ROOM),
    Code(
        21,
        "the problem line is missing",
        "where the word starts that was found instead; the text's length if there is none",
    ),
    Code(22, "a second problem line", "where its p starts"),
    Code(
        23,
        "a malformed word",
        "where it starts; of a problem line cut short, where the next word starts, or the text's length if there is none",
    ),
    Code(
        24,
        "a literal past the variable count that the problem line declares",
        "where the literal starts",
    ),
    Code(
        25,
        "a variable that its clause has already",
        "where the later of the two literals starts",
    ),
    Code(
        26,
        "the 257th literal of a clause",
        "where that literal starts",
    ),
    Code(
        27,
        "a variable count outside 1 to 2,048",
        "where the count starts",
    ),
    Code(28, "the text ends inside a clause", "the text's length"),
    Code(
        29,
        "the text ends with more or fewer clauses than its problem line declares",
        "the text's length",
    ),
    Code(
        31,
        "a malformed line",
        "that line; an addition is \"ID LITERALS 0 HINTS 0\", a deletion \"ID d IDS 0\"",
    ),
    Code(
        32,
        "a literal past the variable count that the rules declare",
        "that of the addition",
    ),
    Code(
        33,
        "a clause that has a variable twice, or more than 256 literals",
        "that of the addition",
    ),
    Code(
        34,
        "an added id that is not above those of the rules and all that were added before",
        "that of the addition",
    ),
    Code(35, "a deleted id that is not held", "that of the deletion"),
    Code(
        36,
        "a negative hint",
        "that of the addition; the hint may be one that is not read",
    ),
    Code(
        37,
        "a failed proof",
        "that of the addition; a hint is not held, has a true literal or two open ones, or the hints are used up",
    ),
    Code(
        38,
        "the proof ends without an empty clause",
        "how many the proof has",
    ),
];

const OF_ROOM: &str =
    "of a frame always 0; of a proof file the line, from 1, or 0 if there is no room for the rules";

fn find(number: u32) -> Option<&'static Code> {
    CODES.iter().find(|code| code.0 == number)
}

/// What a code says where nothing more is known.
pub fn meaning(number: u32) -> &'static str {
    find(number).map_or("no code", |code| code.1)
}

/// A code in two lines, with the number that stood beside it where that is known; none where there is no such code.
pub fn told(number: u32, beside: Option<u32>) -> Option<String> {
    let &Code(_, meaning, what) = find(number)?;
    let (name, unit) = match number {
        number if OF_TEXTS.contains(&number) => ("position", ", in bytes from 0"),
        number if OF_LINES.contains(&number) => ("line", ", from 1"),
        OF_AN_END => ("lines", ""),
        _ => ("detail", ""),
    };
    let beside = beside.map_or(String::new(), |beside| format!(" {beside}"));
    Some(format!(
        "{number}: {meaning}\n    {name}{beside}{unit}: {what}\n"
    ))
}

#[cfg(test)]
mod tests {
    use super::*;

    /// The program says the same of a text's fault, and then how to mend it.
    #[test]
    fn the_program_has_these_words() {
        let program = include_str!("../../crates/dimacs_say/src/lib.rt");
        for code in CODES.iter().filter(|code| OF_TEXTS.contains(&code.0)) {
            assert!(program.contains(&format!("b\"{}", code.1)), "{}", code.1);
        }
    }

    /// So does the program that checks proofs.
    #[test]
    fn the_checker_of_proofs_has_these_words() {
        let source = concat!(
            env!("CARGO_MANIFEST_DIR"),
            "/../crates/zahrubel_lrat/src/main.rt"
        );
        let program = std::fs::read_to_string(source).expect("the program's source");
        let numbers = OF_LINES.chain([12, 13, OF_AN_END]);
        for words in numbers.map(meaning) {
            assert!(program.contains(words), "{words}");
        }
    }
}
