//! The bounds and words of document 01, chapter "Terms".

/// "V is set at opening, 1 to 2,048."
pub const MOST_VARIABLES: i32 = 2_048;
/// "A clause is a list of 0 to 256 literals"; witnesses and assumptions share the bound.
pub const MOST_LITERALS: usize = 256;
/// "lent sizes outside 1 to 1,024 entries"
pub const MOST_ENTRIES: usize = 1_024;
/// "or 1 to 8,192 literal words"
pub const MOST_WORDS: usize = 8_192;
/// "A frame is 1 to 4,096 words"
pub const LONGEST_FRAME: usize = 4_096;

/// The variable of a literal, as an index.
pub fn variable(literal: i32) -> usize {
    literal.unsigned_abs() as usize
}

/// "A literal is v or -v" for a variable 1 to V. "The word -2147483648 is a literal past V",
/// so the magnitude is taken without a sign.
pub fn is_literal(word: i32, vars: i32) -> bool {
    word != 0 && word.unsigned_abs() <= vars.unsigned_abs()
}
