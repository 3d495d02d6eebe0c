//! Bounds of docs/FORMAT.md, and the few things that are said of literals.

/// What the program opens.
pub const VARIABLES: i32 = 2_048;
pub const ENTRIES: usize = 1_024;
pub const WORDS: usize = 8_192;
/// A clause, a witness, a list of assumptions.
pub const MOST_LITERALS: usize = 256;

/// The opposite literal; the least word, which is no literal, is its own.
pub fn opposite(literal: i32) -> i32 {
    literal.wrapping_neg()
}

/// Whether a list holds the literal.
pub fn holds(list: &[i32], literal: i32) -> bool {
    list.contains(&literal)
}

/// The first literal of a list whose opposite is in the other.
pub fn opposed(list: &[i32], other: &[i32]) -> Option<i32> {
    let mut literals = list.iter().copied();
    literals.find(|&literal| holds(other, opposite(literal)))
}

/// Whether the true variables, which rise, make a literal true.
pub fn is_true(literal: i32, trues: &[i32]) -> bool {
    let listed = trues.binary_search(&literal.wrapping_abs()).is_ok();
    listed == (literal > 0)
}
