//! The clauses of a text as ADD frames, one behind the other.

use super::reading::Keeps;

/// "ADD frames with ids 1, 2, 3 and so on"
const ADD: i32 = 1;

#[derive(Clone, Debug, PartialEq, Eq)]
pub struct Frames {
    /// The words of all frames. Behind them stand operation and id of one that is not closed.
    words: Vec<i32>,
    /// Where each frame ends.
    ends: Vec<usize>,
}

impl Default for Frames {
    fn default() -> Frames {
        Frames::of_text(0)
    }
}

impl Keeps for Frames {
    #[inline]
    fn literal(&mut self, literal: i32) {
        self.words.push(literal);
    }

    #[inline]
    fn close(&mut self) {
        self.ends.push(self.words.len());
        self.words.extend([ADD, self.ends.len() as i32 + 1]);
    }
}

impl Frames {
    /// No frame yet, and room for those of a text of short clauses.
    pub(super) fn of_text(length: usize) -> Frames {
        let mut words = Vec::with_capacity(2 + length / 3);
        words.extend([ADD, 1]);
        Frames {
            words,
            ends: Vec::with_capacity(length / 16),
        }
    }

    pub fn len(&self) -> usize {
        self.ends.len()
    }

    pub fn is_empty(&self) -> bool {
        self.ends.is_empty()
    }

    /// The words of each frame: operation, id, literals.
    pub fn iter(&self) -> impl Iterator<Item = &[i32]> {
        let mut start = 0;
        self.ends.iter().map(move |&end| {
            let frame = &self.words[start..end];
            start = end;
            frame
        })
    }
}
