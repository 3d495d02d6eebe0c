//! Frames that cost their reading alone: right words, refused before any table is looked at.

use crate::traces::author::Author;

const LINES: usize = 80_000;

pub fn write(author: &mut Author<'_>) {
    for _ in 0..LINES {
        let length = author.random.between(5, 40);
        let mut frame: Vec<i32> = (0..length).map(|_| author.random.draw() as i32).collect();
        if author.random.one_in(2) {
            frame[0] = author.random.between(10, 1_000_000) as i32;
        } else {
            frame[0] = author.random.between(1, 7) as i32;
            frame[1] = frame[1].min(0);
        }
        author.say(&frame);
    }
}
