//! Tens of thousands of texts through the archive, sound and damaged, each compared with the second
//! implementation: what judging tells and every frame, and that nothing else is written. Cursors
//! that no call handed out are compared with a reading of what stands there.

mod texts;

use second::random::Random;
use second::texts::run::run;
use second::texts::{Histogram, CLASSES, NUMBERS};
use texts::{next_clause, Lent, Watched};
use zahrubel::dimacs::Cursor;

/// So many seeds have every byte in every place, and every two faults in every order.
const SEEDS: u64 = 1_024;

fn times(tally: &Histogram, number: u32) -> u64 {
    let of_class = CLASSES.iter().map(|class| tally.times(class.name, number));
    of_class.sum()
}

#[test]
fn the_archive_and_the_second_read_the_same_texts_alike() {
    let tally = match run(&mut Watched, 0..SEEDS) {
        Ok(tally) => tally,
        Err(difference) => panic!("{difference}"),
    };
    assert!(tally.texts() > 20_000, "{tally}");
    for number in NUMBERS {
        assert!(times(&tally, number) > 500, "{number} is rare\n{tally}");
    }
}

/// Any place, inside the text mostly, and any id, the last ones often.
fn drawn_cursor(random: &mut Random, length: usize) -> Cursor {
    let at = match random.below(12) {
        0 => length + random.below(3),
        1 => usize::MAX - random.below(3),
        _ => random.below(length + 1),
    };
    let id = match random.below(6) {
        0 => 2_147_483_645 + random.below(4),
        1 => usize::MAX - random.below(3),
        2 => 0,
        _ => random.between(1, 1_000),
    };
    Cursor { at, id: id as u64 }
}

#[test]
fn behind_any_cursor_stands_what_is_handed_out() {
    let mut random = Random::new(3);
    let mut outcomes = [0; 4];
    for seed in 0..200 {
        for class in &CLASSES {
            let text = class.text(seed);
            for _ in 0..4 {
                let cursor = drawn_cursor(&mut random, text.len());
                outcomes[try_cursor(&text, cursor)] += 1;
            }
        }
    }
    assert!(outcomes.iter().all(|&times| times > 500), "{outcomes:?}");
}

/// 0 for a frame, 1 for none, 2 for no id, and 3 for what the first call says.
fn try_cursor(text: &[u8], cursor: Cursor) -> usize {
    let mut lent = Lent::at(cursor);
    let answer = lent.ask(text);
    if cursor.id == 0 {
        let mut first = Lent::at(Cursor::default());
        assert_eq!(answer, first.ask(text));
        assert_eq!(lent.buffer, first.buffer);
        return 3;
    }
    let Some((literals, end)) = next_clause(text, cursor.at) else {
        assert_eq!((answer.code, answer.detail), (0, 0), "{cursor:?}");
        return 1;
    };
    if cursor.id >= 2_147_483_647 {
        assert_eq!((answer.code, answer.detail), (4, 2_147_483_648));
        return 2;
    }
    let id = cursor.id + 1;
    assert_eq!(lent.cursor, Cursor { at: end, id });
    let words = [&[1, id as i32], literals.as_slice()].concat();
    assert_eq!(lent.frame(answer), words, "{cursor:?}");
    0
}
