//! Frames spoilt in one or two places; a spoilt frame may still be a right one.

use super::moves::any_word;
use crate::random::Random;
use crate::state::State;

pub fn spoilt(frame: &[i32], state: &State, random: &mut Random) -> Vec<i32> {
    let mut frame = frame.to_vec();
    for _ in 0..random.between(1, 2) {
        spoil_once(&mut frame, state, random);
    }
    keep_ids_near(&mut frame, state, random);
    frame
}

/// A new id far ahead would leave no new ids to the rest of the history.
fn keep_ids_near(frame: &mut [i32], state: &State, random: &mut Random) {
    if let [1 | 2, id, ..] = frame {
        let near = state.highest.saturating_add(20);
        if *id > near && !random.one_in(40) {
            *id = near;
        }
    }
}

fn spoil_once(frame: &mut Vec<i32>, state: &State, random: &mut Random) {
    if frame.is_empty() {
        return;
    }
    let place = random.below(frame.len());
    match random.below(11) {
        0 | 1 => frame[place] = any_word(random),
        2 => frame[place] = any_id(state, random),
        3 => frame[place] = frame[place].wrapping_neg(),
        4 => frame[place] = frame[place].wrapping_add(if random.one_in(2) { 1 } else { -1 }),
        5 => drop(frame.remove(place)),
        6 => frame.insert(place, any_word(random)),
        7 => frame.insert(place, frame[place]),
        8 => {
            let other = random.below(frame.len());
            frame.swap(place, other);
        }
        9 => drop(frame.pop()),
        _ => frame.truncate(place),
    }
}

/// The id of a clause in any of the three places, or of one that is gone.
pub fn any_id(state: &State, random: &mut Random) -> i32 {
    let places = state.irredundant.keys().chain(state.learned.keys());
    let stacked = state.stack.iter().map(|record| record.id);
    let mut ids: Vec<i32> = places.copied().chain(stacked).collect();
    ids.push(random.below(state.highest as usize + 2) as i32);
    ids[random.below(ids.len())]
}
