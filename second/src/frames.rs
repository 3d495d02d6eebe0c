//! Frames put together from their parts, for tests and traces.

/// A group of WEAKEN: D's id and its hints; k is their number.
pub type Group = (i32, Vec<i32>);

pub fn add(id: i32, clause: &[i32]) -> Vec<i32> {
    joined(&[&[1, id], clause])
}

pub fn learn(id: i32, clause: &[i32], hints: &[i32]) -> Vec<i32> {
    joined(&[&[2, id, clause.len() as i32], clause, hints])
}

pub fn forget(id: i32) -> Vec<i32> {
    vec![3, id]
}

pub fn promote(id: i32) -> Vec<i32> {
    vec![4, id]
}

pub fn drop_clause(id: i32, hints: &[i32]) -> Vec<i32> {
    joined(&[&[5, id], hints])
}

pub fn weaken(id: i32, witness: &[i32], groups: &[Group]) -> Vec<i32> {
    let mut frame = joined(&[&[6, id, witness.len() as i32], witness]);
    for (other, hints) in groups {
        frame.extend([*other, hints.len() as i32]);
        frame.extend(hints);
    }
    frame
}

pub fn restore(id: i32) -> Vec<i32> {
    vec![7, id]
}

pub fn sat(assumptions: &[i32], true_variables: &[i32]) -> Vec<i32> {
    joined(&[&[8, assumptions.len() as i32], assumptions, true_variables])
}

pub fn unsat(assumptions: &[i32], hints: &[i32]) -> Vec<i32> {
    joined(&[&[9, assumptions.len() as i32], assumptions, hints])
}

fn joined(parts: &[&[i32]]) -> Vec<i32> {
    parts.concat()
}
