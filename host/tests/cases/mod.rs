//! Frames by their parts, drawn: what is in range, at its edges, and too much.

use second::frames::{self, Group};
use second::random::Random;
use zahrubel::{ClauseId, Frame, FrameError, Literal, Variable};

/// The parts of a frame as plain numbers. Operations that have no such list do not look at it.
#[derive(Clone, Debug)]
pub struct Case {
    pub operation: i32,
    pub id: i32,
    /// A clause, a witness or assumptions.
    pub first: Vec<i32>,
    /// Hints or true variables.
    pub second: Vec<i32>,
    pub groups: Vec<Group>,
}

/// A length that is mostly short, often at an edge, sometimes past it.
fn length(random: &mut Random, edge: usize) -> usize {
    match random.below(8) {
        0 => random.between(edge - 1, edge + 1),
        1 => random.below(edge),
        _ => random.below(6),
    }
}

fn any_id(random: &mut Random) -> i32 {
    match random.below(12) {
        0 => -(random.below(2) as i32),
        1 => i32::MAX,
        _ => random.between(1, 5_000) as i32,
    }
}

fn ids(random: &mut Random, count: usize) -> Vec<i32> {
    (0..count)
        .map(|_| random.between(1, 5_000) as i32)
        .collect()
}

fn groups(random: &mut Random, id: i32) -> Vec<Group> {
    let mut other = 0;
    let mut groups = Vec::new();
    for _ in 0..random.below(4) {
        other += random.between(1, 9) as i32;
        // No clause has a group of its own.
        other += i32::from(other == id);
        let count = length(random, 4_000);
        groups.push((other, ids(random, count)));
    }
    groups
}

pub fn drawn(random: &mut Random) -> Case {
    let operation = random.between(1, 9) as i32;
    let id = any_id(random);
    let first = length(random, 256);
    let first = random.literals(2_048, first);
    let second = if operation == 8 {
        let count = length(random, 2_047);
        let mut trues = random.literals(2_048, count);
        trues
            .iter_mut()
            .for_each(|variable| *variable = variable.abs());
        trues.sort_unstable();
        trues
    } else {
        // So many hints that the frame has 4,096 words, or one less or more.
        let count = length(random, 4_096 - 3 - first.len());
        ids(random, count)
    };
    let groups = match operation {
        6 => groups(random, id),
        _ => Vec::new(),
    };
    Case {
        operation,
        id,
        first,
        second,
        groups,
    }
}

fn id_of(number: i32) -> Result<ClauseId, FrameError> {
    // What is negative is a number past the last id.
    ClauseId::new(number as u32)
}

fn ids_of(numbers: &[i32]) -> Result<Vec<ClauseId>, FrameError> {
    numbers.iter().map(|&number| id_of(number)).collect()
}

impl Case {
    /// By the builders.
    pub fn built(&self) -> Result<Frame, FrameError> {
        let first = Literal::list(&self.first)?;
        match self.operation {
            8 => {
                let trues: Result<Vec<Variable>, _> = self
                    .second
                    .iter()
                    .map(|&v| Variable::new(v as u32))
                    .collect();
                Frame::sat(&first, &trues?)
            }
            9 => Frame::unsat(&first, &ids_of(&self.second)?),
            _ => self.built_of_id(id_of(self.id)?, &first),
        }
    }

    fn built_of_id(&self, id: ClauseId, first: &[Literal]) -> Result<Frame, FrameError> {
        match self.operation {
            1 => Frame::add(id, first),
            2 => Frame::learn(id, first, &ids_of(&self.second)?),
            3 => Ok(Frame::forget(id)),
            4 => Ok(Frame::promote(id)),
            5 => Frame::drop_clause(id, &ids_of(&self.second)?),
            6 => {
                let mut weaken = Frame::weaken(id, first);
                for (other, hints) in &self.groups {
                    weaken = weaken.group(id_of(*other)?, &ids_of(hints)?);
                }
                weaken.frame()
            }
            _ => Ok(Frame::restore(id)),
        }
    }

    /// By the second implementation, which writes whatever it is handed.
    pub fn expected(&self) -> Vec<i32> {
        match self.operation {
            1 => frames::add(self.id, &self.first),
            2 => frames::learn(self.id, &self.first, &self.second),
            3 => frames::forget(self.id),
            4 => frames::promote(self.id),
            5 => frames::drop_clause(self.id, &self.second),
            6 => frames::weaken(self.id, &self.first, &self.groups),
            7 => frames::restore(self.id),
            8 => frames::sat(&self.first, &self.second),
            _ => frames::unsat(&self.first, &self.second),
        }
    }
}
