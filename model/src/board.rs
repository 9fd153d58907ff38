//! Racks, the board that holds them, and opening.

use crate::limits::{DEEPEST, MOST_HELD};
use crate::refusal::Refusal;

/// A rack. All zero means an unused place.
#[derive(Clone, Copy, Debug, Default, PartialEq, Eq)]
pub struct Job {
    pub ticket: u32,
    /// The slot in which it was admitted.
    pub admitted: u32,
    /// Its last slot: the last one in which it can be baked.
    pub deadline: u32,
    pub grade: u32,
}

/// A board. The fields are plain numbers, so damaged boards can be written too.
#[derive(Clone, Debug, PartialEq, Eq)]
pub struct Board {
    /// Number of bits of a grade.
    pub depth: u32,
    /// The present slot.
    pub slot: u32,
    pub highest_ticket: u32,
    /// How many places, from the first, hold racks.
    pub count: u32,
    pub places: [Job; MOST_HELD],
}

impl Board {
    /// The board with zero in every field.
    pub fn zero() -> Board {
        Board {
            depth: 0,
            slot: 0,
            highest_ticket: 0,
            count: 0,
            places: [Job::default(); MOST_HELD],
        }
    }

    /// A board with the given racks from the first place on.
    pub fn holding(depth: u32, slot: u32, highest_ticket: u32, jobs: &[Job]) -> Board {
        let mut board = Board {
            depth,
            slot,
            highest_ticket,
            ..Board::zero()
        };
        board.put(jobs);
        board
    }

    /// Number of racks; a damaged count above the number of places is taken as that
    /// number here.
    pub fn held(&self) -> usize {
        (self.count as usize).min(MOST_HELD)
    }

    /// The racks on the board.
    pub fn jobs(&self) -> &[Job] {
        &self.places[..self.held()]
    }

    /// The places past the count.
    pub fn unused(&self) -> &[Job] {
        &self.places[self.held()..]
    }

    /// Makes these the racks on the board; all other places become zero.
    pub fn put(&mut self, jobs: &[Job]) {
        self.count = jobs.len() as u32;
        self.places = [Job::default(); MOST_HELD];
        self.places[..jobs.len()].copy_from_slice(jobs);
    }
}

/// Opens a board. A refused opening returns the board that is all zero.
pub fn open(depth: u32) -> (Board, Result<(), Refusal>) {
    if depth > DEEPEST {
        return (Board::zero(), Err(Refusal::Depth));
    }
    (Board::holding(depth, 1, 0, &[]), Ok(()))
}

/// The worst grade of a board's depth.
pub fn worst_grade(depth: u32) -> u32 {
    (1 << depth) - 1
}

/// Whether a grade is below 2^depth; from depth 32 on every 32-bit number is.
pub fn is_grade(grade: u32, depth: u32) -> bool {
    depth >= 32 || u64::from(grade) < 1u64 << depth
}
