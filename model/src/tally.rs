//! The tally that the caller keeps.

use crate::limits::{FULL_COUNT, MOST_GRADES};
use crate::refusal::Refusal;

/// Kind of event: a rack was admitted.
pub const ADMITTED: u32 = 0;
/// Kind of event: a rack was baked.
pub const BAKED: u32 = 1;
/// Kind of event: a rack was given up.
pub const EXPIRED: u32 = 2;
/// Kind of event: a rack was withdrawn.
pub const WITHDRAWN: u32 = 3;
/// Number of kinds.
pub const KINDS: usize = 4;

/// A count for each kind and each grade.
#[derive(Clone, Debug, Default, PartialEq, Eq)]
pub struct Tally {
    pub counts: [[u32; MOST_GRADES]; KINDS],
}

impl Tally {
    /// Takes in one event.
    pub fn record(&mut self, kind: u32, grade: u32) -> Result<(), Refusal> {
        if kind as usize >= KINDS || grade as usize >= MOST_GRADES {
            return Err(Refusal::NoSuchCount);
        }
        let count = &mut self.counts[kind as usize][grade as usize];
        if *count >= FULL_COUNT {
            return Err(Refusal::CountFull);
        }
        *count += 1;
        Ok(())
    }

    /// The count of a kind and a grade.
    pub fn count(&self, kind: u32, grade: u32) -> u32 {
        self.counts[kind as usize][grade as usize]
    }
}
