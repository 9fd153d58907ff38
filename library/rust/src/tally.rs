//! The tally, which the caller keeps.

use crate::calls;
use crate::refusal::CountRefusal;

/// The kinds of event that a tally counts.
#[derive(Clone, Copy, Debug, PartialEq, Eq, Hash)]
pub enum Kind {
    /// A rack was admitted.
    Admitted = 0,
    /// A rack was baked.
    Baked = 1,
    /// A rack was given up.
    GivenUp = 2,
    /// A rack was withdrawn.
    Withdrawn = 3,
}

/// A count for each kind of event and each of eight grades.
#[repr(C)]
#[derive(Clone, Copy, Debug, PartialEq, Eq)]
pub struct Tally {
    /// The count of a kind and a grade, at kind * 8 + grade.
    pub counts: [u32; Tally::KINDS * Tally::GRADES],
}

impl Tally {
    /// Kinds of event.
    pub const KINDS: usize = 4;
    /// Grades that are counted.
    pub const GRADES: usize = 8;

    /// A tally with every count 0.
    pub fn new() -> Tally {
        calls::zero()
    }

    /// Takes in one event. A refusal leaves the tally as it was.
    pub fn count(&mut self, kind: Kind, grade: u32) -> Result<(), CountRefusal> {
        CountRefusal::from_number(calls::note(self, kind as u32, grade))
    }

    /// The counts of a kind, by grade.
    pub fn counts_of(&self, kind: Kind) -> &[u32] {
        let first = kind as usize * Tally::GRADES;
        &self.counts[first..first + Tally::GRADES]
    }
}

impl Default for Tally {
    fn default() -> Tally {
        Tally::new()
    }
}
