//! What the two boards have in common that were written for speed.

use model::limits::MOST_HELD;

/// A rack given up.
#[derive(Clone, Copy, Debug, Default, PartialEq, Eq)]
pub struct Entry {
    pub ticket: u32,
    pub grade: u32,
}

/// A list lent to a closing, with an entry for every rack that a board can hold.
pub type List = [Entry; MOST_HELD];

/// What a closing answers. A ticket of 0 says that nothing was baked.
#[derive(Clone, Copy, Debug, Default, PartialEq, Eq)]
pub struct Closed {
    pub ticket: u32,
    pub grade: u32,
    /// How many racks are given up; they stand first in the lent list, by grade from best to worst, within a grade by rising ticket.
    pub given_up: usize,
    pub shortfall: u32,
}

/// The racks of a day and the rule. Nothing is checked here: a day lets through only what the rows allow.
pub trait Board {
    /// A board without racks.
    fn open(depth: u32) -> Self;

    /// Takes a rack in.
    fn admit(&mut self, ticket: u32, slot: u32, wait: u32, grade: u32);

    /// Bakes a rack, gives up those whose last slot this is, and lists them.
    fn close(&mut self, slot: u32, list: &mut List) -> Closed;
}
