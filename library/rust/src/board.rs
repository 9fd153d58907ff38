//! The board: slots and waits, racks, opening, admitting, closing, promising, withdrawing.

use crate::calls;
use crate::refusal::{AdmitRefusal, CloseRefusal, OpenRefusal, PromiseRefusal, WithdrawRefusal};

/// A number of slots counted from the present one. It is not compared with a [`Slot`].
#[repr(C)]
#[derive(Clone, Copy, Debug, Default, PartialEq, Eq, PartialOrd, Ord, Hash)]
pub struct Wait(pub u32);

/// The number of a slot in the day book, from 1.
#[repr(C)]
#[derive(Clone, Copy, Debug, Default, PartialEq, Eq, PartialOrd, Ord, Hash)]
pub struct Slot(pub u32);

/// A place of the board: a rack, or all zero.
#[repr(C)]
#[derive(Clone, Copy, Debug, Default, PartialEq, Eq)]
pub struct Place {
    /// The rack's ticket.
    pub ticket: u32,
    /// The slot in which it was admitted.
    pub admitted: Slot,
    /// The last slot in which it can be baked.
    pub last: Slot,
    /// Its grade, 0 the best.
    pub grade: u8,
}

/// A board. Its racks stand in the first `count` places, by rising ticket.
///
/// The fields can be read and, for a test, written. A call on a board that is not sound refuses.
#[repr(C)]
#[derive(Clone, Copy, Debug, PartialEq, Eq)]
pub struct Board {
    /// Grades are 0 to 2^depth - 1.
    pub depth: u8,
    /// The present slot.
    pub slot: Slot,
    /// The highest ticket so far.
    pub highest: u32,
    /// How many racks it holds.
    pub count: usize,
    /// The racks, and then places that are all zero.
    pub places: [Place; Board::PLACES],
}

/// A rack given up, in the list that a closing is lent.
#[repr(C)]
#[derive(Clone, Copy, Debug, Default, PartialEq, Eq, PartialOrd, Ord)]
pub struct Entry {
    /// The rack's ticket.
    pub ticket: u32,
    /// Its grade.
    pub grade: u8,
    /// The slot in which it was admitted.
    pub admitted: Slot,
}

/// A rack baked.
#[derive(Clone, Copy, Debug, PartialEq, Eq)]
pub struct Baked {
    /// The rack's ticket.
    pub ticket: u32,
    /// Its grade.
    pub grade: u8,
}

/// What a closing did.
#[derive(Clone, Copy, Debug, PartialEq, Eq)]
pub struct Closed {
    /// The rack baked; none where the board had no racks.
    pub baked: Option<Baked>,
    /// How many racks were given up: so many entries of the list were written, from its start.
    pub given_up: usize,
    /// How many racks are lost already: of those on the board before the bake, the fewest that any plan from this slot on gives up if
    /// nothing more arrives.
    pub shortfall: usize,
}

impl Board {
    /// Longest wait.
    pub const LONGEST_WAIT: Wait = Wait(24);
    /// Most racks admitted in a slot.
    pub const MOST_IN_SLOT: usize = 8;
    /// Most racks held. A lent list has at least as many entries.
    pub const PLACES: usize = 192;
    /// Last slot of a book.
    pub const LAST_SLOT: Slot = Slot(1_000_000);

    /// A new board of this depth, 0 to 3: slot 1 and no racks.
    pub fn open(depth: u32) -> Result<Board, OpenRefusal> {
        let answer = calls::open(depth);
        OpenRefusal::from_number(answer.refusal).map(|()| answer.board)
    }

    /// Whether the board is sound. What opening, admitting, closing and withdrawing leave behind is.
    pub fn is_sound(&self) -> bool {
        calls::sound(*self)
    }

    /// Admits a rack in the present slot; the answer is its last slot. A refusal leaves the board as it was.
    pub fn admit(&mut self, ticket: u32, wait: Wait, grade: u32) -> Result<Slot, AdmitRefusal> {
        let answer = calls::admit(*self, ticket, wait, grade);
        *self = answer.board;
        AdmitRefusal::from_number(answer.refusal).map(|()| answer.last)
    }

    /// Closes the present slot and moves to the next. The racks given up are written from the start of the list, by grade from best
    /// to worst, within a grade by rising ticket; later entries keep what they had. A refusal leaves board and list as they were.
    pub fn close(&mut self, list: &mut [Entry]) -> Result<Closed, CloseRefusal> {
        let answer = calls::close_into(*self, list);
        *self = answer.board;
        CloseRefusal::from_number(answer.refusal).map(|()| Closed {
            baked: (answer.ticket != 0).then_some(Baked {
                ticket: answer.ticket,
                grade: answer.grade,
            }),
            given_up: answer.given_up as usize,
            shortfall: answer.shortfall as usize,
        })
    }

    /// What can still be promised: the least wait, 1 to [`Board::LONGEST_WAIT`], such that some plan from the present slot on bakes one rack
    /// more of that wait and every rack on the board, if nothing else arrives; none where there is no such wait. A longer wait can be
    /// promised too.
    pub fn promise(&self) -> Result<Option<Wait>, PromiseRefusal> {
        let answer = calls::promise(*self);
        PromiseRefusal::from_number(answer.refusal)
            .map(|()| (answer.wait != Wait(0)).then_some(answer.wait))
    }

    /// Withdraws a rack that is waiting since an earlier slot: takes it off the board; the answer is its grade. Its ticket is not admitted
    /// again. A refusal leaves the board as it was.
    pub fn withdraw(&mut self, ticket: u32) -> Result<u8, WithdrawRefusal> {
        let answer = calls::withdraw(*self, ticket);
        *self = answer.board;
        WithdrawRefusal::from_number(answer.refusal).map(|()| answer.grade)
    }
}
