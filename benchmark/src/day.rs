//! A day on one of the two boards: the rows of the calls, and the tally.

use crate::board::{Board, Closed, List};
use model::limits::{DEEPEST, LAST_SLOT, LONGEST_LAXITY, MOST_GRADES, MOST_PER_SLOT};
use model::refusal::Refusal;

/// What was counted of one grade.
#[derive(Clone, Copy, Debug, Default, PartialEq, Eq)]
pub struct Tally {
    pub admitted: u32,
    pub baked: u32,
    pub given_up: u32,
}

/// An open board with what the rows read, and a tally for each grade.
pub struct Day<B> {
    board: B,
    depth: u32,
    slot: u32,
    highest_ticket: u32,
    admitted_now: usize,
    tally: [Tally; MOST_GRADES],
}

impl<B: Board> Day<B> {
    /// Row 1.
    pub fn open(depth: u32) -> Result<Day<B>, Refusal> {
        if depth > DEEPEST {
            return Err(Refusal::Depth);
        }
        Ok(Day {
            board: B::open(depth),
            depth,
            slot: 1,
            highest_ticket: 0,
            admitted_now: 0,
            tally: [Tally::default(); MOST_GRADES],
        })
    }

    /// The slot that the next closing closes.
    pub fn slot(&self) -> u32 {
        self.slot
    }

    /// The tally of each grade of the depth.
    pub fn tally(&self) -> &[Tally] {
        &self.tally[..1 << self.depth]
    }

    /// The worst grade of the depth, which a blank one stands for.
    pub fn worst_grade(&self) -> u32 {
        (1 << self.depth) - 1
    }

    /// Rows 3 to 7, in order; else the rack is admitted, and its last slot is the answer.
    #[inline]
    pub fn admit(&mut self, ticket: u32, wait: u32, grade: u32) -> Result<u32, Refusal> {
        if self.slot > LAST_SLOT {
            return Err(Refusal::BookEnded);
        }
        if ticket <= self.highest_ticket {
            return Err(Refusal::Ticket);
        }
        if !(1..=LONGEST_LAXITY).contains(&wait) {
            return Err(Refusal::Laxity);
        }
        if grade > self.worst_grade() {
            return Err(Refusal::Grade);
        }
        if self.admitted_now == MOST_PER_SLOT {
            return Err(Refusal::SlotFull);
        }
        self.highest_ticket = ticket;
        self.admitted_now += 1;
        self.tally[grade as usize].admitted += 1;
        self.board.admit(ticket, self.slot, wait, grade);
        Ok(self.slot + wait - 1)
    }

    /// Row 3; else the slot is closed.
    #[inline]
    pub fn close(&mut self, list: &mut List) -> Result<Closed, Refusal> {
        if self.slot > LAST_SLOT {
            return Err(Refusal::BookEnded);
        }
        let closed = self.board.close(self.slot, list);
        if closed.ticket != 0 {
            self.tally[closed.grade as usize].baked += 1;
        }
        for entry in &list[..closed.given_up] {
            self.tally[entry.grade as usize].given_up += 1;
        }
        self.slot += 1;
        self.admitted_now = 0;
        Ok(closed)
    }
}
