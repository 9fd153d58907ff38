//! Withdrawals on days, and what they change.

use std::collections::BTreeSet;

use model::board::Board;
use model::calls::{close, withdraw};
use model::day::{Day, Done};
use model::limits::{LONGEST_LAXITY, MOST_HELD};
use model::lines::{next_line, read, Request};
use model::refusal::Refusal;

/// A line that withdraws: the day before it, its ticket, its answer, the day after it.
#[derive(Debug)]
pub struct Withdrawal {
    pub before: Day,
    pub ticket: u32,
    pub answer: Result<Done, Refusal>,
    pub after: Day,
}

impl Withdrawal {
    /// The board before it, where one is open.
    pub fn board(&self) -> &Board {
        self.before.board.as_ref().expect("row 15 has passed")
    }

    pub fn is_let_through(&self) -> bool {
        self.answer.is_ok()
    }
}

/// Follows a day and hands on each line that passes rows 11 to 14 as a withdrawal.
pub fn each_withdrawal<E: FnMut(&Withdrawal)>(mut input: &[u8], mut each: E) {
    let mut day = Day::default();
    while let Some(line) = next_line(&mut input).expect("memory can be read") {
        if let Ok(Request::Withdraw { ticket }) = read(&line) {
            let before = day.clone();
            let answer = day.take(&line);
            each(&Withdrawal {
                before,
                ticket,
                answer,
                after: day.clone(),
            });
        } else {
            let _ = day.take(&line);
        }
    }
}

/// The tickets baked from this board on if nothing more arrives.
pub fn baked_from(board: &Board) -> BTreeSet<u32> {
    let mut board = board.clone();
    let mut baked = BTreeSet::new();
    for _ in 0..LONGEST_LAXITY {
        if let Ok(closed) = close(&mut board, MOST_HELD) {
            baked.insert(closed.ticket);
        }
    }
    baked.remove(&0);
    baked
}

/// Whether taking this ticket off gets a rack baked that would be given up otherwise.
pub fn gets_another_baked(board: &Board, ticket: u32) -> bool {
    let mut left = board.clone();
    withdraw(&mut left, ticket).expect("a rack that can be withdrawn");
    !baked_from(&left).is_subset(&baked_from(board))
}
