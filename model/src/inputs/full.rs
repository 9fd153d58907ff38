//! Days on which the board is about full, so that now one rack more is lost, now none.

use super::questions::with_questions;
use super::writer::{opened, Writer};
use crate::board::{self, worst_grade, Board, Job};
use crate::calls;
use crate::draw::Draw;
use crate::limits::{LONGEST_LAXITY, MOST_HELD, MOST_PER_SLOT};
use crate::samples;
use crate::shortfall;

/// A day so far, and the board as its lines leave it. Past the book's end they are
/// refused, and the board stays as it is.
pub struct Hovering {
    pub writer: Writer,
    pub board: Board,
}

/// How many racks come: until there is room for no more of their kind than so many,
/// and as long as no more are lost than so many.
const LEVELS: [(usize, u32); 7] = [(2, 0), (1, 0), (0, 0), (0, 1), (0, 2), (0, 3), (0, 9)];

/// Turns of no more slots than the longest wait. Nearly every rack of a turn has the
/// turn's last slot; at first fewer come than fit, or just as many, and later on a few
/// more: about five times in the longest turn it becomes one level more. A rack that is
/// taken back makes room for another one.
pub fn shortfall(draw: &mut Draw, slots: u32) -> Vec<u8> {
    let mut day = Hovering::opened(draw);
    let turn = draw.pick(&[1, 3, 8, 16, LONGEST_LAXITY, LONGEST_LAXITY]);
    let mut level = 0;
    for slot in 0..slots {
        let left = turn - slot % turn;
        if left == turn {
            level = draw.index(4);
        } else if draw.one_in(LONGEST_LAXITY / 5) {
            level = (level + 1).min(LEVELS.len() - 1);
        }
        if draw.one_in(3) {
            day.withdraw(draw);
        }
        for _ in 0..MOST_PER_SLOT {
            let any = draw.between(1, LONGEST_LAXITY);
            let laxity = if draw.one_in(30) { any } else { left };
            day.admit_up_to(draw, laxity, LEVELS[level]);
        }
        day.close();
    }
    with_questions(draw, &day.writer.bytes, 5)
}

impl Hovering {
    pub fn opened(draw: &mut Draw) -> Hovering {
        let writer = opened(draw);
        let board = board::open(writer.depth).0;
        Hovering { writer, board }
    }

    /// Admits a rack with this wait, unless too little room is left or too many are lost.
    pub fn admit_up_to(&mut self, draw: &mut Draw, laxity: u32, (room, lost): (usize, u32)) {
        let slot = self.board.slot;
        let newcomer = Job {
            deadline: slot + laxity - 1,
            ..Job::default()
        };
        let mut jobs = self.board.jobs().to_vec();
        jobs.resize(jobs.len() + 1 + room, newcomer);
        if shortfall::least_given_up(&jobs, slot) <= lost {
            self.admit(draw, laxity);
        }
    }

    /// Admits a rack with this wait and any grade.
    pub fn admit(&mut self, draw: &mut Draw, laxity: u32) {
        let grade = self.writer.grade(draw);
        self.writer.admit(draw, laxity, grade);
        let (ticket, worst) = (self.writer.highest, worst_grade(self.board.depth));
        let _ = calls::admit(&mut self.board, ticket, laxity, grade.unwrap_or(worst));
    }

    pub fn close(&mut self) {
        self.writer.close();
        let _ = calls::close(&mut self.board, MOST_HELD);
    }

    /// Withdraws a rack, if there is one that can be, and tells whether it did.
    pub fn withdraw(&mut self, draw: &mut Draw) -> bool {
        let ticket = match samples::to_withdraw(draw, &self.board) {
            Some(ticket) => ticket,
            None => return false,
        };
        self.writer.withdraw(draw, ticket);
        calls::withdraw(&mut self.board, ticket).is_ok()
    }

    /// Asks for a rack that cannot be withdrawn.
    pub fn withdraw_in_vain(&mut self, draw: &mut Draw) {
        let ticket = samples::not_to_withdraw(draw, &self.board);
        self.writer.withdraw(draw, ticket);
    }
}
