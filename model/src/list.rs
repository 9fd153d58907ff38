//! A list of admittings, closings and withdrawals on one board.

use crate::board::{Board, Job};
use crate::calls::{self, Closed};
use crate::refusal::Refusal;
use crate::rule;

/// A call with its arguments.
#[derive(Clone, Copy, Debug, PartialEq, Eq)]
pub enum Call {
    Admit {
        ticket: u32,
        laxity: u32,
        grade: u32,
    },
    Close {
        /// Length of the lent list.
        lent: usize,
    },
    Withdraw {
        ticket: u32,
    },
}

/// The answer of a call.
#[derive(Clone, Debug, PartialEq, Eq)]
pub enum Answer {
    /// The rack's last slot.
    Admitted(u32),
    Closed(Closed),
    /// The grade of the rack taken off.
    Withdrawn(u32),
    Refused(Refusal),
}

/// Makes the calls one after the other, each on the board the last one left.
pub fn play(board: &mut Board, calls: &[Call]) -> Vec<Answer> {
    play_with(board, calls, rule::job_to_bake)
}

/// `play` with the rack that `pick` names at each closing.
pub fn play_with<P>(board: &mut Board, calls: &[Call], mut pick: P) -> Vec<Answer>
where
    P: FnMut(&[Job], u32, u32) -> Option<Job>,
{
    let mut answers = Vec::new();
    for call in calls {
        answers.push(match *call {
            Call::Admit {
                ticket,
                laxity,
                grade,
            } => match calls::admit(board, ticket, laxity, grade) {
                Ok(deadline) => Answer::Admitted(deadline),
                Err(refusal) => Answer::Refused(refusal),
            },
            Call::Close { lent } => match calls::close_with(board, lent, &mut pick) {
                Ok(closed) => Answer::Closed(closed),
                Err(refusal) => Answer::Refused(refusal),
            },
            Call::Withdraw { ticket } => match calls::withdraw(board, ticket) {
                Ok(grade) => Answer::Withdrawn(grade),
                Err(refusal) => Answer::Refused(refusal),
            },
        });
    }
    answers
}
