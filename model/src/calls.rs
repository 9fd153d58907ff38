//! Admitting, closing, asking what can still be promised, and withdrawing.
//!
//! A board is written only after every check has passed, so a refused call
//! leaves it as it came, an unsound one included.

use crate::board::{Board, Job};
use crate::promise;
use crate::refusal::Refusal;
use crate::rows::{self, Standing};
use crate::rule;
use crate::shortfall;
use crate::soundness::is_sound;

/// An entry of the given-up list.
#[derive(Clone, Copy, Debug, PartialEq, Eq)]
pub struct Expired {
    pub ticket: u32,
    pub grade: u32,
    pub admitted: u32,
}

/// The answer of a closing. Ticket and grade are 0 for an empty board.
#[derive(Clone, Debug, PartialEq, Eq)]
pub struct Closed {
    pub ticket: u32,
    pub grade: u32,
    /// The racks given up, 'by grade from best to worst, within a grade by rising
    /// ticket' (02, Four).
    pub expired: Vec<Expired>,
    /// The least number of the racks on the board before the bake, whatever their
    /// grades, that any plan gives up (02, Five). 'An empty board has shortfall zero.'
    pub shortfall: u32,
}

/// What the rows read on a board.
fn standing(board: &Board) -> Standing {
    let mut admitted_now = 0;
    for job in board.jobs() {
        if job.admitted == board.slot {
            admitted_now += 1;
        }
    }
    Standing {
        depth: board.depth,
        slot: board.slot,
        highest_ticket: board.highest_ticket,
        admitted_now,
    }
}

/// Row 2.
fn check_sound(board: &Board) -> Result<(), Refusal> {
    if is_sound(board) {
        Ok(())
    } else {
        Err(Refusal::Unsound)
    }
}

/// Admits a rack with a wait; the answer is its last slot.
pub fn admit(board: &mut Board, ticket: u32, laxity: u32, grade: u32) -> Result<u32, Refusal> {
    check_sound(board)?;
    rows::admitting(standing(board), ticket, laxity, grade)?;
    let deadline = board.slot + laxity - 1;
    let mut jobs = board.jobs().to_vec();
    jobs.push(Job {
        ticket,
        admitted: board.slot,
        deadline,
        grade,
    });
    board.put(&jobs);
    board.highest_ticket = ticket;
    Ok(deadline)
}

/// Closes the slot by the no-regret rule. `lent` is the length of the lent list.
pub fn close(board: &mut Board, lent: usize) -> Result<Closed, Refusal> {
    close_with(board, lent, rule::job_to_bake)
}

/// Closes the slot with the rack that `pick` names from racks, slot and depth.
pub fn close_with<P>(board: &mut Board, lent: usize, mut pick: P) -> Result<Closed, Refusal>
where
    P: FnMut(&[Job], u32, u32) -> Option<Job>,
{
    close_by(board, lent, |jobs, slot, depth| {
        let shortfall = shortfall::least_given_up(jobs, slot);
        (pick(jobs, slot, depth), shortfall)
    })
}

/// Closes the slot with the rack and the shortfall that `find` gives from racks, slot
/// and depth.
pub fn close_by<F>(board: &mut Board, lent: usize, mut find: F) -> Result<Closed, Refusal>
where
    F: FnMut(&[Job], u32, u32) -> (Option<Job>, u32),
{
    check_sound(board)?;
    rows::closing(standing(board), lent)?;
    let (baked, shortfall) = find(board.jobs(), board.slot, board.depth);
    let mut expired = Vec::new();
    let mut kept = Vec::new();
    for job in board.jobs() {
        if Some(*job) == baked {
            continue;
        }
        if job.deadline == board.slot {
            expired.push(Expired {
                ticket: job.ticket,
                grade: job.grade,
                admitted: job.admitted,
            });
        } else {
            kept.push(*job);
        }
    }
    expired.sort_by_key(|job| (job.grade, job.ticket));
    board.put(&kept);
    board.slot += 1;
    let baked = baked.unwrap_or_default();
    Ok(Closed {
        ticket: baked.ticket,
        grade: baked.grade,
        expired,
        shortfall,
    })
}

/// Tells the least wait that can still be promised, or 0 where none can be: the
/// board is full up to the longest wait, or racks on it are lost already.
/// 'The board doesn't change' (02, Six).
pub fn promise(board: &Board) -> Result<u32, Refusal> {
    check_sound(board)?;
    rows::promising(standing(board))?;
    Ok(promise::least_wait(board.jobs(), board.slot))
}

/// Takes the rack with this ticket off the board; the answer is its grade, which the
/// tally needs. 'Slot and highest ticket go on as they were' (02, Seven).
pub fn withdraw(board: &mut Board, ticket: u32) -> Result<u32, Refusal> {
    check_sound(board)?;
    let withdrawn = rows::withdrawing(standing(board), board.jobs(), ticket)?;
    let mut left = board.jobs().to_vec();
    left.retain(|job| *job != withdrawn);
    board.put(&left);
    Ok(withdrawn.grade)
}
