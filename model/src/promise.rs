//! The promise: the least wait that one further rack can be given.
//!
//! 'The least wait', from 1 to the longest one (02, Eight), 'such that some plan from the
//! present slot on bakes one further rack of wait w and every rack on the board, nobody
//! else arriving, the book taken as endless' (02, Six). The waits are tried one by one,
//! each by laying out a plan. Slots are plain numbers here, so none is left out past the
//! book's end.

use crate::board::Job;
use crate::limits::LONGEST_LAXITY;
use crate::shortfall;

/// The least wait that can be promised beside these racks. 'It gives 0 if, and only
/// if, there is no such wait.'
pub fn least_wait(jobs: &[Job], slot: u32) -> u32 {
    least_wait_up_to(LONGEST_LAXITY, jobs, slot)
}

/// `least_wait` with another longest wait.
pub fn least_wait_up_to(longest: u32, jobs: &[Job], slot: u32) -> u32 {
    let promised = (1..=longest).find(|&wait| plan_with(wait, jobs, slot).is_some());
    promised.unwrap_or(0)
}

/// A plan that bakes a further rack of this wait and every one of these, if there is
/// one: the racks of the slots from this one on, no slot left free between them. The
/// further rack is the one with ticket 0.
///
/// The plan that gives up the fewest gives up none exactly where some plan bakes all.
pub fn plan_with(wait: u32, jobs: &[Job], slot: u32) -> Option<Vec<Job>> {
    let mut jobs = jobs.to_vec();
    jobs.push(further(wait, slot));
    let laid = shortfall::laid_out(&jobs, slot);
    (laid.len() == jobs.len()).then_some(laid)
}

/// The further rack: it comes in this slot and has no ticket yet. No plan looks at
/// its grade.
pub fn further(wait: u32, slot: u32) -> Job {
    Job {
        admitted: slot,
        deadline: slot + wait - 1,
        ..Job::default()
    }
}
