//! The shortfall: how many of the racks on a board are lost already.
//!
//! 'The least number of the racks on the board before the bake that any plan from
//! that bake on gives up if nothing more arrives, slots past the book's end counted'
//! (02, Five). Such a plan gives each slot from the present one on at most one rack
//! and each rack at most one slot, from the present one to its last.

use crate::board::Job;

/// The least number of these racks that any plan from this slot on gives up.
pub fn least_given_up(jobs: &[Job], slot: u32) -> u32 {
    (jobs.len() - laid_out(jobs, slot).len()) as u32
}

/// A plan that gives up the fewest: the racks of the slots from this one on, no slot
/// left free between them. The racks are taken by last slot, and each is laid into
/// the first free slot, unless that is after its last: then it is given up.
///
/// No plan gives up fewer. Take the last rack that is given up here: the racks taken
/// up to it are all that are due by its last slot, and every slot up to that has one
/// of them. A plan has no other slots for them, and of the rest none is given up here.
pub fn laid_out(jobs: &[Job], slot: u32) -> Vec<Job> {
    let mut by_deadline = jobs.to_vec();
    by_deadline.sort_by_key(|job| job.deadline);
    let mut laid: Vec<Job> = Vec::new();
    for job in by_deadline {
        let free_slot = slot + laid.len() as u32;
        if free_slot <= job.deadline {
            laid.push(job);
        }
    }
    laid
}
