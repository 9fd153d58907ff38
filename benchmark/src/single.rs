//! The rule by sorting for one board alone, whose racks are in the order of their tickets.

use crate::sorter::{self, NO_GROUPS};
use model::board::Job;
use model::limits::{LONGEST_LAXITY, MOST_HELD};

/// The rack to bake, none where there are no racks, and the shortfall. What is sorted is a copy of the racks, as keys, and of each lower group.
pub fn job_to_bake(jobs: &[Job], slot: u32, depth: u32) -> (Option<Job>, u32) {
    let mut board = [0; MOST_HELD];
    let board = &mut board[..jobs.len()];
    for (place, (key, job)) in board.iter_mut().zip(jobs).enumerate() {
        *key = sorter::key(job.deadline, job.grade, place);
    }
    board.sort_unstable();
    let mut groups = NO_GROUPS;
    let (baked, shortfall) = sorter::search(board, &mut groups, slot, depth);
    (baked.map(|key| jobs[sorter::place(key)]), shortfall)
}

/// The least wait that can be promised, 0 for none: in the order of their last slots each rack takes a slot of its own. What is sorted is a copy.
pub fn least_wait(jobs: &[Job], slot: u32) -> u32 {
    let mut last_slots = [0; MOST_HELD];
    let last_slots = &mut last_slots[..jobs.len()];
    for (last, job) in last_slots.iter_mut().zip(jobs) {
        *last = job.deadline;
    }
    last_slots.sort_unstable();
    let mut full = 0;
    for (place, last) in (1..).zip(last_slots) {
        let wait = *last - slot + 1;
        if wait < place {
            return 0;
        }
        if wait == place {
            full = place;
        }
    }
    if full == LONGEST_LAXITY {
        0
    } else {
        full + 1
    }
}
