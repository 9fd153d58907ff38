//! When a board is sound: one function a clause of the paper.

use crate::board::{is_grade, Board, Job};
use crate::limits::{DEEPEST, LAST_SLOT, LONGEST_LAXITY, MOST_HELD, MOST_PER_SLOT};

/// A clause: its name, and whether it holds of a board.
pub type Clause = (&'static str, fn(&Board) -> bool);

/// All clauses. A board is sound when each of them holds.
pub const CLAUSES: [Clause; 14] = [
    ("depth", depth_in_range),
    ("slot", slot_in_range),
    ("count", count_in_range),
    ("unused", unused_are_zero),
    ("tickets rise", tickets_rise),
    ("tickets start", tickets_start_at_one),
    ("tickets highest", tickets_up_to_highest),
    ("admitted start", admitted_from_one),
    ("admitted order", admitted_never_falls),
    ("admitted by now", admitted_by_now),
    ("in date", in_date),
    ("span", span_in_range),
    ("grade", grade_in_range),
    ("nine", no_nine_together),
];

/// Whether the board is sound.
pub fn is_sound(board: &Board) -> bool {
    CLAUSES.iter().all(|(_, holds)| holds(board))
}

/// The names of the clauses that the board breaks.
pub fn broken(board: &Board) -> Vec<&'static str> {
    let broken = CLAUSES.iter().filter(|(_, holds)| !holds(board));
    broken.map(|(name, _)| *name).collect()
}

fn depth_in_range(board: &Board) -> bool {
    board.depth <= DEEPEST
}

fn slot_in_range(board: &Board) -> bool {
    1 <= board.slot && board.slot <= LAST_SLOT + 1
}

fn count_in_range(board: &Board) -> bool {
    board.count as usize <= MOST_HELD
}

fn unused_are_zero(board: &Board) -> bool {
    board.unused().iter().all(|job| *job == Job::default())
}

fn tickets_rise(board: &Board) -> bool {
    let pairs = board.jobs().windows(2);
    pairs
        .into_iter()
        .all(|pair| pair[0].ticket < pair[1].ticket)
}

fn tickets_start_at_one(board: &Board) -> bool {
    board.jobs().iter().take(1).all(|job| 1 <= job.ticket)
}

fn tickets_up_to_highest(board: &Board) -> bool {
    let mut jobs = board.jobs().iter();
    jobs.all(|job| job.ticket <= board.highest_ticket)
}

fn admitted_from_one(board: &Board) -> bool {
    board.jobs().iter().all(|job| 1 <= job.admitted)
}

fn admitted_never_falls(board: &Board) -> bool {
    let pairs = board.jobs().windows(2);
    pairs
        .into_iter()
        .all(|pair| pair[0].admitted <= pair[1].admitted)
}

fn admitted_by_now(board: &Board) -> bool {
    board.jobs().iter().all(|job| job.admitted <= board.slot)
}

fn in_date(board: &Board) -> bool {
    board.jobs().iter().all(|job| board.slot <= job.deadline)
}

fn span_in_range(board: &Board) -> bool {
    let most = i64::from(LONGEST_LAXITY) - 1;
    let mut jobs = board.jobs().iter();
    jobs.all(|job| i64::from(job.deadline) - i64::from(job.admitted) <= most)
}

fn grade_in_range(board: &Board) -> bool {
    let mut jobs = board.jobs().iter();
    jobs.all(|job| is_grade(job.grade, board.depth))
}

fn no_nine_together(board: &Board) -> bool {
    let mut admitted: Vec<u32> = board.jobs().iter().map(|job| job.admitted).collect();
    admitted.sort_unstable();
    let mut nines = admitted.windows(MOST_PER_SLOT + 1);
    nines.all(|nine| nine[0] != nine[MOST_PER_SLOT])
}
