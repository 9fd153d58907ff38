//! Boards to try the figures of a board on.

use model::board::{Board, Job};
use model::draw::Draw;
use model::limits::{LAST_SLOT, LONGEST_LAXITY, MOST_HELD, MOST_PER_SLOT};
use model::promise::further;
use model::samples;

/// The first slot in which a board can hold a rack for each slot up to the longest wait,
/// as eight racks come in a slot.
pub const FIRST_SOLD_OUT: u32 = (LONGEST_LAXITY - 1) / MOST_PER_SLOT as u32 + 1;

/// As many racks as a board about full has: some more than the longest wait has slots.
pub const ABOUT_FULL: u32 = LONGEST_LAXITY + 8;

/// A slot in which a board can hold a rack for each slot up to the longest wait.
pub fn slot_to_sell_out(draw: &mut Draw) -> u32 {
    samples::slot(draw).max(FIRST_SOLD_OUT)
}

/// So many racks of the longest wait that all came in this slot. No board holds more
/// than eight of them, but a list may.
pub fn of_the_longest_wait(slot: u32, many: usize) -> Vec<Job> {
    vec![further(LONGEST_LAXITY, slot); many]
}

/// A board of depth 0 with racks of these waits. Eight of them were admitted in this
/// slot, eight in the one before it, and so on back.
pub fn held(slot: u32, waits: &[u32]) -> Board {
    let mut jobs = Vec::new();
    for (place, wait) in waits.iter().enumerate() {
        let younger = (waits.len() - 1 - place) as u32;
        jobs.push(Job {
            ticket: place as u32 + 1,
            admitted: slot - younger / 8,
            deadline: slot + wait - 1,
            grade: 0,
        });
    }
    Board::holding(0, slot, jobs.len() as u32, &jobs)
}

/// So many racks, each with the longest wait that it can have on such a board.
pub fn held_for_long(slot: u32, many: usize) -> Board {
    let waits = (0..many).map(|place| LONGEST_LAXITY - (many - 1 - place) as u32 / 8);
    held(slot, &waits.collect::<Vec<_>>())
}

/// A sound board of up to so many racks: any; all in their last slot; all with the
/// longest waits; or with few last slots.
pub fn drawn_board(draw: &mut Draw, most: u32, number: u32) -> Board {
    let mut board = samples::board(draw, most);
    let held = board.held();
    let ends = [1, 2, 4, 12].map(|longest| board.slot + draw.between(0, longest));
    for job in &mut board.places[..held] {
        let latest = job.admitted + LONGEST_LAXITY - 1;
        job.deadline = match number % 5 {
            0 | 1 => job.deadline,
            2 => board.slot,
            3 => latest,
            _ => draw.pick(&ends).min(latest),
        };
    }
    board
}

/// A large board: of any size, about full, or with all places taken.
pub fn large_board(draw: &mut Draw, number: u32) -> Board {
    let slot = draw.between(LONGEST_LAXITY, LAST_SLOT);
    match number % 4 {
        0 => drawn_board(draw, MOST_HELD as u32, number / 4),
        1 => drawn_board(draw, ABOUT_FULL, number / 4),
        2 => drawn_board(draw, 15, number / 4),
        _ => samples::full_board(draw, slot),
    }
}
