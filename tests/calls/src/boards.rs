//! Boards to try the calls on.

use model::board::Board;
use model::draw::Draw;
use model::edges;
use model::limits::{LAST_SLOT, LONGEST_LAXITY, MOST_HELD};
use model::samples;

/// The kinds come round one by one: small, any size, full, any size and full with
/// every rack in its last slot, one clause broken, at a bound, one field changed, and
/// the end of the book.
pub fn board(draw: &mut Draw, number: u64) -> Board {
    let round = (number / 9) as usize;
    match number % 9 {
        0 => samples::board(draw, 7),
        1 => samples::board(draw, MOST_HELD as u32),
        2 => full(draw),
        3 => samples::all_due(samples::board(draw, MOST_HELD as u32)),
        4 => samples::all_due(full(draw)),
        5 => edges::BROKEN[round % edges::BROKEN.len()].1(draw),
        6 => edges::BOUNDARY[round % edges::BOUNDARY.len()].1(draw),
        7 => changed(draw),
        _ => at_the_end(draw),
    }
}

/// A board with a rack in every place.
fn full(draw: &mut Draw) -> Board {
    let slot = draw.between(LONGEST_LAXITY, LAST_SLOT);
    samples::full_board(draw, slot)
}

/// A sound board with one field changed by a little.
fn changed(draw: &mut Draw) -> Board {
    let mut board = samples::board(draw, 20);
    let place = draw.index(board.held() + 1);
    let step = draw.pick(&[1u32, 2, u32::MAX, u32::MAX - 1]);
    let job = &mut board.places[place];
    match draw.between(0, 7) {
        0 => board.depth = draw.between(0, 255),
        1 => board.slot = board.slot.wrapping_add(step),
        2 => board.highest_ticket = board.highest_ticket.wrapping_add(step),
        3 => board.count = draw.between(0, MOST_HELD as u32 + 44),
        4 => job.ticket = job.ticket.wrapping_add(step),
        5 => job.admitted = job.admitted.wrapping_add(step),
        6 => job.deadline = job.deadline.wrapping_add(step),
        _ => job.grade = draw.between(0, 255),
    }
    board
}

/// An empty board in one of the book's last slots, or past them.
fn at_the_end(draw: &mut Draw) -> Board {
    let depth = draw.between(0, 3);
    let slot = draw.between(LAST_SLOT - 1, LAST_SLOT + 2);
    Board::holding(depth, slot, draw.between(0, 9), &[])
}
