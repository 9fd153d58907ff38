//! Boards on the edge of soundness: each bound met exactly, or one clause broken.

use crate::board::{Board, Job};
use crate::draw::Draw;
use crate::limits::{DEEPEST, LAST_SLOT, LONGEST_LAXITY, MOST_HELD, MOST_PER_SLOT};
use crate::samples;

/// Makes a board; the name is the clause that it breaks, or the bound it meets.
pub type Maker = (&'static str, fn(&mut Draw) -> Board);

/// Each board breaks just the clause named, by its name in `soundness`.
pub const BROKEN: [Maker; 18] = [
    ("depth", depth_too_great),
    ("slot", slot_zero),
    ("slot", slot_past_end),
    ("count", count_too_great),
    ("unused", unused_not_zero),
    ("tickets rise", ticket_twice),
    ("tickets rise", tickets_swapped),
    ("tickets start", ticket_zero),
    ("tickets highest", ticket_above_highest),
    ("admitted start", admitted_zero),
    ("admitted order", admitted_falls),
    ("admitted by now", admitted_later),
    ("in date", out_of_date),
    ("span", span_too_long),
    ("grade", grade_at_bound),
    ("grade", grade_above_bound),
    ("nine", nine_together),
    ("nine", nine_in_this_slot),
];

/// Each board is sound and meets the bound named exactly.
pub const BOUNDARY: [Maker; 20] = [
    ("depth 0", |draw| with_depth(draw, 0)),
    ("depth 3", |draw| with_depth(draw, DEEPEST)),
    ("slot 1", |draw| in_slot(draw, 1)),
    ("slot 1,000,001", |draw| in_slot(draw, LAST_SLOT + 1)),
    ("no racks", |draw| empty_in_slot(draw, 1)),
    ("no racks at the end", |draw| {
        empty_in_slot(draw, LAST_SLOT + 1)
    }),
    ("all places but one", all_places_but_one),
    ("all places", |draw| {
        samples::full_board(draw, LONGEST_LAXITY)
    }),
    ("all places at the end", |draw| {
        samples::full_board(draw, LAST_SLOT + 1)
    }),
    ("all places with racks in their last slot", |draw| {
        samples::all_due(full_board(draw))
    }),
    ("tickets one apart from 1", tickets_from_one),
    ("greatest ticket", greatest_ticket),
    ("admitted in slot 1", admitted_in_first_slot),
    ("admitted now", admitted_now),
    ("last slot now", due_now),
    ("longest wait", longest_span),
    ("greatest grade", greatest_grade),
    ("eight together", eight_together),
    ("a rack for each slot", |draw| filled(draw, LONGEST_LAXITY)),
    ("a rack for each slot but the last", |draw| {
        filled(draw, LONGEST_LAXITY - 1)
    }),
];

/// A sound board of three to six racks, all admitted before its slot and due
/// after it, with room on every side for one small change.
fn roomy(draw: &mut Draw, slot: u32) -> Board {
    let depth = draw.between(0, DEEPEST);
    let many = draw.between(3, 6);
    let mut jobs = Vec::new();
    for place in 0..many {
        let admitted = slot - 12 + 2 * place;
        jobs.push(Job {
            ticket: 5 + 3 * place,
            admitted,
            deadline: draw.between(slot + 1, admitted + LONGEST_LAXITY - 2),
            grade: draw.between(0, (1 << depth) - 1),
        });
    }
    Board::holding(depth, slot, 5 + 3 * many, &jobs)
}

/// `roomy` in a slot that is far from either end of the book.
fn midday(draw: &mut Draw) -> Board {
    let far = 2 * LONGEST_LAXITY;
    let slot = draw.between(far, LAST_SLOT - far);
    roomy(draw, slot)
}

/// A full board in a slot of the book.
fn full_board(draw: &mut Draw) -> Board {
    let slot = draw.between(LONGEST_LAXITY, LAST_SLOT);
    samples::full_board(draw, slot)
}

/// The place of a random rack on the board.
fn any_place(draw: &mut Draw, board: &Board) -> usize {
    draw.index(board.held())
}

/// The place of a random rack that has one before it.
fn later_place(draw: &mut Draw, board: &Board) -> usize {
    1 + draw.index(board.held() - 1)
}

fn depth_too_great(draw: &mut Draw) -> Board {
    let depth = draw.pick(&[DEEPEST + 1, DEEPEST + 2, 32, 64, 255]);
    with_depth_field(midday(draw), depth)
}

fn with_depth_field(board: Board, depth: u32) -> Board {
    Board { depth, ..board }
}

/// In slot 0 no rack can be in order, so the board is empty.
fn slot_zero(draw: &mut Draw) -> Board {
    empty_in_slot(draw, 0)
}

fn slot_past_end(draw: &mut Draw) -> Board {
    let slot = LAST_SLOT + draw.pick(&[2, 3, LONGEST_LAXITY + 1, 1_000_000]);
    roomy(draw, slot)
}

/// Only the full board can have a count above its places and be right otherwise.
fn count_too_great(draw: &mut Draw) -> Board {
    let slot = draw.between(LONGEST_LAXITY, LAST_SLOT + 1);
    let full = samples::full_board(draw, slot);
    let places = MOST_HELD as u32;
    let more = draw.between(3, places);
    // One of these counts has the same low byte as the number of places.
    let count = places + draw.pick(&[1, 2, more, 1 << 8, 65_000]);
    Board { count, ..full }
}

fn unused_not_zero(draw: &mut Draw) -> Board {
    let mut board = midday(draw);
    let next = board.held();
    let place = draw.pick(&[next, next + 1, MOST_HELD - 1]);
    let value = draw.between(1, 3);
    match draw.between(0, 3) {
        0 => board.places[place].ticket = value,
        1 => board.places[place].admitted = value,
        2 => board.places[place].deadline = value,
        _ => board.places[place].grade = value,
    }
    board
}

fn ticket_twice(draw: &mut Draw) -> Board {
    let mut board = midday(draw);
    let place = later_place(draw, &board);
    board.places[place].ticket = board.places[place - 1].ticket;
    board
}

fn tickets_swapped(draw: &mut Draw) -> Board {
    let mut board = midday(draw);
    let place = later_place(draw, &board);
    let ticket = board.places[place].ticket;
    board.places[place].ticket = board.places[place - 1].ticket;
    board.places[place - 1].ticket = ticket;
    board
}

fn ticket_zero(draw: &mut Draw) -> Board {
    let mut board = midday(draw);
    board.places[0].ticket = 0;
    board
}

fn ticket_above_highest(draw: &mut Draw) -> Board {
    let mut board = midday(draw);
    let last = board.places[board.held() - 1].ticket;
    board.highest_ticket = draw.pick(&[0, 1, last - 1]);
    board
}

/// From slot 0 to the present one is less than the longest wait, so that nothing else is
/// wrong.
fn admitted_zero(draw: &mut Draw) -> Board {
    let slot = draw.between(14, LONGEST_LAXITY - 1);
    let mut board = roomy(draw, slot);
    board.places[0].admitted = 0;
    board.places[0].deadline = slot;
    board
}

fn admitted_falls(draw: &mut Draw) -> Board {
    let mut board = midday(draw);
    let place = later_place(draw, &board);
    board.places[place].admitted = board.places[place - 1].admitted - 1;
    board.places[place].deadline = board.slot;
    board
}

fn admitted_later(draw: &mut Draw) -> Board {
    let mut board = midday(draw);
    let last = board.held() - 1;
    let ahead = draw.between(1, 9);
    board.places[last].admitted = board.slot + ahead;
    board.places[last].deadline = board.slot + ahead + draw.between(0, 9);
    board
}

fn out_of_date(draw: &mut Draw) -> Board {
    let mut board = midday(draw);
    let place = any_place(draw, &board);
    board.places[place].deadline = board.slot - 1;
    board
}

fn span_too_long(draw: &mut Draw) -> Board {
    let mut board = midday(draw);
    let place = any_place(draw, &board);
    let more = draw.between(2, LONGEST_LAXITY);
    let more = draw.pick(&[0, 1, more, 1000]);
    board.places[place].deadline = board.places[place].admitted + LONGEST_LAXITY + more;
    board
}

fn grade_at_bound(draw: &mut Draw) -> Board {
    let mut board = midday(draw);
    let place = any_place(draw, &board);
    board.places[place].grade = 1 << board.depth;
    board
}

fn grade_above_bound(draw: &mut Draw) -> Board {
    let mut board = midday(draw);
    let place = any_place(draw, &board);
    board.places[place].grade = draw.between((1 << board.depth) + 1, 255);
    board
}

/// Racks admitted together in a slot, as many as asked for.
fn together(draw: &mut Draw, many: usize, admitted: u32, slot: u32) -> Board {
    let mut jobs = Vec::new();
    for place in 0..many as u32 {
        jobs.push(Job {
            ticket: place + 1,
            admitted,
            deadline: draw.between(slot, admitted + LONGEST_LAXITY - 1),
            grade: draw.between(0, 1),
        });
    }
    Board::holding(draw.between(1, DEEPEST), slot, 100, &jobs)
}

fn nine_together(draw: &mut Draw) -> Board {
    let slot = draw.between(2, LAST_SLOT);
    together(draw, MOST_PER_SLOT + 1, slot - 1, slot)
}

fn nine_in_this_slot(draw: &mut Draw) -> Board {
    let slot = draw.between(1, LAST_SLOT);
    together(draw, MOST_PER_SLOT + 1, slot, slot)
}

fn eight_together(draw: &mut Draw) -> Board {
    let slot = draw.between(2, LAST_SLOT);
    let admitted = slot - draw.between(0, 1);
    together(draw, MOST_PER_SLOT, admitted, slot)
}

/// Every slot up to this wait has its rack, and none is lost.
fn filled(draw: &mut Draw, wait: u32) -> Board {
    let slot = draw.between(LONGEST_LAXITY, LAST_SLOT);
    samples::filled_board(draw, slot, wait, 0)
}

fn with_depth(draw: &mut Draw, depth: u32) -> Board {
    let slot = samples::slot(draw);
    let jobs = samples::jobs(draw, depth, slot, 5);
    Board::holding(depth, slot, u32::MAX, &jobs)
}

fn in_slot(draw: &mut Draw, slot: u32) -> Board {
    let depth = draw.between(0, DEEPEST);
    let jobs = samples::jobs(draw, depth, slot, 5);
    Board::holding(depth, slot, u32::MAX, &jobs)
}

fn empty_in_slot(draw: &mut Draw, slot: u32) -> Board {
    let highest = samples::highest_ticket(draw);
    Board::holding(draw.between(0, DEEPEST), slot, highest, &[])
}

fn all_places_but_one(draw: &mut Draw) -> Board {
    let mut board = full_board(draw);
    let mut jobs = board.jobs().to_vec();
    jobs.remove(any_place(draw, &board));
    board.put(&jobs);
    board
}

fn tickets_from_one(draw: &mut Draw) -> Board {
    let mut board = midday(draw);
    for place in 0..board.held() {
        board.places[place].ticket = place as u32 + 1;
    }
    board.highest_ticket = board.count;
    board
}

fn greatest_ticket(draw: &mut Draw) -> Board {
    let mut board = midday(draw);
    let last = board.held() - 1;
    board.places[last].ticket = u32::MAX;
    board.highest_ticket = u32::MAX;
    board
}

fn admitted_in_first_slot(draw: &mut Draw) -> Board {
    let slot = draw.between(14, LONGEST_LAXITY);
    let mut board = roomy(draw, slot);
    board.places[0].admitted = 1;
    board.places[0].deadline = slot;
    board
}

fn admitted_now(draw: &mut Draw) -> Board {
    let mut board = midday(draw);
    let last = board.held() - 1;
    board.places[last].admitted = board.slot;
    board
}

fn due_now(draw: &mut Draw) -> Board {
    let mut board = midday(draw);
    let place = any_place(draw, &board);
    board.places[place].deadline = board.slot;
    board
}

fn longest_span(draw: &mut Draw) -> Board {
    let mut board = midday(draw);
    let place = any_place(draw, &board);
    board.places[place].deadline = board.places[place].admitted + LONGEST_LAXITY - 1;
    board
}

fn greatest_grade(draw: &mut Draw) -> Board {
    let mut board = midday(draw);
    let place = any_place(draw, &board);
    board.places[place].grade = (1 << board.depth) - 1;
    board
}
