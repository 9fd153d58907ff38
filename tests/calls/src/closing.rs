//! Closing, here and there, with a lent list of entries and with one in three parts.

use crate::convert;
use crate::refusals::{self, number};
use model::board::Board;
use model::calls;
use model::draw::Draw;
use model::limits::MOST_HELD;
use model::refusal::Refusal;
use oven::calls::CloseAnswer;
use oven::{Baked, CloseRefusal, Closed, Entry, Slot};

/// The longest lent list.
const LONGEST: usize = MOST_HELD + 44;

/// Lengths of a lent list, often long enough.
const LENGTHS: [usize; 8] = [
    0,
    1,
    MOST_HELD - 1,
    MOST_HELD,
    MOST_HELD,
    MOST_HELD,
    MOST_HELD + 1,
    LONGEST,
];

/// Closes with a list in parts that are often long enough.
pub fn in_parts(draw: &mut Draw, board: &Board) -> bool {
    let lent = [
        draw.pick(&LENGTHS),
        draw.pick(&LENGTHS),
        draw.pick(&LENGTHS),
    ];
    let lent = if draw.one_in(3) {
        lent
    } else {
        [MOST_HELD, MOST_HELD + 4, MOST_HELD]
    };
    closes_in_parts(draw, &mut board.clone(), lent)
}

/// Closes with a list that is often long enough.
pub fn into_list(draw: &mut Draw, board: &Board) -> bool {
    let lent = draw.pick(&LENGTHS);
    closes_into(draw, &mut board.clone(), lent)
}

/// Closes on a board of the model, and on the same with a list in parts of these lengths.
pub fn closes_in_parts(draw: &mut Draw, board: &mut Board, lent: [usize; 3]) -> bool {
    let given = convert::board(board);
    let before = entries(draw, LONGEST);
    let mut tickets = part(&before[..lent[0]], |entry| entry.ticket);
    let mut grades = part(&before[..lent[1]], |entry| entry.grade);
    let mut slots = part(&before[..lent[2]], |entry| entry.admitted);
    let shortest = lent.iter().copied().min().unwrap_or(0);
    let answer = calls::close(board, shortest);
    let closed = oven::calls::close(given, &mut tickets, &mut grades, &mut slots);
    let after = lent_after(before, &answer);
    answers(&closed, &answer, board)
        && tickets == part(&after[..lent[0]], |entry| entry.ticket)
        && grades == part(&after[..lent[1]], |entry| entry.grade)
        && slots == part(&after[..lent[2]], |entry| entry.admitted)
}

/// Closes on a board of the model, and by both layers of the crate on the same with a list of so many entries.
pub fn closes_into(draw: &mut Draw, board: &mut Board, lent: usize) -> bool {
    let given = convert::board(board);
    let before = entries(draw, lent);
    let (mut list, mut ours, mut lent_ours) = (before.clone(), given, before.clone());
    let answer = calls::close(board, lent);
    let closed = oven::calls::close_into(given, &mut list);
    let done = ours.close(&mut lent_ours).map_err(|r| (r, r.number()));
    answers(&closed, &answer, board)
        && list == lent_after(before, &answer)
        && ours == closed.board
        && lent_ours == list
        && done == comfortable(&answer)
}

/// So many entries of any numbers.
fn entries(draw: &mut Draw, count: usize) -> Vec<Entry> {
    let entry = |_| Entry {
        ticket: draw.step() as u32,
        grade: draw.step() as u8,
        admitted: Slot(draw.step() as u32),
    };
    (0..count).map(entry).collect()
}

/// One part of each entry.
fn part<T>(entries: &[Entry], of: impl Fn(&Entry) -> T) -> Vec<T> {
    entries.iter().map(of).collect()
}

/// A lent list afterwards: from its start the racks that the model gives up, in the
/// model's order, then what it had.
fn lent_after(mut list: Vec<Entry>, answer: &Result<calls::Closed, Refusal>) -> Vec<Entry> {
    let given_up = given_up(answer);
    list[..given_up.len()].copy_from_slice(&given_up);
    list
}

/// The racks that the model gives up.
fn given_up(answer: &Result<calls::Closed, Refusal>) -> Vec<Entry> {
    let expired = answer.iter().flat_map(|closed| &closed.expired);
    let entry = |e: &calls::Expired| Entry {
        ticket: e.ticket,
        grade: e.grade as u8,
        admitted: Slot(e.admitted),
    };
    expired.map(entry).collect()
}

/// Whether an answer has the model's number, rack, shortfall and board; 0 for rack and shortfall where it is a refusal.
fn answers(closed: &CloseAnswer, answer: &Result<calls::Closed, Refusal>, board: &Board) -> bool {
    let figures = |a: &calls::Closed| (a.ticket, a.grade, a.shortfall);
    let (ticket, grade, shortfall) = answer.as_ref().map_or((0, 0, 0), figures);
    closed.refusal == number(answer)
        && closed.shortfall == shortfall
        && closed.ticket == ticket
        && u32::from(closed.grade) == grade
        && closed.given_up as usize == given_up(answer).len()
        && closed.board == convert::board(board)
}

/// The model's answer as the crate's comfortable layer gives it.
fn comfortable(
    answer: &Result<calls::Closed, Refusal>,
) -> Result<Closed, refusals::Numbered<CloseRefusal>> {
    let closed = answer.as_ref().map_err(|r| refusals::closing(*r))?;
    let baked = Baked {
        ticket: closed.ticket,
        grade: closed.grade as u8,
    };
    Ok(Closed {
        baked: (closed.ticket > 0).then_some(baked),
        given_up: closed.expired.len(),
        shortfall: closed.shortfall as usize,
    })
}
