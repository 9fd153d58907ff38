//! A rack taken off, here and there.

use crate::convert;
use crate::refusals::{self, number};
use model::board::Board;
use model::calls;
use model::draw::Draw;
use model::limits::MOST_HELD;
use model::samples;

/// Withdraws a ticket on a board of the model, and by both layers of the crate on the same. Each goes on with the board
/// that it handed back.
pub fn withdraws(board: &mut Board, ticket: u32) -> bool {
    let given = convert::board(board);
    let answer = calls::withdraw(board, ticket);
    let after = convert::board(board);
    let withdrawn = oven::calls::withdraw(given, ticket);
    let mut ours = given;
    let grade = ours.withdraw(ticket).map_err(|r| (r, r.number()));
    withdrawn.refusal == number(&answer)
        && u32::from(withdrawn.grade) == *answer.as_ref().unwrap_or(&0)
        && withdrawn.board == after
        && ours == after
        && grade
            == answer
                .map(|grade| grade as u8)
                .map_err(refusals::withdrawing)
}

/// A ticket of the board, or one near it: of each of its racks one time in two, and 0, the highest and others.
pub fn ticket(draw: &mut Draw, board: &Board) -> u32 {
    let held = board.held();
    if held > 0 && draw.one_in(2) {
        return board.places[draw.index(held)].ticket;
    }
    let highest = board.highest_ticket;
    draw.pick(&[
        0,
        1,
        highest,
        highest.wrapping_add(1),
        board.places[0].ticket.wrapping_add(1),
        u32::MAX,
    ])
}

/// One withdrawal on a board.
pub fn withdrawing(draw: &mut Draw, board: &Board) -> bool {
    let ticket = ticket(draw, board);
    withdraws(&mut board.clone(), ticket)
}

/// One withdrawal that is let through, on a board with a rack of an earlier slot.
pub fn let_through(draw: &mut Draw) -> bool {
    let (mut board, ticket) = loop {
        let board = samples::board(draw, MOST_HELD as u32);
        if let Some(ticket) = samples::to_withdraw(draw, &board) {
            break (board, ticket);
        }
    };
    withdraws(&mut board, ticket)
}
