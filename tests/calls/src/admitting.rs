//! Opening, soundness and admitting, here and there.

use crate::convert;
use crate::refusals::{self, number};
use model::board::{self, Board};
use model::calls;
use model::draw::Draw;
use model::limits::LONGEST_LAXITY;
use model::soundness::is_sound;
use oven::Wait;

pub fn opening(depth: u32) -> bool {
    let (board, answer) = board::open(depth);
    let expected = convert::board(&board);
    let opened = oven::calls::open(depth);
    let board = oven::Board::open(depth).map_err(|r| (r, r.number()));
    opened.refusal == number(&answer)
        && opened.board == expected
        && board == answer.map(|()| expected).map_err(refusals::opening)
}

pub fn soundness(board: &Board) -> bool {
    let (given, expected) = (convert::board(board), is_sound(board));
    oven::calls::sound(given) == expected && given.is_sound() == expected
}

/// Admits with arguments that often break a row, and often break none.
pub fn admitting(draw: &mut Draw, board: &Board) -> bool {
    let above = board.highest_ticket.saturating_add(draw.between(0, 2));
    let ticket = draw.pick(&[above, above, above, 0, board.highest_ticket, u32::MAX]);
    let longest = LONGEST_LAXITY;
    let wait = draw.pick(&[1, 2, 5, longest - 1, longest, longest + 1, 0, u32::MAX]);
    let grade = draw.pick(&[0, 0, 1, 3, 7, 8, u32::MAX]);
    admits(&mut board.clone(), ticket, wait, grade)
}

/// Admits on a board of the model, and by both layers of the crate on the same.
pub fn admits(board: &mut Board, ticket: u32, wait: u32, grade: u32) -> bool {
    let given = convert::board(board);
    let answer = calls::admit(board, ticket, wait, grade);
    let after = convert::board(board);
    let admitted = oven::calls::admit(given, ticket, Wait(wait), grade);
    let mut ours = given;
    let last = ours.admit(ticket, Wait(wait), grade);
    let last = last.map(|slot| slot.0).map_err(|r| (r, r.number()));
    admitted.refusal == number(&answer)
        && admitted.last.0 == *answer.as_ref().unwrap_or(&0)
        && admitted.board == after
        && ours == after
        && last == answer.map_err(refusals::admitting)
}
