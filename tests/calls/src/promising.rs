//! What can still be promised, here and there.

use crate::convert;
use crate::refusals::{self, number};
use model::board::Board;
use model::calls;
use model::draw::Draw;
use model::limits::{LAST_SLOT, LONGEST_LAXITY};
use model::samples;
use oven::Wait;

/// Asks on a board of the model, and by both layers of the crate on the same.
pub fn promising(board: &Board) -> bool {
    let given = convert::board(board);
    let answer = calls::promise(board);
    let promised = oven::calls::promise(given);
    let wait = given.promise().map_err(|r| (r, r.number()));
    let expected = |wait: u32| (wait > 0).then_some(Wait(wait));
    promised.refusal == number(&answer)
        && promised.wait == Wait(*answer.as_ref().unwrap_or(&0))
        && wait == answer.map(expected).map_err(refusals::promising)
}

/// A board whose racks can all be baked and fill the slots up to some wait: each
/// answer comes often, 0 with no rack lost too.
pub fn filled(draw: &mut Draw) -> Board {
    let slot = draw.between(4, LAST_SLOT);
    let (wait, later) = (draw.between(0, LONGEST_LAXITY), draw.index(9));
    samples::filled_board(draw, slot, wait, later)
}
