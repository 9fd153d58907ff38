//! Days in which nearly every line is taken.

use super::full::Hovering;
use super::questions::with_questions;
use super::withdrawals::with_withdrawals;
use super::writer::{admitting, opened, Writer};
use crate::board::{worst_grade, Board};
use crate::draw::Draw;
use crate::limits::{DEEPEST, LAST_SLOT, LONGEST_LAXITY, MOST_PER_SLOT};

/// About as many racks as slots.
pub fn ordinary(draw: &mut Draw, slots: u32) -> Vec<u8> {
    let mut writer = opened(draw);
    let longest = draw.pick(&[4, 12, LONGEST_LAXITY]);
    for _ in 0..slots {
        for _ in 0..draw.pick(&[0, 0, 0, 1, 1, 1, 2, 5]) {
            let (laxity, grade) = (draw.between(1, longest), writer.grade(draw));
            writer.admit(draw, laxity, grade);
        }
        writer.close();
    }
    let bytes = with_withdrawals(draw, &writer.bytes, 12);
    with_questions(draw, &bytes, 5)
}

/// More racks than the oven can bake; now and then more than a slot admits.
pub fn overfull(draw: &mut Draw, slots: u32) -> Vec<u8> {
    let mut writer = opened(draw);
    let longest = draw.pick(&[1, 3, 8, LONGEST_LAXITY, LONGEST_LAXITY]);
    for _ in 0..slots {
        for _ in 0..draw.between(3, MOST_PER_SLOT as u32 + 2) {
            let (laxity, grade) = (draw.between(1, longest), writer.grade(draw));
            writer.admit(draw, laxity, grade);
        }
        writer.close();
    }
    let bytes = with_withdrawals(draw, &writer.bytes, 12);
    with_questions(draw, &bytes, 8)
}

/// Turns of no more slots than the longest wait. Nearly every rack of a turn has the
/// turn's last slot, and all that are left then but one are given up.
pub fn given_up(draw: &mut Draw, slots: u32) -> Vec<u8> {
    let mut writer = opened(draw);
    let mut left = slots;
    while left > 0 {
        let turn = draw.pick(&[1, 2, 4, 12, LONGEST_LAXITY]).min(left);
        one_turn(draw, &mut writer, turn);
        left -= turn;
    }
    // With more of them too few would be left to be given up.
    let bytes = with_withdrawals(draw, &writer.bytes, 40);
    with_questions(draw, &bytes, 8)
}

/// A turn of so many slots. Grades are any, or the better ones come later.
fn one_turn(draw: &mut Draw, writer: &mut Writer, slots: u32) {
    let better_later = draw.one_in(3);
    for left in (1..=slots).rev() {
        for _ in 0..draw.between(4, MOST_PER_SLOT as u32) {
            let grade = if better_later {
                Some(worst_grade(writer.depth) * left / slots)
            } else {
                writer.grade(draw)
            };
            let laxity = if draw.one_in(9) {
                draw.between(left, LONGEST_LAXITY)
            } else {
                left
            };
            writer.admit(draw, laxity, grade);
        }
        writer.close();
    }
}

/// Two waits and two grades only.
pub fn ties(draw: &mut Draw, slots: u32) -> Vec<u8> {
    let mut writer = opened(draw);
    let laxities = [draw.between(1, 4), draw.between(1, 12)];
    let grades = [writer.grade(draw), writer.grade(draw)];
    for _ in 0..slots {
        for _ in 0..draw.pick(&[0, 0, 1, 2, 3, 8]) {
            let (laxity, grade) = (draw.pick(&laxities), draw.pick(&grades));
            writer.admit(draw, laxity, grade);
        }
        writer.close();
    }
    let bytes = with_withdrawals(draw, &writer.bytes, 12);
    with_questions(draw, &bytes, 5)
}

/// Tickets that come to the greatest, stay there, and try to pass it.
pub fn tickets(draw: &mut Draw, slots: u32) -> Vec<u8> {
    let mut writer = opened(draw);
    let mut ticket = u64::from(u32::MAX) - u64::from(draw.between(0, slots));
    for _ in 0..slots {
        for _ in 0..draw.between(0, 3) {
            let (laxity, grade) = (draw.between(1, 6), writer.grade(draw));
            writer.line(&admitting(ticket, laxity, grade));
            ticket += draw.pick(&[0, 1, 1, 1, 2]);
        }
        writer.close();
    }
    let bytes = with_withdrawals(draw, &writer.bytes, 5);
    with_questions(draw, &bytes, 5)
}

/// Eight racks in every slot at depth 3, tickets one apart; no questions, no withdrawals.
pub fn long(draw: &mut Draw, slots: u32) -> Vec<u8> {
    let mut writer = Writer::new();
    writer.open(DEEPEST);
    let mut ticket = 0;
    for _ in 0..slots {
        for _ in 0..MOST_PER_SLOT {
            ticket += 1;
            let (laxity, grade) = (draw.between(1, LONGEST_LAXITY), writer.grade(draw));
            writer.line(&admitting(ticket, laxity, grade));
        }
        writer.close();
    }
    writer.bytes
}

/// Closings up to the last slots, racks, questions and withdrawals there, and then calls
/// past the end, questions and withdrawals too.
pub fn end(draw: &mut Draw, slots: u32) -> Vec<u8> {
    let mut writer = opened(draw);
    let slots = slots.min(LAST_SLOT);
    for _ in slots..LAST_SLOT {
        writer.close();
    }
    let board = Board::holding(writer.depth, LAST_SLOT - slots + 1, 0, &[]);
    let mut day = Hovering { writer, board };
    for _ in 0..slots + 3 {
        day.writer.ask();
        // Another rack comes for one that is taken back.
        let taken_back = draw.one_in(2) && day.withdraw(draw);
        for _ in 0..draw.pick(&[0, 1, 1, 2, 2, 3, 3]) + u32::from(taken_back) {
            let laxity = draw.between(1, LONGEST_LAXITY + 1);
            day.admit(draw, laxity);
        }
        day.withdraw_in_vain(draw);
        day.writer.ask();
        day.close();
    }
    day.writer.bytes
}
