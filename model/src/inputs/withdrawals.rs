//! Racks taken back between the lines of a day.

use super::questions::with_questions;
use super::writer::{admitting, opened, withdrawing};
use crate::board::Board;
use crate::day::{Day, Done};
use crate::draw::Draw;
use crate::limits::LONGEST_LAXITY;
use crate::samples;

/// A day that is followed line by line, and the tickets that have left its board.
#[derive(Default)]
struct Followed {
    day: Day,
    baked: Vec<u32>,
    given_up: Vec<u32>,
    withdrawn: Vec<u32>,
}

/// How often racks are taken back.
#[derive(Clone, Copy)]
struct Often {
    /// After about one line in so many, now and then two or more of them.
    seldom: u32,
    /// About one of them in so many is refused, if any; none of the others is.
    refused: Option<u32>,
}

/// The lines with withdrawals between them, all of them let through. The lines stay as
/// they are; each of them has its end.
pub fn with_withdrawals(draw: &mut Draw, lines: &[u8], seldom: u32) -> Vec<u8> {
    let often = Often {
        seldom,
        refused: None,
    };
    Followed::default().with(draw, lines, often)
}

/// The lines with withdrawals between them, some of them refused.
pub fn with_refused_withdrawals(draw: &mut Draw, lines: &[u8], seldom: u32) -> Vec<u8> {
    let often = Often {
        seldom,
        refused: Some(3),
    };
    Followed::default().with(draw, lines, often)
}

/// More racks than the oven can bake, and many of them taken back. A withdrawn ticket is
/// now and then admitted again, which is refused.
pub fn withdrawals(draw: &mut Draw, slots: u32) -> Vec<u8> {
    let mut writer = opened(draw);
    let longest = draw.pick(&[4, 12, LONGEST_LAXITY]);
    for _ in 0..slots {
        for _ in 0..draw.pick(&[0, 1, 2, 3, 4, 8]) {
            let (laxity, grade) = (draw.between(1, longest), writer.grade(draw));
            writer.admit(draw, laxity, grade);
        }
        writer.close();
    }
    let often = Often {
        seldom: 3,
        refused: Some(4),
    };
    let bytes = Followed::default().with(draw, &writer.bytes, often);
    with_questions(draw, &bytes, 9)
}

impl Followed {
    /// The lines that follow on the day, with withdrawals between them.
    fn with(&mut self, draw: &mut Draw, lines: &[u8], often: Often) -> Vec<u8> {
        let mut bytes = Vec::new();
        for line in lines.split_inclusive(|&byte| byte == b'\n') {
            self.take(line);
            bytes.extend_from_slice(line);
            while draw.one_in(often.seldom) {
                if let Some(line) = self.next_line(draw, often) {
                    self.take(&line);
                    bytes.extend_from_slice(&line);
                }
            }
        }
        bytes
    }

    /// Takes a line with its end.
    fn take(&mut self, line: &[u8]) {
        let line = line.strip_suffix(b"\n").unwrap_or(line);
        match self.day.take(line) {
            Ok(Done::Closed { closed, .. }) => {
                if closed.ticket != 0 {
                    self.baked.push(closed.ticket);
                }
                let given_up = closed.expired.iter().map(|job| job.ticket);
                self.given_up.extend(given_up);
            }
            Ok(Done::Withdrawn { ticket }) => self.withdrawn.push(ticket),
            _ => {}
        }
    }

    /// A withdrawal with its end, if there is a rack for it; or one that is refused.
    fn next_line(&self, draw: &mut Draw, often: Often) -> Option<Vec<u8>> {
        let mut line = match often.refused {
            Some(seldom) if draw.one_in(seldom) => self.refused_line(draw),
            _ => {
                let board = self.day.board.as_ref()?;
                let ticket = samples::to_withdraw(draw, board)?;
                withdrawing(draw, ticket)
            }
        };
        line.push(b'\n');
        Some(line)
    }

    /// A withdrawal that is refused; now and then an admitting of a withdrawn ticket.
    fn refused_line(&self, draw: &mut Draw) -> Vec<u8> {
        if !self.withdrawn.is_empty() && draw.one_in(5) {
            let ticket = draw.pick(&self.withdrawn);
            return admitting(u64::from(ticket), draw.between(1, 9), None);
        }
        let ticket = match &self.day.board {
            Some(board) => self.refused_ticket(draw, board),
            None => draw.between(0, 9),
        };
        withdrawing(draw, ticket)
    }

    /// A ticket that cannot be withdrawn, for each reason about as often: 0; never
    /// admitted; baked, given up or withdrawn before; admitted in this slot.
    fn refused_ticket(&self, draw: &mut Draw, board: &Board) -> u32 {
        let next: Vec<u32> = board.highest_ticket.checked_add(1).into_iter().collect();
        let mut lists: Vec<&[u32]> = vec![&[0], &next];
        lists.extend([&self.baked[..], &self.given_up, &self.withdrawn]);
        let now = samples::admitted_now(board);
        lists.push(&now);
        lists.retain(|tickets| !tickets.is_empty());
        let tickets = draw.pick(&lists);
        draw.pick(tickets)
    }
}
