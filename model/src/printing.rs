//! The printed lines, each without its end.

use crate::calls::Closed;
use crate::day::{Day, Done};
use crate::refusal::Refusal;
use crate::tally::{Tally, ADMITTED, BAKED, EXPIRED, WITHDRAWN};

/// The lines for what a line did.
pub fn done(done: &Done) -> Vec<String> {
    match done {
        // D: a board was opened.
        Done::Opened { depth } => vec![format!("D,{depth}")],
        // A: a rack was admitted.
        Done::Admitted {
            ticket, deadline, ..
        } => vec![format!("A,{ticket},{deadline}")],
        Done::Closed { slot, closed } => closing(*slot, closed),
        // Q: a wait was promised, or none could be.
        Done::Promised { wait } => vec![format!("Q,{wait}")],
        // W: a rack was withdrawn.
        Done::Withdrawn { ticket } => vec![format!("W,{ticket}")],
    }
}

/// B: a slot was closed, with the shortfall as 'a sixth field' (02, Five); then G for
/// each rack given up, in the order of the answer.
fn closing(slot: u32, closed: &Closed) -> Vec<String> {
    let given_up = closed.expired.len();
    let (ticket, grade, shortfall) = (closed.ticket, closed.grade, closed.shortfall);
    let mut lines = vec![format!("B,{slot},{ticket},{grade},{given_up},{shortfall}")];
    for job in &closed.expired {
        lines.push(format!("G,{},{},{}", slot, job.ticket, job.grade));
    }
    lines
}

/// R: a line was refused. Lines are counted from 1.
pub fn refused(line_number: u64, refusal: Refusal) -> String {
    format!("R,{},{}", line_number, refusal.number())
}

/// The T lines, one a grade of the open board; none where no board is open.
pub fn totals(day: &Day) -> Vec<String> {
    let grades = match &day.board {
        Some(board) => 1u32 << board.depth,
        None => 0,
    };
    let grades = 0..grades;
    grades.map(|grade| total(&day.tally, grade)).collect()
}

/// T: the tally of a grade, with the racks withdrawn as 'its sixth field' (02, Seven).
fn total(tally: &Tally, grade: u32) -> String {
    let admitted = tally.count(ADMITTED, grade);
    let baked = tally.count(BAKED, grade);
    let expired = tally.count(EXPIRED, grade);
    let withdrawn = tally.count(WITHDRAWN, grade);
    format!("T,{grade},{admitted},{baked},{expired},{withdrawn}")
}
