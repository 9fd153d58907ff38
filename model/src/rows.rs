//! Rows 3 to 8 and 17: the checks on a call's arguments.
//!
//! A board and a day book both put them, each with its own figures.

use crate::board::{is_grade, Job};
use crate::limits::{LAST_SLOT, LONGEST_LAXITY, MOST_HELD, MOST_PER_SLOT};
use crate::refusal::Refusal;

/// The figures that the rows read.
#[derive(Clone, Copy, Debug)]
pub struct Standing {
    pub depth: u32,
    pub slot: u32,
    pub highest_ticket: u32,
    /// How many racks were admitted in this slot.
    pub admitted_now: usize,
}

/// Row 3, which every call puts first.
fn not_ended(at: Standing) -> Result<(), Refusal> {
    if at.slot == LAST_SLOT + 1 {
        return Err(Refusal::BookEnded);
    }
    Ok(())
}

/// Rows 3 to 7, in order; the first that fails is the one given.
pub fn admitting(at: Standing, ticket: u32, laxity: u32, grade: u32) -> Result<(), Refusal> {
    not_ended(at)?;
    if ticket <= at.highest_ticket {
        return Err(Refusal::Ticket);
    }
    if !(1..=LONGEST_LAXITY).contains(&laxity) {
        return Err(Refusal::Laxity);
    }
    if !is_grade(grade, at.depth) {
        return Err(Refusal::Grade);
    }
    if at.admitted_now >= MOST_PER_SLOT {
        return Err(Refusal::SlotFull);
    }
    Ok(())
}

/// Rows 3 and 8, in order. `lent` is the length of the lent list.
pub fn closing(at: Standing, lent: usize) -> Result<(), Refusal> {
    not_ended(at)?;
    if lent < MOST_HELD {
        return Err(Refusal::ListShort);
    }
    Ok(())
}

/// Row 3 alone: of a promise 'numbers 2 and 3 apply' (02, Six).
pub fn promising(at: Standing) -> Result<(), Refusal> {
    not_ended(at)
}

/// Rows 3 and 17, in order: 'the ticket is not on the board or was admitted in this
/// slot' (02, Seven). A board puts them to its racks, a day book to its racks in date
/// and not yet baked there. The answer is the rack to be taken off.
pub fn withdrawing(at: Standing, jobs: &[Job], ticket: u32) -> Result<Job, Refusal> {
    not_ended(at)?;
    let with_ticket = jobs.iter().find(|job| job.ticket == ticket);
    match with_ticket {
        Some(job) if job.admitted != at.slot => Ok(*job),
        _ => Err(Refusal::NotWaiting),
    }
}
