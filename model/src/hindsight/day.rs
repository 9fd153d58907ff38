//! A day of the board seen in hindsight: what the board baked, and what the best plan for
//! the same racks bakes.

use std::io::{self, BufRead, Write};

use super::{plan, Refused, Window};
use crate::board::{worst_grade, Job};
use crate::day::{self, Done};
use crate::limits::MOST_IN_HINDSIGHT;
use crate::printing;
use crate::program::{in_memory, write_lines};
use crate::refusal::Refusal;

/// A rack that was admitted on the day.
#[derive(Clone, Copy, Debug, PartialEq, Eq)]
pub struct Rack {
    /// The day's line that admitted it, from 1.
    pub line: u64,
    pub job: Job,
    /// The slot in which the board baked it, 0 where it did not.
    pub baked: u32,
    /// The slot that was open when it was withdrawn, if it was.
    pub withdrawn: Option<u32>,
}

/// What happened on a day. Refused lines have no part in it.
#[derive(Clone, Debug, Default, PartialEq, Eq)]
pub struct Record {
    /// The depth of the board, if one was opened.
    pub depth: Option<u32>,
    /// Number of slots closed.
    pub closed: u32,
    /// Every rack that was admitted, in the order of their lines.
    pub racks: Vec<Rack>,
}

impl Record {
    /// The record of a day that the board runs.
    pub fn of<R: BufRead>(input: R) -> io::Result<Record> {
        let mut record = Record::default();
        day::follow(input, |line, answer| {
            if let Ok(done) = answer {
                record.take(line, done);
            }
            Ok(())
        })?;
        Ok(record)
    }

    fn take(&mut self, line: u64, done: Done) {
        match done {
            Done::Opened { depth } => self.depth = Some(depth),
            Done::Admitted {
                ticket,
                deadline,
                grade,
            } => {
                let job = Job {
                    ticket,
                    admitted: self.open_slot(),
                    deadline,
                    grade,
                };
                self.racks.push(Rack {
                    line,
                    job,
                    baked: 0,
                    withdrawn: None,
                });
            }
            Done::Closed { slot, closed } => {
                self.closed = slot;
                if closed.ticket != 0 {
                    self.rack(closed.ticket).baked = slot;
                }
            }
            Done::Promised { .. } => {}
            Done::Withdrawn { ticket } => {
                self.rack(ticket).withdrawn = Some(self.open_slot());
            }
        }
    }

    /// The slot that is open: the one after those closed.
    fn open_slot(&self) -> u32 {
        self.closed + 1
    }

    /// The rack with this ticket, which is one of those that came last.
    fn rack(&mut self, ticket: u32) -> &mut Rack {
        let mut latest = self.racks.iter_mut().rev();
        let rack = latest.find(|rack| rack.job.ticket == ticket);
        rack.expect("it was admitted")
    }

    /// The slots in which a rack could be baked on the day: from the one in which it was
    /// admitted to its last, and of these only slots that were closed, before it was
    /// withdrawn. None where the day ended before a slot of its own was closed.
    pub fn window(&self, rack: &Rack) -> Option<Window> {
        let first = rack.job.admitted;
        let last = rack.job.deadline.min(self.closed);
        let last = rack.withdrawn.map_or(last, |slot| last.min(slot - 1));
        (first <= self.closed).then_some(Window { first, last })
    }

    /// The list for hindsight: the racks with a window, 'best first', within a grade by
    /// rising ticket.
    pub fn list(&self) -> Vec<(Rack, Window)> {
        let racks = self.racks.iter();
        let with_windows = racks.filter_map(|rack| Some((*rack, self.window(rack)?)));
        let mut list: Vec<(Rack, Window)> = with_windows.collect();
        list.sort_by_key(|(rack, _)| (rack.job.grade, rack.job.ticket));
        list
    }

    /// The list with the slots of its plan; or a refusal, with the line of the day that
    /// it is given for.
    pub fn entries(&self) -> Result<Vec<Entry>, (u64, Refusal)> {
        let list = self.list();
        let windows: Vec<Window> = list.iter().map(|(_, window)| *window).collect();
        let slots = plan(&windows).map_err(|refused| refused_line(&list, refused))?;
        let listed = list.into_iter().zip(slots);
        let entries = listed.map(|((rack, window), slot)| Entry { rack, window, slot });
        Ok(entries.collect())
    }
}

/// The line of the day that a refusal of the list is given for. Of too many racks it is
/// that of the first one too many, in the order of the day; else that of the rack.
fn refused_line(list: &[(Rack, Window)], refused: Refused) -> (u64, Refusal) {
    let mut lines: Vec<u64> = list.iter().map(|(rack, _)| rack.line).collect();
    if refused.refusal == Refusal::TooMany {
        lines.sort_unstable();
        return (lines[MOST_IN_HINDSIGHT], refused.refusal);
    }
    (lines[refused.place], refused.refusal)
}

/// A rack of the list, and the slot that it has in the plan, 0 where it is left out.
#[derive(Clone, Copy, Debug, PartialEq, Eq)]
pub struct Entry {
    pub rack: Rack,
    pub window: Window,
    pub slot: u32,
}

/// Reads the board's input as one day and writes what hindsight says of it.
pub fn run<R: BufRead, W: Write>(input: R, output: &mut W) -> io::Result<()> {
    write_lines(output, &printed(&Record::of(input)?))
}

/// `run` on bytes in memory.
pub fn run_bytes(input: &[u8]) -> Vec<u8> {
    in_memory(|output| run(input, output))
}

/// The lines for a day: H for each rack of the list, T for each grade of the board, S for
/// the whole day; or R alone.
pub fn printed(record: &Record) -> Vec<String> {
    let entries = match record.entries() {
        Ok(entries) => entries,
        Err((line, refusal)) => return vec![printing::refused(line, refusal)],
    };
    let mut lines: Vec<String> = entries.iter().map(rack_line).collect();
    if let Some(depth) = record.depth {
        for grade in 0..=worst_grade(depth) {
            let mut of_grade = entries.clone();
            of_grade.retain(|entry| entry.rack.job.grade == grade);
            lines.push(format!("T,{grade},{}", totals(&of_grade)));
        }
    }
    lines.push(format!("S,{}", totals(&entries)));
    lines
}

/// H: ticket, grade, window, the board's slot, the plan's slot.
fn rack_line(entry: &Entry) -> String {
    let (ticket, grade) = (entry.rack.job.ticket, entry.rack.job.grade);
    let Window { first, last } = entry.window;
    let (board, hindsight) = (entry.rack.baked, entry.slot);
    format!("H,{ticket},{grade},{first},{last},{board},{hindsight}")
}

/// The racks, how many of them the board baked, and how many the plan bakes.
fn totals(entries: &[Entry]) -> String {
    let board = entries.iter().filter(|entry| entry.rack.baked != 0).count();
    let hindsight = entries.iter().filter(|entry| entry.slot != 0).count();
    format!("{},{board},{hindsight}", entries.len())
}
