//! The sheet for the oven door: the day's closings, page by page, on narrow paper.

use std::fmt::Display;
use std::io::{self, BufRead, Write};

use crate::day::{self, Done};
use crate::limits::{LAST_SLOT, MOST_GIVEN_UP, MOST_GRADES, SLOTS_ON_PAGE};
use crate::program::in_memory;
use crate::refusal::Refusal;

/// A closing as it is handed to the sheet.
#[derive(Clone, Copy, Debug, Default, PartialEq, Eq)]
pub struct Figures {
    pub slot: u32,
    /// 'A slot with ticket 0 baked nothing.'
    pub ticket: u32,
    pub grade: u32,
    /// How many racks were given up.
    pub given_up: u32,
}

/// A page: the closings on it, 48 at the most.
#[derive(Clone, Debug, Default, PartialEq, Eq)]
pub struct Page {
    closings: Vec<Figures>,
}

impl Page {
    /// A page with these closings, whatever their figures; of more than 48 the first ones.
    pub fn holding(closings: &[Figures]) -> Page {
        let count = closings.len().min(SLOTS_ON_PAGE);
        Page {
            closings: closings[..count].to_vec(),
        }
    }

    /// The closings on the page, in the order in which they were handed over.
    pub fn closings(&self) -> &[Figures] {
        &self.closings
    }

    /// Whether the next closing begins another page.
    pub fn is_full(&self) -> bool {
        self.closings.len() == SLOTS_ON_PAGE
    }

    /// Hands over a closing; the answer is the number of the refusal, 0 for none.
    pub fn hand_over(&mut self, slot: u32, ticket: u32, grade: u32, given_up: u32) -> u8 {
        let answer = self.take(Figures {
            slot,
            ticket,
            grade,
            given_up,
        });
        answer.map_or_else(|refusal| refusal.number() as u8, |()| 0)
    }

    /// Takes a closing. On a full page it begins the next page and stands there alone.
    pub fn take(&mut self, closing: Figures) -> Result<(), Refusal> {
        check(closing)?;
        if self.is_full() {
            self.closings.clear();
        }
        self.closings.push(closing);
        Ok(())
    }

    /// 'A page is 50 such lines: a heading, 48 slots, a line of totals.' Where there
    /// are fewer slots it is 'filled with lines of spaces before its totals'.
    pub fn text(&self) -> Vec<u8> {
        let mut lines = vec![in_columns(["SLOT", "TICKET", "G", "OUT"])];
        for closing in &self.closings {
            let (slot, ticket) = (closing.slot, closing.ticket);
            lines.push(in_columns([slot, ticket, closing.grade, closing.given_up]));
        }
        lines.resize(1 + SLOTS_ON_PAGE, in_columns([""; 4]));
        lines.push(self.totals());
        let text: String = lines.iter().map(|line| format!("{line}\n")).collect();
        text.into_bytes()
    }

    /// 'That page's number baked in 9 to 18 and given up in 19 to 24, spaces elsewhere.'
    fn totals(&self) -> String {
        let baked = self.closings.iter().filter(|closing| closing.ticket != 0);
        let given_up = self.closings.iter().map(|closing| closing.given_up);
        let given_up: u64 = given_up.map(u64::from).sum();
        ending_in([(18, baked.count().to_string()), (24, given_up.to_string())])
    }
}

/// Row 16: 'a slot above 1,000,000, a grade above 7 or more than 255 given up'.
fn check(closing: Figures) -> Result<(), Refusal> {
    let fits = closing.slot <= LAST_SLOT
        && closing.grade < MOST_GRADES as u32
        && closing.given_up <= MOST_GIVEN_UP;
    if fits {
        Ok(())
    } else {
        Err(Refusal::OffSheet)
    }
}

/// 'Slot in columns 1 to 7, ticket in 9 to 18, grade in 20, racks given up in 22 to
/// 24, all decimal and to the right, spaces elsewhere.'
fn in_columns<T: Display>([slot, ticket, grade, given_up]: [T; 4]) -> String {
    ending_in([
        (7, slot.to_string()),
        (18, ticket.to_string()),
        (20, grade.to_string()),
        (24, given_up.to_string()),
    ])
}

/// A line of figures, each with its last column, to the right. A figure has the
/// columns from behind the one before it on; of one that is longer, which no closing
/// that is taken has, the last digits stand there.
fn ending_in<const N: usize>(figures: [(usize, String); N]) -> String {
    let mut line = String::new();
    for (last, figure) in figures {
        let width = last - line.len();
        let cut = figure.len().saturating_sub(width);
        line += &format!("{:>width$}", &figure[cut..]);
    }
    line
}

/// Reads the board's input as one day and writes its pages, and only these: each
/// as soon as it is full, the last one at the end of the input.
pub fn run<R: BufRead, W: Write>(input: R, output: &mut W) -> io::Result<()> {
    let mut page = Page::default();
    day::follow(input, |_, answer| {
        if let Ok(Done::Closed { slot, closed }) = answer {
            let closing = Figures {
                slot,
                ticket: closed.ticket,
                grade: closed.grade,
                given_up: closed.expired.len() as u32,
            };
            page.take(closing).expect("what a board closes fits");
            if page.is_full() {
                write(&page, output)?;
            }
        }
        Ok(())
    })?;
    // 'A day with no closed slot prints nothing'; a full page is written already.
    if page.closings.is_empty() || page.is_full() {
        return Ok(());
    }
    write(&page, output)
}

fn write<W: Write>(page: &Page, output: &mut W) -> io::Result<()> {
    output.write_all(&page.text())?;
    output.flush()
}

/// `run` on bytes in memory.
pub fn sheet(input: &[u8]) -> Vec<u8> {
    in_memory(|output| run(input, output))
}
