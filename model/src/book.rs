//! The day book, drawn from the arguments of a list of calls alone.
//!
//! 'The optimum is counted afresh after a withdrawal: from that slot on, with the racks
//! left on the board as first arrivals for the board, every plan and every rival' (02,
//! Seven). So a withdrawal that is let through ends one stretch of the list and begins
//! the next, and each stretch has its own book.

use crate::board::Job;
use crate::list::Call;
use crate::refusal::Refusal;
use crate::rows::{self, Standing};
use crate::rule;

/// The day book of one stretch. No board has a part in it.
#[derive(Clone, Debug, PartialEq, Eq)]
pub struct Book {
    pub depth: u32,
    /// The slot with which the book began.
    pub first_slot: u32,
    /// The highest ticket with which the book began.
    pub first_highest: u32,
    /// The racks with which the book began, each with its own admitted slot. 'A rule
    /// knows these racks.'
    pub first_arrivals: Vec<Job>,
    /// The slot it has come to.
    pub slot: u32,
    pub highest_ticket: u32,
    /// Every rack of the book, baked or not: the first arrivals, then those entered.
    pub jobs: Vec<Job>,
    /// Its racks in date and not yet baked there, on which row 17 is read.
    pub waiting: Vec<Job>,
}

impl Book {
    /// A book that begins with a slot and a highest ticket, and no racks.
    pub fn begin(depth: u32, slot: u32, highest_ticket: u32) -> Book {
        Book::begin_with(depth, slot, highest_ticket, &[])
    }

    /// A book that begins with these racks too, as first arrivals.
    pub fn begin_with(depth: u32, slot: u32, highest_ticket: u32, jobs: &[Job]) -> Book {
        Book {
            depth,
            first_slot: slot,
            first_highest: highest_ticket,
            first_arrivals: jobs.to_vec(),
            slot,
            highest_ticket,
            jobs: jobs.to_vec(),
            waiting: jobs.to_vec(),
        }
    }

    /// The books of a whole list of calls, one for each stretch.
    pub fn drawn(depth: u32, slot: u32, highest_ticket: u32, calls: &[Call]) -> Vec<Book> {
        let mut books = vec![Book::begin(depth, slot, highest_ticket)];
        for call in calls {
            let book = books.last_mut().expect("there is a first book");
            // A refused call changes nothing in the book.
            if let Ok(Some(next)) = book.take(call) {
                books.push(next);
            }
        }
        books
    }

    /// Takes one call into the book, or tells the row that does not let it through. A
    /// withdrawal ends the book as it is; the book of the next stretch is handed back.
    pub fn take(&mut self, call: &Call) -> Result<Option<Book>, Refusal> {
        match *call {
            Call::Admit {
                ticket,
                laxity,
                grade,
            } => self.admit(ticket, laxity, grade).map(|()| None),
            Call::Close { lent } => self.close(lent).map(|()| None),
            Call::Withdraw { ticket } => self.withdraw(ticket).map(Some),
        }
    }

    fn admit(&mut self, ticket: u32, laxity: u32, grade: u32) -> Result<(), Refusal> {
        rows::admitting(self.standing(), ticket, laxity, grade)?;
        let job = Job {
            ticket,
            admitted: self.slot,
            deadline: self.slot + laxity - 1,
            grade,
        };
        self.jobs.push(job);
        self.waiting.push(job);
        self.highest_ticket = ticket;
        Ok(())
    }

    /// A closing bakes the rack that the rule picks of those in date and not yet baked.
    fn close(&mut self, lent: usize) -> Result<(), Refusal> {
        rows::closing(self.standing(), lent)?;
        let slot = self.slot;
        let baked = rule::job_to_bake(&self.waiting, slot, self.depth);
        self.waiting
            .retain(|job| Some(*job) != baked && slot < job.deadline);
        self.slot += 1;
        Ok(())
    }

    /// The book that a withdrawal begins: 'slot and highest ticket go on as they were',
    /// and the racks left are its first arrivals.
    fn withdraw(&self, ticket: u32) -> Result<Book, Refusal> {
        let withdrawn = rows::withdrawing(self.standing(), &self.waiting, ticket)?;
        let mut left = self.waiting.clone();
        left.retain(|job| *job != withdrawn);
        let (depth, slot, highest) = (self.depth, self.slot, self.highest_ticket);
        Ok(Book::begin_with(depth, slot, highest, &left))
    }

    /// What the rows read in a book. 'Row 7 there still counts only racks admitted in
    /// that slot itself', first arrivals too.
    fn standing(&self) -> Standing {
        let now = self.jobs.iter().filter(|job| job.admitted == self.slot);
        Standing {
            depth: self.depth,
            slot: self.slot,
            highest_ticket: self.highest_ticket,
            admitted_now: now.count(),
        }
    }

    /// Number of slots closed so far.
    pub fn closed(&self) -> usize {
        (self.slot - self.first_slot) as usize
    }

    /// The rack with this ticket.
    pub fn job(&self, ticket: u32) -> Option<&Job> {
        self.jobs.iter().find(|job| job.ticket == ticket)
    }
}
