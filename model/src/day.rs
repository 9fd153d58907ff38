//! A day: what each line of the input does, whatever is printed for it.

use std::io::{self, BufRead};

use crate::board::{self, Board};
use crate::calls::{self, Closed};
use crate::limits::MOST_HELD;
use crate::lines::{self, Request};
use crate::refusal::Refusal;
use crate::tally::{Tally, ADMITTED, BAKED, EXPIRED, WITHDRAWN};

/// The day's state: the board, if one is open, and the tally.
#[derive(Clone, Debug, Default)]
pub struct Day {
    pub board: Option<Board>,
    pub tally: Tally,
}

/// What a line did that was not refused.
#[derive(Clone, Debug, PartialEq, Eq)]
pub enum Done {
    Opened {
        depth: u32,
    },
    Admitted {
        ticket: u32,
        deadline: u32,
        /// A blank grade is the worst one here.
        grade: u32,
    },
    Closed {
        slot: u32,
        closed: Closed,
    },
    Promised {
        wait: u32,
    },
    Withdrawn {
        ticket: u32,
    },
}

impl Day {
    /// Takes one line and tells what it did, or its refusal.
    pub fn take(&mut self, line: &[u8]) -> Result<Done, Refusal> {
        let request = lines::read(line)?;
        self.check_now(&request)?;
        match request {
            Request::Open { depth } => self.open(depth),
            Request::Admit {
                ticket,
                laxity,
                grade,
            } => {
                // 'A blank grade now means the worst grade of the open depth' (02, One).
                let worst = board::worst_grade(self.open_board().depth);
                self.admit(ticket, laxity, grade.unwrap_or(worst))
            }
            Request::Close => self.close(),
            Request::Promise => self.promise(),
            Request::Withdraw { ticket } => self.withdraw(ticket),
        }
    }

    /// Row 15.
    fn check_now(&self, request: &Request) -> Result<(), Refusal> {
        let opens = matches!(request, Request::Open { .. });
        if opens == self.board.is_some() {
            return Err(Refusal::NotNow);
        }
        Ok(())
    }

    /// The open board; a line that needs one has passed row 15.
    fn open_board(&mut self) -> &mut Board {
        self.board.as_mut().expect("row 15 has passed")
    }

    fn open(&mut self, depth: u32) -> Result<Done, Refusal> {
        let (board, answer) = board::open(depth);
        answer?;
        self.board = Some(board);
        Ok(Done::Opened { depth })
    }

    fn admit(&mut self, ticket: u32, laxity: u32, grade: u32) -> Result<Done, Refusal> {
        let deadline = calls::admit(self.open_board(), ticket, laxity, grade)?;
        self.tally.record(ADMITTED, grade)?;
        Ok(Done::Admitted {
            ticket,
            deadline,
            grade,
        })
    }

    fn close(&mut self) -> Result<Done, Refusal> {
        let board = self.open_board();
        let slot = board.slot;
        let closed = calls::close(board, MOST_HELD)?;
        if closed.ticket != 0 {
            self.tally.record(BAKED, closed.grade)?;
        }
        for job in &closed.expired {
            self.tally.record(EXPIRED, job.grade)?;
        }
        Ok(Done::Closed { slot, closed })
    }

    /// The tally takes in nothing, as nothing happens to a rack.
    fn promise(&mut self) -> Result<Done, Refusal> {
        let wait = calls::promise(self.open_board())?;
        Ok(Done::Promised { wait })
    }

    fn withdraw(&mut self, ticket: u32) -> Result<Done, Refusal> {
        let grade = calls::withdraw(self.open_board(), ticket)?;
        self.tally.record(WITHDRAWN, grade)?;
        Ok(Done::Withdrawn { ticket })
    }
}

/// Takes the input line by line and hands each answer on with its line's number,
/// from 1; the state at the end is handed back. No more than one line is held at
/// a time.
pub fn follow<R, E>(mut input: R, mut each: E) -> io::Result<Day>
where
    R: BufRead,
    E: FnMut(u64, Result<Done, Refusal>) -> io::Result<()>,
{
    let mut day = Day::default();
    let mut line_number: u64 = 0;
    while let Some(line) = lines::next_line(&mut input)? {
        line_number += 1;
        each(line_number, day.take(&line))?;
    }
    Ok(day)
}
