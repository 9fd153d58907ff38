//! The board's program over one of the two boards: a day's lines in, its answers out. Nothing is allocated for a line.

use crate::board::{Board, Entry, List};
use crate::day::Day;
use crate::input::Input;
use crate::output::Output;
use crate::request::{self, Request};
use model::limits::MOST_HELD;
use model::refusal::Refusal;
use std::fs::File;
use std::io::{self, Read, Write};
use std::os::fd::AsFd;

/// Standard input in, standard output out, without the library's buffers between.
pub fn main<B: Board>() -> io::Result<()> {
    let input = File::from(io::stdin().as_fd().try_clone_to_owned()?);
    let output = File::from(io::stdout().as_fd().try_clone_to_owned()?);
    run::<B>(input, output)
}

/// Answers each line of an input, and prints the tally at its end.
pub fn run<B: Board>(source: impl Read, sink: impl Write) -> io::Result<()> {
    let (mut input, mut program) = (Input::new(source), Program::<B, _>::new(sink));
    loop {
        program.line += 1;
        if program.plain(&mut input)? {
            continue;
        }
        let Some(line) = input.line()? else {
            break;
        };
        program.any(line)?;
    }
    program.end()
}

struct Program<B, W> {
    day: Option<Day<B>>,
    list: List,
    output: Output<W>,
    /// The number of the line that is read, from 1.
    line: u32,
}

impl<B: Board, W: Write> Program<B, W> {
    fn new(sink: W) -> Program<B, W> {
        Program {
            day: None,
            list: [Entry::default(); MOST_HELD],
            output: Output::new(sink),
            line: 0,
        }
    }

    /// Takes and answers a line of the plainest kind while a board is open; tells whether the next line was one.
    #[inline]
    fn plain(&mut self, input: &mut Input<impl Read>) -> io::Result<bool> {
        let Some(day) = &mut self.day else {
            return Ok(false);
        };
        let window = input.window();
        if let Some(plain) = request::plain(window) {
            if !input.take(plain.length) {
                return Ok(false);
            }
            match day.admit(plain.ticket, plain.wait, plain.grade) {
                Ok(last) => self.output.admitted_as(plain.digits, plain.count, last)?,
                Err(refusal) => self.output.refused(self.line, refusal)?,
            }
            return Ok(true);
        }
        if window[..2] == *b"B\n" && input.take(2) {
            self.close()?;
            return Ok(true);
        }
        Ok(false)
    }

    /// Answers any line.
    fn any(&mut self, line: &[u8]) -> io::Result<()> {
        match (request::read(line), &mut self.day) {
            (Ok(Request::Open { depth }), None) => match Day::open(depth) {
                Ok(day) => {
                    self.day = Some(day);
                    self.output.opened(depth)
                }
                Err(refusal) => self.output.refused(self.line, refusal),
            },
            (
                Ok(Request::Admit {
                    ticket,
                    wait,
                    grade,
                }),
                Some(day),
            ) => match day.admit(ticket, wait, grade.unwrap_or(day.worst_grade())) {
                Ok(last) => self.output.admitted(ticket, last),
                Err(refusal) => self.output.refused(self.line, refusal),
            },
            (Ok(Request::Close), Some(_)) => self.close(),
            (Ok(_), _) => self.output.refused(self.line, Refusal::NotNow),
            (Err(refusal), _) => self.output.refused(self.line, refusal),
        }
    }

    /// Closes the slot of the open board.
    fn close(&mut self) -> io::Result<()> {
        let Some(day) = &mut self.day else {
            return Ok(());
        };
        let slot = day.slot();
        match day.close(&mut self.list) {
            Ok(closed) => {
                let given_up = &self.list[..closed.given_up];
                self.output.closed(slot, closed, given_up)
            }
            Err(refusal) => self.output.refused(self.line, refusal),
        }
    }

    /// Prints the tally of the open board, if there is one.
    fn end(mut self) -> io::Result<()> {
        if let Some(day) = &self.day {
            self.output.totals(day.tally())?;
        }
        self.output.flush()
    }
}
