//! What the programs print: made in one buffer, which is written where it is full and at the end.

use crate::board::{Closed, Entry};
use crate::day::Tally;
use crate::digits;
use model::refusal::Refusal;
use std::io::{self, Write};

/// Bytes of the buffer.
const SIZE: usize = 1 << 16;
/// More than any line has, with the bytes that are written behind its end.
const LINE: usize = 64;

pub struct Output<W> {
    sink: W,
    bytes: Box<[u8; SIZE]>,
    used: usize,
}

impl<W: Write> Output<W> {
    pub fn new(sink: W) -> Output<W> {
        Output {
            sink,
            bytes: Box::new([0; SIZE]),
            used: 0,
        }
    }

    /// A D line.
    pub fn opened(&mut self, depth: u32) -> io::Result<()> {
        self.room()?;
        self.text(b"D,");
        self.number(depth);
        self.end_line();
        Ok(())
    }

    /// An A line.
    pub fn admitted(&mut self, ticket: u32, last: u32) -> io::Result<()> {
        self.room()?;
        self.text(b"A,");
        self.number(ticket);
        self.comma_number(last);
        self.end_line();
        Ok(())
    }

    /// An A line whose ticket has these digits.
    #[inline]
    pub fn admitted_as(&mut self, digits: u64, count: usize, last: u32) -> io::Result<()> {
        self.room()?;
        self.text(b"A,");
        self.word(digits, count);
        self.comma_number(last);
        self.end_line();
        Ok(())
    }

    /// A B line, and a G line for each rack given up.
    #[inline]
    pub fn closed(&mut self, slot: u32, closed: Closed, given_up: &[Entry]) -> io::Result<()> {
        self.room()?;
        self.head(head(b'B', slot));
        self.number(closed.ticket);
        self.text(&[b',', digit(closed.grade)]);
        self.comma_number(closed.given_up as u32);
        self.comma_number(closed.shortfall);
        self.end_line();
        let head = head(b'G', slot);
        for entry in given_up {
            self.room()?;
            self.head(head);
            self.number(entry.ticket);
            self.text(&[b',', digit(entry.grade), b'\n']);
        }
        Ok(())
    }

    /// An R line.
    pub fn refused(&mut self, line: u32, refusal: Refusal) -> io::Result<()> {
        self.room()?;
        self.text(b"R,");
        self.number(line);
        self.comma_number(refusal.number());
        self.end_line();
        Ok(())
    }

    /// The T lines. No rack is ever withdrawn here.
    pub fn totals(&mut self, tally: &[Tally]) -> io::Result<()> {
        for (grade, tally) in (0..).zip(tally) {
            self.room()?;
            self.text(b"T,");
            self.number(grade);
            self.comma_number(tally.admitted);
            self.comma_number(tally.baked);
            self.comma_number(tally.given_up);
            self.comma_number(0);
            self.end_line();
        }
        Ok(())
    }

    /// Writes all that is left.
    pub fn flush(&mut self) -> io::Result<()> {
        self.sink.write_all(&self.bytes[..self.used])?;
        self.used = 0;
        Ok(())
    }

    /// Makes room for a line.
    #[inline]
    fn room(&mut self) -> io::Result<()> {
        if self.used > SIZE - LINE {
            self.flush()?;
        }
        Ok(())
    }

    #[inline]
    fn text<const N: usize>(&mut self, text: &[u8; N]) {
        self.bytes[self.used..self.used + N].copy_from_slice(text);
        self.used += N;
    }

    /// The beginning of a line, and its length.
    #[inline]
    fn head(&mut self, (bytes, length): ([u8; 16], usize)) {
        self.text(&bytes);
        self.used -= bytes.len() - length;
    }

    /// The first bytes of a word.
    #[inline]
    fn word(&mut self, word: u64, count: usize) {
        self.bytes[self.used..self.used + 8].copy_from_slice(&word.to_le_bytes());
        self.used += count;
    }

    #[inline]
    fn number(&mut self, number: u32) {
        if number >= digits::NINE_DIGITS {
            return self.long_number(number);
        }
        let (word, count) = digits::of(number);
        self.word(word, count);
    }

    #[cold]
    fn long_number(&mut self, number: u32) {
        self.number(number / digits::NINE_DIGITS);
        self.word(digits::last_eight(number), 8);
    }

    #[inline]
    fn comma_number(&mut self, number: u32) {
        self.text(b",");
        self.number(number);
    }

    #[inline]
    fn end_line(&mut self) {
        self.text(b"\n");
    }
}

/// The beginning of a B line or a G line, and its length: the letter and the slot, with the commas behind them.
#[inline]
fn head(letter: u8, slot: u32) -> ([u8; 16], usize) {
    let (digits, count) = digits::of(slot);
    let letter = u128::from(u16::from_le_bytes([letter, b',']));
    let comma = u128::from(b',') << (16 + 8 * count);
    let bytes = letter | u128::from(digits) << 16 | comma;
    (bytes.to_le_bytes(), count + 3)
}

/// A number below 10.
fn digit(number: u32) -> u8 {
    b'0' + number as u8
}
