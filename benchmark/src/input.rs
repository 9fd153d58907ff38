//! The input as it is read, 64 KB at a time, cut into lines where it lies.

use crate::request::WINDOW;
use model::limits::LONGEST_LINE;
use std::io::{self, ErrorKind, Read};

/// Most bytes that are read at a time.
const SIZE: usize = 1 << 16;

pub struct Input<R> {
    source: R,
    /// From `start` to `end` is what was read and not yet taken.
    bytes: Box<[u8; SIZE + WINDOW]>,
    start: usize,
    end: usize,
}

impl<R: Read> Input<R> {
    pub fn new(source: R) -> Input<R> {
        Input {
            source,
            bytes: Box::new([0; SIZE + WINDOW]),
            start: 0,
            end: 0,
        }
    }

    /// The window onto the next line. What lies behind the bytes that were read is of no meaning.
    #[inline]
    pub fn window(&self) -> &[u8; WINDOW] {
        let bytes = &self.bytes[self.start..self.start + WINDOW];
        bytes.try_into().expect("as many bytes")
    }

    /// Takes so many bytes, if as many were read.
    #[inline]
    pub fn take(&mut self, length: usize) -> bool {
        let read = self.start + length <= self.end;
        if read {
            self.start += length;
        }
        read
    }

    /// The next line without its end, or none at the end of the input. Of a line that is too long some bytes in front may be missing; it is too long
    /// without them, too.
    pub fn line(&mut self) -> io::Result<Option<&[u8]>> {
        let mut looked_at = 0;
        loop {
            let unread = &self.bytes[self.start..self.end];
            let end = unread[looked_at..].iter().position(|&byte| byte == b'\n');
            if let Some(end) = end {
                let line = self.start..self.start + looked_at + end;
                self.start = line.end + 1;
                return Ok(Some(&self.bytes[line]));
            }
            looked_at = unread.len().min(LONGEST_LINE + 1);
            self.start = self.end - looked_at;
            if !self.more()? {
                let line = self.start..self.end;
                self.start = self.end;
                return Ok(Some(&self.bytes[line]).filter(|line| !line.is_empty()));
            }
        }
    }

    /// Moves what is left to the front and reads more; tells whether there was more.
    fn more(&mut self) -> io::Result<bool> {
        self.bytes.copy_within(self.start..self.end, 0);
        self.end -= self.start;
        self.start = 0;
        loop {
            match self.source.read(&mut self.bytes[self.end..SIZE]) {
                Ok(read) => {
                    self.end += read;
                    return Ok(read > 0);
                }
                Err(error) if error.kind() == ErrorKind::Interrupted => {}
                Err(error) => return Err(error),
            }
        }
    }
}
