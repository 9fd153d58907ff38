//! Reading: from bytes to lines, and from a line to what it asks for.

use std::io::{self, BufRead};

use crate::limits::{LONGEST_LINE, MOST_DIGITS};
use crate::refusal::Refusal;

/// What a line asks for.
#[derive(Clone, Copy, Debug, PartialEq, Eq)]
pub enum Request {
    Open {
        depth: u32,
    },
    Admit {
        ticket: u32,
        laxity: u32,
        /// None where the field is blank.
        grade: Option<u32>,
    },
    Close,
    /// What can still be promised?
    Promise,
    /// Take a rack back.
    Withdraw {
        ticket: u32,
    },
}

/// The next line without its end, or none at the end of the input: 'a line ends at
/// byte 10 or at the end of input, and no line follows a byte 10 that is the last byte'.
pub fn next_line<R: BufRead>(input: &mut R) -> io::Result<Option<Vec<u8>>> {
    let mut line = Vec::new();
    if input.read_until(b'\n', &mut line)? == 0 {
        return Ok(None);
    }
    if line.last() == Some(&b'\n') {
        line.pop();
    }
    Ok(Some(line))
}

/// Row 11, and then the fields of the line, 'parted by commas'. There is at least one.
pub fn fields(line: &[u8]) -> Result<Vec<&[u8]>, Refusal> {
    if line.len() > LONGEST_LINE {
        return Err(Refusal::LineLong);
    }
    Ok(line.split(|&byte| byte == b',').collect())
}

/// Rows 11 to 14, in order. Row 15 needs to know whether a board is open.
pub fn read(line: &[u8]) -> Result<Request, Refusal> {
    let fields = fields(line)?;
    let wanted = match fields[0] {
        b"D" | b"W" => 2,
        b"A" => 4,
        b"B" | b"Q" => 1,
        _ => return Err(Refusal::Letter),
    };
    if fields.len() != wanted {
        return Err(Refusal::FieldCount);
    }
    match fields[0] {
        b"D" => Ok(Request::Open {
            depth: number(fields[1])?,
        }),
        b"A" => Ok(Request::Admit {
            ticket: number(fields[1])?,
            laxity: number(fields[2])?,
            grade: number_or_blank(fields[3])?,
        }),
        b"B" => Ok(Request::Close),
        b"W" => Ok(Request::Withdraw {
            ticket: number(fields[1])?,
        }),
        _ => Ok(Request::Promise),
    }
}

/// Row 14: 1 to 10 decimal digits, at most 4,294,967,295.
pub fn number(field: &[u8]) -> Result<u32, Refusal> {
    if field.is_empty() || field.len() > MOST_DIGITS {
        return Err(Refusal::Field);
    }
    let mut value: u64 = 0;
    for byte in field {
        if !byte.is_ascii_digit() {
            return Err(Refusal::Field);
        }
        value = value * 10 + u64::from(byte - b'0');
    }
    if value > u64::from(u32::MAX) {
        return Err(Refusal::Field);
    }
    Ok(value as u32)
}

/// Row 14 where the field may be blank: no byte at all.
fn number_or_blank(field: &[u8]) -> Result<Option<u32>, Refusal> {
    if field.is_empty() {
        return Ok(None);
    }
    number(field).map(Some)
}
