//! Reading a line: rows 11 to 14. Questions and withdrawals are left out, so that Q and W are letters unknown here (row 12).

use crate::digits;
use model::limits::{LONGEST_LINE, MOST_DIGITS};
use model::refusal::Refusal;

/// What a line asks for. A blank grade is none.
pub enum Request {
    Open {
        depth: u32,
    },
    Admit {
        ticket: u32,
        wait: u32,
        grade: Option<u32>,
    },
    Close,
}

/// What any line asks for; its end is not a part of it.
pub fn read(line: &[u8]) -> Result<Request, Refusal> {
    if line.len() > LONGEST_LINE {
        return Err(Refusal::LineLong);
    }
    let mut fields = line.split(|&byte| byte == b',');
    let letter = fields.next().unwrap_or_default();
    let others = fields.clone().count();
    let mut field = || fields.next().unwrap_or_default();
    match (letter, others) {
        (b"D", 1) => Ok(Request::Open {
            depth: number(field())?,
        }),
        (b"A", 3) => Ok(Request::Admit {
            ticket: number(field())?,
            wait: number(field())?,
            grade: number_or_blank(field())?,
        }),
        (b"B", 0) => Ok(Request::Close),
        (b"A" | b"B" | b"D", _) => Err(Refusal::FieldCount),
        _ => Err(Refusal::Letter),
    }
}

fn number_or_blank(field: &[u8]) -> Result<Option<u32>, Refusal> {
    if field.is_empty() {
        return Ok(None);
    }
    number(field).map(Some)
}

fn number(field: &[u8]) -> Result<u32, Refusal> {
    if field.is_empty() || field.len() > MOST_DIGITS {
        return Err(Refusal::Field);
    }
    let mut value = 0;
    for byte in field {
        if !byte.is_ascii_digit() {
            return Err(Refusal::Field);
        }
        value = value * 10 + u64::from(byte - b'0');
    }
    u32::try_from(value).map_err(|_| Refusal::Field)
}

/// A window onto the input is as many bytes from a line's start on, whether the line ends in it or not.
pub const WINDOW: usize = 24;

/// An A line as nearly all are: a ticket of at most eight digits without zeros in front, a wait of one or two digits, a grade of one.
pub struct Plain {
    pub ticket: u32,
    pub wait: u32,
    pub grade: u32,
    /// The ticket as it is written, and how many digits that is.
    pub digits: u64,
    pub count: usize,
    /// Bytes of the line with its end.
    pub length: usize,
}

/// The plain A line that a window begins with, if it does.
#[inline]
pub fn plain(window: &[u8; WINDOW]) -> Option<Plain> {
    let digits = digits::word(&window[2..]);
    let count = digits::count(digits);
    if window[..2] != *b"A," || count == 0 || window[2] == b'0' || window[2 + count] != b',' {
        return None;
    }
    let rest = digits::word(&window[3 + count..]);
    let wait_count = digits::count(rest);
    if wait_count != 1 && wait_count != 2 {
        return None;
    }
    let [comma, grade, end, ..] = (rest >> (8 * wait_count)).to_le_bytes();
    if comma != b',' || end != b'\n' || !grade.is_ascii_digit() {
        return None;
    }
    Some(Plain {
        ticket: digits::value(digits, count),
        wait: digits::value(rest, wait_count),
        grade: u32::from(grade - b'0'),
        digits,
        count,
        length: 3 + count + wait_count + 3,
    })
}
