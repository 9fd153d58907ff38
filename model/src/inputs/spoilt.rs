//! Inputs with wrong, damaged and overlong lines.

use super::days;
use super::questions::with_questions;
use super::withdrawals::with_refused_withdrawals;
use super::writer::{admitting, withdrawing, zeros, Writer};
use crate::board::worst_grade;
use crate::draw::Draw;
use crate::limits::{DEEPEST, LONGEST_LAXITY, LONGEST_LINE, MOST_PER_SLOT};
use crate::samples;

/// Bytes that a damaged line may get.
const STRAY: &[u8] = b"\r\0\t ,,,,;\"'+-.0123456789ABDQWabdqwGRT\x0b\x7f\x80\xbf\xc3\xff";

/// Lines that row 12 refuses.
const LETTERS: &[&str] = &[
    "",
    "a",
    "b",
    "d",
    "C",
    "E",
    " A",
    "A ",
    "AA",
    "AB",
    "BB",
    "B ",
    " B",
    "D ",
    "q",
    "QQ",
    "Q ",
    " Q",
    "w",
    "WW",
    "W ",
    " W",
    "w,1",
    " W,1",
    "0",
    "1",
    ",",
    ",1",
    "T,0",
    "G,1,1,1",
    "R,1,1",
    "\r",
    "B\r",
    "Q\r",
    "W\r",
    "W;1",
    "A;1;1;1",
    "\"A\",1,1,1",
];

/// Fields that row 14 refuses.
pub const FIELDS: &[&str] = &[
    "x",
    "-1",
    "+1",
    " 1",
    "1 ",
    "1.0",
    "0x1",
    "1e3",
    "4294967296",
    "9999999999",
    "00000000001",
    "\r",
    "1\r",
    "\0",
    "1_0",
    "\"1\"",
    " ",
];

/// Beginnings of lines that become too long, or nearly.
const BEGINNINGS: &[&[u8]] = &[
    b"A,1,1,0", b"A,1,1,", b"D,", b"B", b"", b"B,", b"Q", b"Q,", b"W", b"W,", b"W,1",
];

/// Every refusal the program can meet in a short day, size in lines about.
pub fn refusals(draw: &mut Draw, lines: u32) -> Vec<u8> {
    let mut writer = Writer::new();
    for _ in 0..lines / 10 {
        let line = wrong_before_opening(draw, &mut writer);
        writer.line(&line);
    }
    writer.open(draw.between(0, DEEPEST));
    let grade = writer.grade(draw);
    writer.admit(draw, LONGEST_LAXITY + 1, grade);
    for _ in 0..MOST_PER_SLOT + 1 {
        let grade = writer.grade(draw);
        writer.admit(draw, LONGEST_LAXITY, grade);
    }
    for _ in 0..lines {
        if draw.one_in(8) {
            writer.close();
        } else if draw.one_in(3) {
            let laxity = draw.between(1, LONGEST_LAXITY);
            let grade = writer.grade(draw);
            writer.admit(draw, laxity, grade);
        } else {
            let line = wrong_line(draw, &mut writer);
            writer.line(&line);
        }
    }
    let bytes = with_refused_withdrawals(draw, &writer.bytes, 10);
    with_questions(draw, &bytes, 10)
}

/// A line that is refused while no board is open, whatever came before.
pub fn wrong_before_opening(draw: &mut Draw, writer: &mut Writer) -> Vec<u8> {
    match draw.between(0, 3) {
        0 => {
            let depth = draw.pick(&[4, 5, 9, 255, 256, u32::MAX]);
            format!("D,{}", zeros(draw, depth)).into_bytes()
        }
        1 => draw.pick(&["B", "Q", "W,0", "W,1"]).as_bytes().to_vec(),
        2 => format!("D,{}", draw.pick(FIELDS)).into_bytes(),
        _ => wrong_line(draw, writer),
    }
}

/// A line that is refused, or that may be, while a board is open. With none
/// open it is refused too, as it never opens one.
fn wrong_line(draw: &mut Draw, writer: &mut Writer) -> Vec<u8> {
    match draw.between(0, 8) {
        6 | 7 => doubtful_admitting(draw, writer),
        8 => doubtful_withdrawing(draw, writer),
        sort => refused_of(draw, writer, sort),
    }
}

/// A line that is refused, whether a board is open or not.
pub fn refused_line(draw: &mut Draw, writer: &Writer) -> Vec<u8> {
    let sort = draw.between(0, 5);
    refused_of(draw, writer, sort)
}

/// A refused line of one of six sorts, 0 to 5.
fn refused_of(draw: &mut Draw, writer: &Writer, sort: u32) -> Vec<u8> {
    match sort {
        0 => draw.pick(LETTERS).as_bytes().to_vec(),
        1 => wrong_count(draw),
        2 => wrong_field(draw, writer),
        3 => {
            // Never one that opens: depths from 4 on.
            let depth = draw.between(DEEPEST + 1, 20);
            format!("D,{depth}").into_bytes()
        }
        4 => {
            // Never a ticket that was admitted.
            let never = writer.highest.checked_add(draw.between(1, 9));
            let ticket = draw.pick(&[0, never.unwrap_or(0)]);
            withdrawing(draw, ticket)
        }
        _ => overlong_line(draw),
    }
}

/// A known letter with the wrong number of fields, some of them wrong too.
fn wrong_count(draw: &mut Draw) -> Vec<u8> {
    let (letter, right) = draw.pick(&[("D", 1), ("A", 3), ("B", 0), ("Q", 0), ("W", 1)]);
    let mut many = draw.between(0, 5);
    if many == right {
        many += 1;
    }
    let mut line = letter.to_string();
    for _ in 0..many {
        line.push(',');
        line.push_str(draw.pick(&["1", "2", "", "x"]));
    }
    line.into_bytes()
}

/// An A, D or W line with one field or more that row 14 refuses.
fn wrong_field(draw: &mut Draw, writer: &Writer) -> Vec<u8> {
    if draw.one_in(4) {
        let field = draw.pick(&[FIELDS, &[""]].concat());
        return format!("{},{field}", draw.pick(&["D", "W", "W"])).into_bytes();
    }
    let next = writer.highest.saturating_add(1).to_string();
    let mut fields = [next.as_str(), "3", draw.pick(&["0", ""])];
    let place = draw.index(3);
    fields[place] = draw.pick(FIELDS);
    if draw.one_in(3) {
        // A blank is wrong as a ticket or a wait.
        fields[draw.index(2)] = "";
    }
    format!("A,{},{},{}", fields[0], fields[1], fields[2]).into_bytes()
}

/// An A line whose ticket, wait and grade are each right or wrong.
fn doubtful_admitting(draw: &mut Draw, writer: &mut Writer) -> Vec<u8> {
    let highest = writer.highest;
    let next = highest.saturating_add(1);
    let ticket = draw.pick(&[next, next, highest, highest.saturating_sub(1), 0]);
    let too_long = samples::too_long_laxity(draw);
    let laxity = draw.pick(&[1, 5, LONGEST_LAXITY, too_long, 0, u32::MAX]);
    let worst = worst_grade(writer.depth);
    let grades = [0, worst, worst + 1, worst + 2, u32::MAX].map(Some);
    let grade = draw.pick(&[&grades[..], &[None]].concat());
    writer.highest = highest.max(ticket);
    admitting(u64::from(ticket), laxity, grade)
}

/// A W line whose ticket is on the board or not, admitted in this slot or before it.
pub fn doubtful_withdrawing(draw: &mut Draw, writer: &Writer) -> Vec<u8> {
    let highest = writer.highest;
    let late = highest.saturating_sub(draw.between(0, 9));
    let any = draw.between(0, highest);
    let next = highest.saturating_add(1);
    let ticket = draw.pick(&[highest, late, late, late, any, next, 0, u32::MAX]);
    withdrawing(draw, ticket)
}

/// A line of the board's input about as long as allowed, or far longer.
fn overlong_line(draw: &mut Draw) -> Vec<u8> {
    overlong_from(draw, BEGINNINGS)
}

/// A line with one of these beginnings, about as long as allowed, or far longer.
pub fn overlong_from(draw: &mut Draw, beginnings: &[&[u8]]) -> Vec<u8> {
    let about = LONGEST_LINE as u32;
    let length = match draw.between(0, 9) {
        0 => draw.between(1_000, 9_000),
        1 => draw.pick(&[4_095, 4_096, 4_097, 8_191, 8_192, 8_193, 65_536]),
        _ => draw.between(about - 1, about + 5),
    };
    let start = draw.pick(beginnings);
    let filling = draw.pick(b"0 ,xB\r\0\xff");
    let mut line = start.to_vec();
    line.resize(length as usize, filling);
    line
}

/// Good lines and lines that are too long, or nearly.
pub fn overlong(draw: &mut Draw, lines: u32) -> Vec<u8> {
    let mut writer = Writer::new();
    if draw.one_in(2) {
        writer.open(draw.between(0, DEEPEST));
    }
    for _ in 0..lines {
        match draw.between(0, 3) {
            0 => writer.close(),
            1 => {
                let grade = writer.grade(draw);
                writer.admit(draw, 3, grade);
            }
            _ => writer.line(&overlong_line(draw)),
        }
    }
    let bytes = with_refused_withdrawals(draw, &writer.bytes, 8);
    let bytes = with_questions(draw, &bytes, 8);
    without_last_end(draw, bytes)
}

/// A day with about every third line damaged, its first one less often.
pub fn damaged(draw: &mut Draw, slots: u32) -> Vec<u8> {
    let day = days::ordinary(draw, slots);
    with_damage(draw, &day, 8, 3)
}

/// The lines with damage to the first one about once in so many times, and to about one
/// in so many of the others.
pub fn with_damage(draw: &mut Draw, lines: &[u8], first: u32, others: u32) -> Vec<u8> {
    let mut bytes = Vec::new();
    for (place, line) in lines.split(|&byte| byte == b'\n').enumerate() {
        let mut line = line.to_vec();
        let seldom = if place == 0 { first } else { others };
        if draw.one_in(seldom) {
            for _ in 0..draw.between(1, 3) {
                damage(draw, &mut line);
            }
        }
        bytes.extend_from_slice(&line);
        bytes.push(b'\n');
    }
    without_last_end(draw, bytes)
}

/// One small damage to a line; it may end the line early as well.
pub fn damage(draw: &mut Draw, line: &mut Vec<u8>) {
    let place = draw.index(line.len() + 1);
    let inside = place < line.len();
    let stray = match draw.between(0, 3) {
        0 => draw.between(0, 255) as u8,
        _ => draw.pick(STRAY),
    };
    match draw.between(0, 5) {
        0 if inside => line[place] = stray,
        1 if inside => {
            line.remove(place);
        }
        2 => line.insert(place, b','),
        3 => line.retain(|&byte| byte != b','),
        4 => line.insert(place, b'\n'),
        _ => line.insert(place, stray),
    }
}

/// The bytes, half of the time without their last line end.
pub fn without_last_end(draw: &mut Draw, mut bytes: Vec<u8>) -> Vec<u8> {
    if bytes.last() == Some(&b'\n') && draw.one_in(2) {
        bytes.pop();
    }
    bytes
}

/// A few bytes of a small alphabet, half of the time on an open board.
pub fn tiny(draw: &mut Draw, most: u32) -> Vec<u8> {
    let mut bytes = Vec::new();
    if draw.one_in(2) {
        bytes.extend_from_slice(b"D,1\n");
    }
    for _ in 0..draw.between(0, most) {
        let parts = [
            b"\n" as &[u8],
            b",",
            b"A",
            b"B",
            b"D",
            b"Q",
            b"W",
            b"0",
            b"1",
            b"2",
            b"\r",
            b"\nA,",
            b"\nB\n",
            b"\nQ\n",
            b"\nA,1,1,0\n",
            b"\nA,2,1,\n",
            b"\nA,3,9,1\nA,4,9,1\n",
            b"\nW,4\n",
            b"\nD,2\n",
        ];
        bytes.extend_from_slice(draw.pick(&parts));
    }
    bytes
}

/// Days of all sorts with wrong, damaged and overlong lines between.
pub fn mixed(draw: &mut Draw, slots: u32) -> Vec<u8> {
    let mut writer = Writer::new();
    if draw.one_in(3) {
        let line = wrong_before_opening(draw, &mut writer);
        writer.line(&line);
    }
    writer.open(draw.between(0, DEEPEST));
    for _ in 0..slots {
        let longest = draw.pick(&[1, 3, 8, LONGEST_LAXITY]);
        for _ in 0..draw.pick(&[0, 1, 1, 2, 3, 9]) {
            let (laxity, grade) = (draw.between(1, longest), writer.grade(draw));
            writer.admit(draw, laxity, grade);
        }
        if draw.one_in(4) {
            let mut line = wrong_line(draw, &mut writer);
            if draw.one_in(3) {
                damage(draw, &mut line);
            }
            writer.line(&line);
        }
        writer.close();
    }
    let bytes = with_refused_withdrawals(draw, &writer.bytes, 8);
    let bytes = with_questions(draw, &bytes, 6);
    without_last_end(draw, bytes)
}
