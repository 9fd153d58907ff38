//! Lists for the program `hindsight` with lines that it refuses.

use super::lists::{input, lines};
use super::spoilt::{damage, overlong_from, FIELDS};
use crate::draw::Draw;
use crate::hindsight::samples;
use crate::hindsight::Window;
use crate::limits::{LAST_IN_HINDSIGHT, LONGEST_LINE};

/// Fields that row 14 refuses here beside those of the board's lines, or lets through.
const MORE_FIELDS: &[&str] = &[
    "",
    "a",
    "\u{e9}",
    "\u{ff11}",
    "1\0",
    "+64",
    "64\r",
    "\u{7f}",
    "-",
    "1-2",
    "4294967295",
    "04294967295",
    "0000000001",
    "0000000064",
    "0000000065",
    "00000000064",
    "0",
];

/// Lines that row 13 refuses.
const COUNTS: &[&str] = &[
    "",
    "5",
    "x",
    "\r",
    "\0",
    "0000000005",
    "5;6",
    "5 6",
    "5,6,",
    ",5,6",
    ",,",
    "5,6,7",
    "x,y,z",
    "5,6,7,8",
    ",,,",
    "4294967296",
    "5,,6",
];

/// Beginnings of lines that become too long, or nearly.
const BEGINNINGS: &[&[u8]] = &[
    b"",
    b"1,2",
    b"1,",
    b"1",
    b",",
    b"1,2,",
    b"x,",
    b"000000001,",
];

/// At most so many racks, and at least one.
fn some_racks(draw: &mut Draw, most: u32) -> Vec<Window> {
    let racks = draw.between(1, most.max(1));
    samples::windows(draw, racks as usize)
}

/// A list of at most so many racks, one line of which is wrong.
fn with_wrong_line(draw: &mut Draw, most: u32, wrong: fn(&mut Draw) -> Vec<u8>) -> Vec<u8> {
    let windows = some_racks(draw, most);
    let mut lines = lines(draw, &windows);
    let place = draw.index(lines.len());
    lines[place] = wrong(draw);
    input(draw, &lines)
}

/// So many racks or more. Half of the time some of them have wrong slots, and about every
/// third list has a line that is refused before, often one of the last five.
pub fn too_many(draw: &mut Draw, least: u32) -> Vec<u8> {
    let racks = least + draw.pick(&[0, 0, 0, 1, 2, 5, 35, least, 5 * least]);
    let mut windows = samples::windows(draw, racks as usize);
    if draw.one_in(2) {
        set_outside(draw, &mut windows);
    }
    let mut lines = lines(draw, &windows);
    if !lines.is_empty() && draw.one_in(3) {
        let (any, late) = (draw.index(lines.len()), draw.index(lines.len().min(5)));
        let place = draw.pick(&[any, lines.len() - 1 - late]);
        lines[place] = wrong_line(draw);
    }
    input(draw, &lines)
}

/// Makes one rack or more break row 19, if there are racks.
fn set_outside(draw: &mut Draw, windows: &mut [Window]) {
    for _ in 0..draw.between(1, 3) {
        if !windows.is_empty() {
            let place = draw.index(windows.len());
            windows[place] = samples::outside(draw);
        }
    }
}

/// At most so many racks, of which some have slots at the bounds and some have wrong
/// slots; of all lists about a fourth has no wrong slot.
pub fn outside(draw: &mut Draw, most: u32) -> Vec<u8> {
    let mut windows = some_racks(draw, most);
    let end = LAST_IN_HINDSIGHT;
    for (first, last) in [(1, 1), (end, end), (1, end)] {
        let place = draw.index(windows.len());
        windows[place] = Window { first, last };
    }
    if !draw.one_in(4) {
        set_outside(draw, &mut windows);
    }
    let lines = lines(draw, &windows);
    input(draw, &lines)
}

/// One line with a wrong field or two, or with one that is nearly wrong.
pub fn fields(draw: &mut Draw, most: u32) -> Vec<u8> {
    with_wrong_line(draw, most, wrong_field)
}

/// A line of two fields, one of which is wrong or nearly; now and then both are.
fn wrong_field(draw: &mut Draw) -> Vec<u8> {
    let wrong = [FIELDS, MORE_FIELDS].concat();
    let mut fields = ["1", draw.pick(&["1", "64"])];
    fields[draw.index(2)] = draw.pick(&wrong);
    if draw.one_in(5) {
        fields[draw.index(2)] = draw.pick(&wrong);
    }
    fields.join(",").into_bytes()
}

/// One line with another number of fields than two.
pub fn counts(draw: &mut Draw, most: u32) -> Vec<u8> {
    with_wrong_line(draw, most, wrong_count)
}

fn wrong_count(draw: &mut Draw) -> Vec<u8> {
    draw.pick(COUNTS).as_bytes().to_vec()
}

/// One line that is about as long as allowed, or far longer.
pub fn overlong(draw: &mut Draw, most: u32) -> Vec<u8> {
    with_wrong_line(draw, most, long_line)
}

/// A line that is about as long as allowed, or far longer. Every third time it has two
/// fields, each of zeros and a one.
fn long_line(draw: &mut Draw) -> Vec<u8> {
    if !draw.one_in(3) {
        return overlong_from(draw, BEGINNINGS);
    }
    let about = LONGEST_LINE as u32;
    let length = draw.between(about - 1, about + 1) as usize;
    let digits = draw.pick(&[1, 10, 11, 20]);
    let rest = length - digits - 1;
    format!("{:0digits$},{:0rest$}", 1, 1).into_bytes()
}

/// A line that breaks row 11, 13 or 14, or nearly; or several of them at once.
fn wrong_line(draw: &mut Draw) -> Vec<u8> {
    match draw.between(0, 2) {
        0 => long_line(draw),
        1 => wrong_count(draw),
        _ => wrong_field(draw),
    }
}

/// At most so many lines, two to five of which break a row, in any order: 11, 13 or 14,
/// or 19, and where there are more than 64, row 18 is broken too.
pub fn rows(draw: &mut Draw, most: u32) -> Vec<u8> {
    let mut windows = some_racks(draw, most);
    if draw.one_in(2) {
        set_outside(draw, &mut windows);
    }
    let mut lines = lines(draw, &windows);
    for _ in 0..draw.between(2, 5) {
        let place = draw.index(lines.len());
        lines[place] = match draw.one_in(4) {
            true => outside_line(draw),
            false => wrong_line(draw),
        };
    }
    input(draw, &lines)
}

/// A line that breaks row 19.
fn outside_line(draw: &mut Draw) -> Vec<u8> {
    let window = samples::outside(draw);
    lines(draw, &[window]).remove(0)
}

/// A list with one line damaged, now and then with three.
pub fn damaged(draw: &mut Draw, most: u32) -> Vec<u8> {
    let windows = some_racks(draw, most);
    let mut lines = lines(draw, &windows);
    for _ in 0..draw.pick(&[1, 1, 3]) {
        let place = draw.index(lines.len());
        for _ in 0..draw.pick(&[1, 1, 2]) {
            damage(draw, &mut lines[place]);
        }
    }
    input(draw, &lines)
}

/// A few bytes of a small alphabet; now and then none.
pub fn tiny(draw: &mut Draw, most: u32) -> Vec<u8> {
    let parts = [
        b"\n" as &[u8],
        b",",
        b"1",
        b"2",
        b"0",
        b"64",
        b"65",
        b"\r",
        b"1,1\n",
        b"1,1\n",
        b"1,2\n",
        b"1,2\n",
        b"2,2\n",
        b"2,3\n",
        b"1,3\n",
        b"3,3\n",
        b"\n1,3\n",
        b"2,1\n",
        b"1,64\n",
    ];
    let mut bytes = Vec::new();
    let most_parts = draw.pick(&[1, 4, most]);
    for _ in 0..draw.between(0, most_parts) {
        let part = draw.pick(&parts);
        if bytes.len() + part.len() <= most as usize {
            bytes.extend_from_slice(part);
        }
    }
    bytes
}
