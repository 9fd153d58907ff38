//! Lists of racks for the program `hindsight`, one line a rack, best first.

use super::spoilt::without_last_end;
use super::spoilt_lists;
use super::writer::{zeros, Writer};
use super::Kind;
use crate::draw::Draw;
use crate::hindsight::samples::{self, Shape};
use crate::hindsight::Window;

/// The kinds of lists.
pub const LISTS: [Kind; 17] = [
    Kind {
        name: "list-few",
        about: "so many racks at most, often for as many slots",
        size: 6,
        make: |draw, most| up_to(draw, most, few),
    },
    Kind {
        name: "list-many",
        about: "so many racks or up to four fewer, of any windows",
        size: 64,
        make: many,
    },
    Kind {
        name: "list-exact",
        about: "so many racks exactly, of any windows",
        size: 64,
        make: |draw, racks| exactly(draw, racks, samples::windows),
    },
    Kind {
        name: "list-tight",
        about: "so many racks exactly, for about as many slots or fewer",
        size: 64,
        make: |draw, racks| exactly(draw, racks, samples::tight),
    },
    Kind {
        name: "list-one-slot",
        about: "racks with one slot each",
        size: 64,
        make: |draw, most| up_to(draw, most, samples::one_slot),
    },
    Kind {
        name: "list-wide",
        about: "racks that can be baked on nearly the whole day",
        size: 64,
        make: |draw, most| up_to(draw, most, samples::wide),
    },
    Kind {
        name: "list-alike",
        about: "racks with one window or two",
        size: 64,
        make: |draw, most| up_to(draw, most, samples::alike),
    },
    Kind {
        name: "list-nested",
        about: "windows each within the one before",
        size: 64,
        make: |draw, most| up_to(draw, most, samples::nested),
    },
    Kind {
        name: "list-chained",
        about: "windows that overlap the next, so that one rack moves many on",
        size: 64,
        make: |draw, racks| exactly(draw, racks, samples::chained),
    },
    Kind {
        name: "list-too-many",
        about: "so many racks or more, some with wrong slots or a wrong line",
        size: 65,
        make: spoilt_lists::too_many,
    },
    Kind {
        name: "list-outside",
        about: "slots outside 1 to 64, last slots before the first, and the bounds",
        size: 64,
        make: spoilt_lists::outside,
    },
    Kind {
        name: "list-fields",
        about: "one line with a field that is no number, or nearly none",
        size: 20,
        make: spoilt_lists::fields,
    },
    Kind {
        name: "list-counts",
        about: "one line with one field, or with three and more",
        size: 20,
        make: spoilt_lists::counts,
    },
    Kind {
        name: "list-rows",
        about: "several lines that each break a row, in any order",
        size: 70,
        make: spoilt_lists::rows,
    },
    Kind {
        name: "list-damaged",
        about: "lists with bytes changed, added and taken away",
        size: 20,
        make: spoilt_lists::damaged,
    },
    Kind {
        name: "list-overlong",
        about: "a line of 39 to 45 bytes, or of thousands",
        size: 20,
        make: spoilt_lists::overlong,
    },
    Kind {
        name: "list-tiny",
        about: "a few bytes of a small alphabet, size in bytes at most",
        size: 20,
        make: spoilt_lists::tiny,
    },
];

/// The lines of a list, each without its end; numbers now and then have leading zeros.
pub fn lines(draw: &mut Draw, windows: &[Window]) -> Vec<Vec<u8>> {
    let mut lines = Vec::new();
    for window in windows {
        let (first, last) = (zeros(draw, window.first), zeros(draw, window.last));
        lines.push(format!("{first},{last}").into_bytes());
    }
    lines
}

/// The lines one after the other; half of the time the last one has no end.
pub fn input(draw: &mut Draw, lines: &[Vec<u8>]) -> Vec<u8> {
    let mut writer = Writer::new();
    for line in lines {
        writer.line(line);
    }
    without_last_end(draw, writer.bytes)
}

/// So many racks of a shape.
fn exactly(draw: &mut Draw, racks: u32, shape: Shape) -> Vec<u8> {
    let windows = shape(draw, racks as usize);
    let lines = lines(draw, &windows);
    input(draw, &lines)
}

/// At most so many racks of a shape.
fn up_to(draw: &mut Draw, most: u32, shape: Shape) -> Vec<u8> {
    let racks = draw.between(0, most);
    exactly(draw, racks, shape)
}

/// Racks of any windows, of short ones, or of any within the first slots, one for each
/// rack.
fn few(draw: &mut Draw, racks: usize) -> Vec<Window> {
    match draw.between(0, 2) {
        0 => samples::windows(draw, racks),
        1 => samples::tight(draw, racks),
        _ => samples::early(draw, racks, racks as u32),
    }
}

/// So many racks or up to four fewer.
fn many(draw: &mut Draw, most: u32) -> Vec<u8> {
    let racks = draw.between(most.saturating_sub(4), most);
    exactly(draw, racks, samples::windows)
}
