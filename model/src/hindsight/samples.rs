//! Lists of racks to be seen in hindsight: of several shapes, and such as are refused.

use super::Window;
use crate::draw::Draw;
use crate::limits::{LAST_IN_HINDSIGHT, LONGEST_LAXITY, MOST_IN_HINDSIGHT};

/// A way to draw a list of so many racks.
pub type Shape = fn(&mut Draw, usize) -> Vec<Window>;

/// All shapes.
pub const SHAPES: [Shape; 8] = [
    any,
    tight,
    one_slot,
    wide,
    alike,
    nested,
    chained,
    as_on_a_day,
];

/// A list of so many racks, of any shape; now and then half of one shape, half of another.
pub fn windows(draw: &mut Draw, many: usize) -> Vec<Window> {
    let shape = draw.pick(&SHAPES);
    if !draw.one_in(3) {
        return shape(draw, many);
    }
    let other = draw.pick(&SHAPES);
    let both = [shape(draw, many / 2), other(draw, many - many / 2)].concat();
    shuffled(draw, both)
}

/// Any windows.
pub fn any(draw: &mut Draw, many: usize) -> Vec<Window> {
    early(draw, many, LAST_IN_HINDSIGHT)
}

/// Any windows within the first slots, so many of them.
pub fn early(draw: &mut Draw, many: usize, slots: u32) -> Vec<Window> {
    (0..many).map(|_| between(draw, 1, slots)).collect()
}

/// A window within these slots.
fn between(draw: &mut Draw, first: u32, last: u32) -> Window {
    let first = draw.between(first, last);
    let last = draw.between(first, last);
    Window { first, last }
}

/// Short windows, and about as many slots for them as racks, or fewer.
pub fn tight(draw: &mut Draw, many: usize) -> Vec<Window> {
    let racks = (many as u32).clamp(1, LAST_IN_HINDSIGHT);
    let slots = draw
        .pick(&[racks, racks, racks - racks / 4, racks / 2])
        .max(1);
    let before = draw.between(0, LAST_IN_HINDSIGHT - slots);
    let longest = draw.pick(&[2, 3, 5, 9]);
    let mut windows = Vec::new();
    for _ in 0..many {
        let first = draw.between(1, slots);
        let last = (first + draw.between(0, longest - 1)).min(slots);
        windows.push(Window {
            first: before + first,
            last: before + last,
        });
    }
    windows
}

/// Windows of one slot, of which there are many or few.
pub fn one_slot(draw: &mut Draw, many: usize) -> Vec<Window> {
    let last = draw.pick(&[2, 8, LAST_IN_HINDSIGHT, LAST_IN_HINDSIGHT]);
    let mut windows = Vec::new();
    for _ in 0..many {
        let slot = draw.between(1, last);
        windows.push(Window {
            first: slot,
            last: slot,
        });
    }
    windows
}

/// Windows of nearly the whole day, now and then one of few slots.
pub fn wide(draw: &mut Draw, many: usize) -> Vec<Window> {
    let mut windows = Vec::new();
    for _ in 0..many {
        let seldom = draw.one_in(5);
        windows.push(match seldom {
            true => any(draw, 1)[0],
            false => Window {
                first: draw.between(1, 6),
                last: draw.between(LAST_IN_HINDSIGHT - 5, LAST_IN_HINDSIGHT),
            },
        });
    }
    windows
}

/// The same window for all, or two windows.
pub fn alike(draw: &mut Draw, many: usize) -> Vec<Window> {
    let one = between(draw, 1, LAST_IN_HINDSIGHT);
    let other = between(draw, 1, LAST_IN_HINDSIGHT);
    let windows = draw.pick(&[[one, one], [one, other]]);
    (0..many).map(|_| draw.pick(&windows)).collect()
}

/// Windows each of which lies within the one before; the widest come first or last, or
/// they come in any order.
pub fn nested(draw: &mut Draw, many: usize) -> Vec<Window> {
    let whole = Window {
        first: draw.between(1, LAST_IN_HINDSIGHT / 2),
        last: draw.between(LAST_IN_HINDSIGHT / 2, LAST_IN_HINDSIGHT),
    };
    let mut window = whole;
    let mut windows = Vec::new();
    for _ in 0..many {
        windows.push(window);
        window.first += draw.between(0, 1);
        window.last -= draw.between(0, 1);
        if window.last < window.first {
            window = whole;
        }
    }
    match draw.between(0, 2) {
        0 => windows,
        1 => windows.into_iter().rev().collect(),
        _ => shuffled(draw, windows),
    }
}

/// Windows of two slots or three, each a slot after the one before, and at the end of the
/// list some of one slot. A rack that gets such a slot moves many of the others on, or
/// finds after many that none can move.
pub fn chained(draw: &mut Draw, many: usize) -> Vec<Window> {
    let single = draw.between(1, 3).min(many as u32);
    let chain = (many as u32 - single).min(LAST_IN_HINDSIGHT);
    let before = draw.between(0, LAST_IN_HINDSIGHT - chain);
    let more = draw.pick(&[1, 1, 2]);
    let mut windows = Vec::new();
    for slot in before + 1..=before + chain {
        windows.push(Window {
            first: slot,
            last: (slot + more).min(LAST_IN_HINDSIGHT),
        });
    }
    if draw.one_in(2) {
        windows.reverse();
    }
    while windows.len() < many {
        let slot = draw.pick(&[before + 1, before + chain / 2, before + chain]);
        let slot = slot.clamp(1, LAST_IN_HINDSIGHT);
        windows.push(Window {
            first: slot,
            last: slot,
        });
    }
    windows
}

/// Windows as racks have them on the board: no wait is longer than the longest.
pub fn as_on_a_day(draw: &mut Draw, many: usize) -> Vec<Window> {
    let slots = draw.pick(&[8, 24, LAST_IN_HINDSIGHT]);
    let mut windows = Vec::new();
    for _ in 0..many {
        let first = draw.between(1, slots);
        let last = first + draw.between(1, LONGEST_LAXITY) - 1;
        windows.push(Window {
            first,
            last: last.min(slots),
        });
    }
    windows
}

/// The racks in any order.
fn shuffled(draw: &mut Draw, mut windows: Vec<Window>) -> Vec<Window> {
    for place in (1..windows.len()).rev() {
        windows.swap(place, draw.index(place + 1));
    }
    windows
}

/// A list that is refused, with 18 or with 19; some break both rows.
pub fn refused(draw: &mut Draw) -> Vec<Window> {
    let most = MOST_IN_HINDSIGHT;
    let many = match draw.one_in(3) {
        true => draw.pick(&[most + 1, most + 1, most + 2, 2 * most, 10 * most]),
        false => draw.between(1, most as u32) as usize,
    };
    let mut windows = windows(draw, many);
    let wrong = draw.between(u32::from(many <= most), 3);
    for _ in 0..wrong {
        let place = draw.index(many);
        windows[place] = outside(draw);
    }
    windows
}

/// A window that breaks row 19: a slot outside the day, or a last slot before the first.
pub fn outside(draw: &mut Draw) -> Window {
    let end = LAST_IN_HINDSIGHT;
    let (slot, later) = (draw.between(1, end - 1), draw.between(end + 1, u32::MAX));
    let (first, last) = draw.pick(&[
        (0, slot),
        (0, 0),
        (0, end + 1),
        (slot, 0),
        (slot, end + 1),
        (end, end + 1),
        (end + 1, end + 1),
        (end + 1, slot),
        (slot, later),
        (later, u32::MAX),
        (later, slot),
        (slot + 1, slot),
        (end, slot),
        (end, 1),
        (u32::MAX, u32::MAX),
    ]);
    Window { first, last }
}
