//! Days on which it is often asked what can still be promised, with answers of all sorts.

use super::full::Hovering;
use crate::draw::Draw;
use crate::limits::{LONGEST_LAXITY, MOST_PER_SLOT};

/// Some slots in which alike racks come.
struct Turn {
    slots: u32,
    /// Racks that come in a slot, as far as they are let in.
    racks: u32,
    /// Their longest wait, which most of them have.
    longest: u32,
    /// They are let in as long as no more are lost than so many.
    lost: u32,
}

impl Turn {
    /// A turn with which a day can begin: racks fill the board up to a wait, often the
    /// longest, or more of them come than can be baked.
    fn first(draw: &mut Draw) -> Turn {
        let few = draw.between(1, MOST_PER_SLOT as u32);
        let any = draw.between(1, LONGEST_LAXITY);
        let filling = Turn {
            slots: draw.between(1, 7),
            racks: MOST_PER_SLOT as u32,
            longest: draw.pick(&[few, any, any, LONGEST_LAXITY]),
            lost: 0,
        };
        if !draw.one_in(5) {
            return filling;
        }
        Turn {
            slots: draw.between(1, 3),
            lost: draw.between(1, 4),
            ..filling
        }
    }

    /// Any turn: as the first; with a rack or two in a slot; or with none, so that the
    /// board runs empty.
    fn any(draw: &mut Draw) -> Turn {
        let turn = Turn::first(draw);
        match draw.between(0, 5) {
            0..=2 => turn,
            3 => Turn {
                slots: draw.between(1, 12),
                racks: draw.between(1, 2),
                ..turn
            },
            _ => Turn {
                slots: draw.pick(&[1, 4, 12, LONGEST_LAXITY]),
                racks: 0,
                ..turn
            },
        }
    }
}

/// Turns of some slots, with questions after many of the lines.
pub fn promise(draw: &mut Draw, slots: u32) -> Vec<u8> {
    let mut day = Hovering::opened(draw);
    ask(draw, &mut day);
    let mut turn = Turn::first(draw);
    for _ in 0..slots {
        if turn.slots == 0 {
            turn = Turn::any(draw);
        }
        turn.slots -= 1;
        one_slot(draw, &mut day, &turn);
    }
    day.writer.bytes
}

/// The lines of a slot.
fn one_slot(draw: &mut Draw, day: &mut Hovering, turn: &Turn) {
    for _ in 0..turn.racks {
        let any = draw.between(1, turn.longest);
        let laxity = if draw.one_in(4) { any } else { turn.longest };
        day.admit_up_to(draw, laxity, (0, turn.lost));
        ask(draw, day);
    }
    if draw.one_in(4) {
        day.withdraw(draw);
        ask(draw, day);
    }
    day.close();
    ask(draw, day);
}

/// A question every second time.
fn ask(draw: &mut Draw, day: &mut Hovering) {
    if draw.one_in(2) {
        day.writer.ask();
    }
}
