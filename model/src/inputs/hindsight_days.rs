//! Days of the board to be seen in hindsight: of few slots and racks, and such as have
//! too many of them.

use super::questions::with_questions;
use super::spoilt::{refused_line, with_damage, without_last_end, wrong_before_opening};
use super::withdrawals::{with_refused_withdrawals, with_withdrawals};
use super::writer::{opened, Writer};
use super::Kind;
use crate::draw::Draw;
use crate::limits::{LONGEST_LAXITY, MOST_IN_HINDSIGHT};

/// The kinds of days.
pub const HINDSIGHT_DAYS: [Kind; 8] = [
    Kind {
        name: "hindsight-plain",
        about: "few racks, none withdrawn, and so many slots at most",
        size: 64,
        make: plain,
    },
    Kind {
        name: "hindsight-withdrawn",
        about: "few racks, many of them withdrawn, and so many slots at most",
        size: 64,
        make: withdrawn,
    },
    Kind {
        name: "hindsight-crowded",
        about: "more racks than slots, of which there are so many at most",
        size: 16,
        make: crowded,
    },
    Kind {
        name: "hindsight-bounds",
        about: "about as many racks as a list has, in so many slots or one more",
        size: 64,
        make: bounds,
    },
    Kind {
        name: "hindsight-too-many",
        about: "too many racks, size in slots at least",
        size: 12,
        make: too_many,
    },
    Kind {
        name: "hindsight-too-long",
        about: "too many slots, size in slots at least",
        size: 65,
        make: too_long,
    },
    Kind {
        name: "hindsight-none",
        about: "no board is opened, size in lines at most",
        size: 20,
        make: none,
    },
    Kind {
        name: "hindsight-damaged",
        about: "days with bytes changed, added and taken away",
        size: 30,
        make: damaged,
    },
];

/// The racks that come on a day.
#[derive(Clone, Copy)]
struct Racks {
    /// At most so many come before the last slot is closed.
    most: u32,
    /// In a slot one of these numbers comes.
    come: &'static [u32],
    /// Their longest wait.
    longest: u32,
}

/// Racks for which there is room for the most part.
fn few(draw: &mut Draw) -> Racks {
    const COME: [&[u32]; 3] = [&[0, 1], &[0, 0, 1, 3], &[0, 0, 0, 0, 5]];
    Racks {
        most: MOST_IN_HINDSIGHT as u32,
        come: draw.pick(&COME),
        longest: draw.pick(&[1, 3, 8, LONGEST_LAXITY]),
    }
}

/// A day of so many closed slots on which these racks come, with refused lines between,
/// and now and then some racks after the last closing.
fn day(draw: &mut Draw, slots: u32, racks: Racks) -> Vec<u8> {
    let mut writer = opened(draw);
    let mut left = racks.most;
    for _ in 0..slots {
        let come = draw.pick(racks.come).min(left);
        left -= come;
        admit(draw, &mut writer, come, racks.longest);
        if draw.one_in(9) {
            let line = refused_line(draw, &writer);
            writer.line(&line);
        }
        writer.close();
    }
    let late = draw.pick(&[0, 0, 1, 3]);
    admit(draw, &mut writer, late, racks.longest);
    writer.bytes
}

/// Admits so many racks.
fn admit(draw: &mut Draw, writer: &mut Writer, racks: u32, longest: u32) {
    for _ in 0..racks {
        let (laxity, grade) = (draw.between(1, longest), writer.grade(draw));
        writer.admit(draw, laxity, grade);
    }
}

/// Few racks, and at most so many slots.
pub fn plain(draw: &mut Draw, most: u32) -> Vec<u8> {
    let (slots, racks) = (draw.between(0, most), few(draw));
    let bytes = day(draw, slots, racks);
    let bytes = with_questions(draw, &bytes, 9);
    without_last_end(draw, bytes)
}

/// `plain` with withdrawals, some of them refused.
pub fn withdrawn(draw: &mut Draw, most: u32) -> Vec<u8> {
    let (slots, racks) = (draw.between(0, most), few(draw));
    let longer = Racks {
        longest: racks.longest.max(3),
        ..racks
    };
    let bytes = day(draw, slots, longer);
    let bytes = with_refused_withdrawals(draw, &bytes, 4);
    with_questions(draw, &bytes, 9)
}

/// More racks than can be baked, in at most so many slots.
pub fn crowded(draw: &mut Draw, most: u32) -> Vec<u8> {
    const COME: [&[u32]; 3] = [&[1, 2, 3], &[0, 0, 8], &[3, 4, 5]];
    let slots = draw.between(most.min(1), most);
    let racks = Racks {
        most: MOST_IN_HINDSIGHT as u32,
        come: draw.pick(&COME),
        longest: draw.pick(&[2, 3, 5, 9]),
    };
    let bytes = day(draw, slots, racks);
    if draw.one_in(2) {
        return bytes;
    }
    with_withdrawals(draw, &bytes, 6)
}

/// About as many racks as a list has, now and then a few too many; and so many closed
/// slots, a few fewer, or one more.
pub fn bounds(draw: &mut Draw, slots: u32) -> Vec<u8> {
    const COME: [&[u32]; 3] = [&[1], &[0, 2, 2], &[0, 0, 8]];
    let slots = draw.pick(&[slots, slots, slots.saturating_sub(3), slots + 1]);
    let most = MOST_IN_HINDSIGHT as u32;
    let racks = Racks {
        most: draw.pick(&[most - 1, most, most, most + 1]),
        come: draw.pick(&COME),
        longest: draw.pick(&[2, 8, LONGEST_LAXITY]),
    };
    let bytes = day(draw, slots, racks);
    if draw.one_in(2) {
        return bytes;
    }
    with_withdrawals(draw, &bytes, 9)
}

/// More racks than a list can have. Where there are more than 64 slots too, some of the
/// racks have a last slot after the 64th.
pub fn too_many(draw: &mut Draw, least: u32) -> Vec<u8> {
    const COME: [&[u32]; 3] = [&[6, 7, 8], &[8], &[5, 8, 8]];
    let slots = least + draw.pick(&[0, 0, 4, 60]);
    let racks = Racks {
        most: draw.pick(&[65, 65, 66, 70, 1_000]),
        come: draw.pick(&COME),
        longest: draw.pick(&[2, 9, LONGEST_LAXITY]),
    };
    let bytes = day(draw, slots, racks);
    with_withdrawals(draw, &bytes, 9)
}

/// More slots than a list can have, and few racks; most days have some at the end.
pub fn too_long(draw: &mut Draw, least: u32) -> Vec<u8> {
    const COME: [&[u32]; 2] = [&[0, 0, 0, 1], &[0, 0, 0, 0, 0, 0, 0, 0, 0, 2]];
    let slots = least + draw.pick(&[0, 0, 1, 9, 60]);
    let racks = Racks {
        come: draw.pick(&COME),
        ..few(draw)
    };
    let bytes = day(draw, slots, racks);
    if draw.one_in(2) {
        return bytes;
    }
    with_withdrawals(draw, &bytes, 5)
}

/// Lines that are all refused, as none opens a board; now and then no line.
pub fn none(draw: &mut Draw, most: u32) -> Vec<u8> {
    let mut writer = Writer::new();
    for _ in 0..draw.between(0, most) {
        let line = wrong_before_opening(draw, &mut writer);
        writer.line(&line);
    }
    without_last_end(draw, writer.bytes)
}

/// A day with about every sixth line damaged, its first one seldom.
pub fn damaged(draw: &mut Draw, slots: u32) -> Vec<u8> {
    let day = withdrawn(draw, slots);
    with_damage(draw, &day, 20, 6)
}
