//! Days of so many closings exactly, for the pages of the sheet.

use super::questions::with_questions;
use super::spoilt::{doubtful_withdrawing, refused_line, without_last_end, wrong_before_opening};
use super::writer::Writer;
use crate::draw::Draw;
use crate::limits::{DEEPEST, LONGEST_LAXITY, MOST_PER_SLOT};

/// Early slots of a crowd. After them all but one of the eight racks of each are still
/// there, at least one for each further slot up to the last one.
const EARLY: u32 = (LONGEST_LAXITY - 1) / (MOST_PER_SLOT as u32 - 1) + 1;

/// Slots of a crowd.
const CROWD: u32 = EARLY + LONGEST_LAXITY;

/// So many closings, refused lines, withdrawals and questions between them. Many slots
/// bake nothing, and where there is room one of them gives up a full board but one rack.
pub fn pages(draw: &mut Draw, closings: u32) -> Vec<u8> {
    let mut writer = Writer::new();
    for _ in 0..draw.between(0, 2) {
        let line = wrong_before_opening(draw, &mut writer);
        writer.line(&line);
    }
    writer.open(draw.between(0, DEEPEST));
    let crowded = closings >= CROWD;
    let calm = closings - if crowded { CROWD } else { 0 };
    let before = draw.between(0, calm);
    calm_slots(draw, &mut writer, before);
    if crowded {
        crowd(draw, &mut writer);
    }
    calm_slots(draw, &mut writer, calm - before);
    if draw.one_in(2) {
        // Racks that are left at the end.
        admit(draw, &mut writer, LONGEST_LAXITY);
        refused_lines(draw, &mut writer);
    }
    let bytes = with_questions(draw, &writer.bytes, 6);
    without_last_end(draw, bytes)
}

/// So many slots with few racks, none of which waits past the last of them.
fn calm_slots(draw: &mut Draw, writer: &mut Writer, slots: u32) {
    for left in (1..=slots).rev() {
        if draw.one_in(3) {
            let line = doubtful_withdrawing(draw, writer);
            writer.line(&line);
        }
        for _ in 0..draw.pick(&[0, 0, 0, 0, 1, 3]) {
            admit(draw, writer, left.min(LONGEST_LAXITY));
        }
        refused_lines(draw, writer);
        writer.close();
    }
}

/// Eight racks in every slot. Those of the early slots are of the best grade and
/// due first, so they are baked until the last slot, for which all others wait.
fn crowd(draw: &mut Draw, writer: &mut Writer) {
    for left in (1..=CROWD).rev() {
        for _ in 0..MOST_PER_SLOT {
            let any = writer.grade(draw);
            let grade = if left > LONGEST_LAXITY { Some(0) } else { any };
            writer.admit(draw, left.min(LONGEST_LAXITY), grade);
        }
        refused_lines(draw, writer);
        writer.close();
    }
}

/// A rack of any grade whose wait is at most this.
fn admit(draw: &mut Draw, writer: &mut Writer, longest: u32) {
    let (laxity, grade) = (draw.between(1, longest), writer.grade(draw));
    writer.admit(draw, laxity, grade);
}

/// No line, or a few, that are refused.
fn refused_lines(draw: &mut Draw, writer: &mut Writer) {
    for _ in 0..draw.pick(&[0, 0, 0, 1, 2]) {
        let line = refused_line(draw, writer);
        writer.line(&line);
    }
}
