//! Days of depth 0 with eight racks in every slot, tickets from 1 in that order.

use model::limits::{LONGEST_LAXITY, MOST_PER_SLOT};

/// The racks that come in a slot.
pub const EIGHT: u32 = MOST_PER_SLOT as u32;

/// The first slot with more racks than can be baked, where all have the longest wait. Each
/// slot bakes one of its eight, so in slot k there are 7k + 1.
pub const FIRST_OVERFULL: u32 = (LONGEST_LAXITY - 1) / (EIGHT - 1) + 1;

/// Racks for which there is room in that slot, beside those of the slots before it.
pub const ROOM_THERE: u32 = LONGEST_LAXITY - (EIGHT - 1) * (FIRST_OVERFULL - 1);

/// The lines of so many slots, each of them closed; `wait` tells the wait of a slot's racks.
fn eight_a_slot<W: Fn(u32) -> u32>(slots: u32, wait: W) -> String {
    let mut input = "D,0\n".to_string();
    for slot in 1..=slots {
        input += &admittings((slot - 1) * EIGHT, EIGHT, wait(slot));
        input += "B\n";
    }
    input
}

/// The lines that admit so many racks of this wait after this ticket.
fn admittings(ticket: u32, many: u32, wait: u32) -> String {
    let tickets = ticket + 1..=ticket + many;
    tickets
        .map(|ticket| format!("A,{ticket},{wait},0\n"))
        .collect()
}

/// So many slots whose racks have the longest wait.
pub fn of_longest_waits(slots: u32) -> String {
    eight_a_slot(slots, |_| LONGEST_LAXITY)
}

/// The slots before the first overfull one, all racks having the longest wait, and then so
/// many racks in that slot, which is not closed.
pub fn up_to_first_overfull(more: u32) -> String {
    let before = FIRST_OVERFULL - 1;
    of_longest_waits(before) + &admittings(before * EIGHT, more, LONGEST_LAXITY)
}

/// So many slots whose racks have the longest wait, then as many as that wait has slots,
/// whose racks all have the day's last slot as theirs.
pub fn of_one_last_slot(before: u32) -> String {
    let last = before + LONGEST_LAXITY;
    eight_a_slot(last, |slot| (last + 1 - slot).min(LONGEST_LAXITY))
}
