//! The best day in hindsight: 'what full knowledge would have given' (02, Ten).
//!
//! 'The plan must bake, for every m at once, as many of the first m racks as any plan
//! can.' The racks are chosen from the best one on, each if it can be baked beside those
//! chosen before it, and whether racks can be baked together is found by counting. They
//! get their slots when all are chosen, so no rack that has a slot is asked to move.

pub mod day;
pub mod plans;
pub mod program;
pub mod samples;

use crate::limits::{LAST_IN_HINDSIGHT, MOST_IN_HINDSIGHT};
use crate::refusal::Refusal;

/// The slots in which a rack can be baked, both included.
#[derive(Clone, Copy, Debug, Default, PartialEq, Eq)]
pub struct Window {
    pub first: u32,
    pub last: u32,
}

impl Window {
    /// Whether the first slot and the last are these or lie between them.
    fn is_within(&self, first: u32, last: u32) -> bool {
        first <= self.first && self.last <= last
    }
}

/// A refusal, and the place in the list, from 0, of the rack that it is given for.
#[derive(Clone, Copy, Debug, PartialEq, Eq)]
pub struct Refused {
    pub refusal: Refusal,
    pub place: usize,
}

/// The call: the number of the refusal, 0 for none, and '64 slot numbers in list order, 0
/// past the last rack and all 0 when refused'.
pub fn call(windows: &[Window]) -> (u8, [u32; MOST_IN_HINDSIGHT]) {
    let mut answer = [0; MOST_IN_HINDSIGHT];
    match plan(windows) {
        Ok(slots) => {
            answer[..slots.len()].copy_from_slice(&slots);
            (0, answer)
        }
        Err(refused) => (refused.refusal.number() as u8, answer),
    }
}

/// The plan for these racks, best first: one slot number for each; 'a rack left out has
/// slot 0'.
pub fn plan(windows: &[Window]) -> Result<Vec<u32>, Refused> {
    check(windows)?;
    Ok(laid_out(windows, &chosen(windows)))
}

/// Row 18, which is given for the first rack too many, and then row 19, which is given
/// for the first rack that breaks it.
pub fn check(windows: &[Window]) -> Result<(), Refused> {
    if windows.len() > MOST_IN_HINDSIGHT {
        return Err(Refused {
            refusal: Refusal::TooMany,
            place: MOST_IN_HINDSIGHT,
        });
    }
    match windows.iter().position(breaks_row_19) {
        None => Ok(()),
        Some(place) => Err(Refused {
            refusal: Refusal::Window,
            place,
        }),
    }
}

/// Row 19: 'a slot outside 1 to 64 or a last slot before the first'.
fn breaks_row_19(window: &Window) -> bool {
    let slots = 1..=LAST_IN_HINDSIGHT;
    let outside = !slots.contains(&window.first) || !slots.contains(&window.last);
    outside || window.last < window.first
}

/// The places of the racks that are baked, in list order: from the best on, each rack
/// that can be baked beside those chosen before it.
///
/// No plan bakes more of the first m. If one did, some plan would bake all the racks
/// chosen of them and one of its own besides; but that one was tried, and could not be
/// baked beside fewer of them.
pub fn chosen(windows: &[Window]) -> Vec<usize> {
    let mut places: Vec<usize> = Vec::new();
    for place in 0..windows.len() {
        places.push(place);
        let tried: Vec<Window> = places.iter().map(|&place| windows[place]).collect();
        if !can_all_be_baked(&tried) {
            places.pop();
        }
    }
    places
}

/// Whether some plan bakes all of these racks. One does, unless from some slot to some
/// other there are fewer slots than racks whose windows lie within them.
pub fn can_all_be_baked(windows: &[Window]) -> bool {
    for first in 1..=LAST_IN_HINDSIGHT {
        for last in first..=LAST_IN_HINDSIGHT {
            let within = windows.iter().filter(|rack| rack.is_within(first, last));
            let slots = last - first + 1;
            if within.count() > slots as usize {
                return false;
            }
        }
    }
    true
}

/// The chosen racks 'laid out slot by slot: of those whose first slot has come, least
/// last slot first, then earlier in the list'. The answer has a slot number for each rack
/// of the list. The racks must be such as some plan bakes.
fn laid_out(windows: &[Window], chosen: &[usize]) -> Vec<u32> {
    let mut slots = vec![0; windows.len()];
    let mut waiting = chosen.to_vec();
    for slot in 1..=LAST_IN_HINDSIGHT {
        let come = waiting
            .iter()
            .filter(|&&place| windows[place].first <= slot);
        let next = come.min_by_key(|&&place| (windows[place].last, place));
        if let Some(&next) = next {
            slots[next] = slot;
            waiting.retain(|&place| place != next);
        }
    }
    slots
}
