//! The best day in hindsight: which racks full knowledge would have baked, and when. It stands apart from the board.

use crate::calls;
use crate::refusal::BestDayRefusal;
use crate::Slot;

/// The slots in which a rack can be baked, from the first to the last.
#[repr(C)]
#[derive(Clone, Copy, Debug, Default, PartialEq, Eq)]
pub struct Window {
    /// The first slot in which it can be baked.
    pub first: Slot,
    /// The last one.
    pub last: Slot,
}

/// A list of racks, best first, in the first `count` places.
#[repr(C)]
#[derive(Clone, Copy, Debug, PartialEq, Eq)]
pub struct Racks {
    /// How many racks it has; more than [`Racks::MOST`] are refused.
    pub count: usize,
    /// The racks' windows. What stands past the count is not looked at.
    pub windows: [Window; Racks::MOST],
}

impl Racks {
    /// Most racks of a list.
    pub const MOST: usize = 64;
    /// The slots are 1 to this number.
    pub const SLOTS: usize = 64;

    /// The racks with these windows.
    pub fn of(windows: &[Window]) -> Racks {
        let mut racks = Racks {
            count: windows.len(),
            windows: [Window::default(); Racks::MOST],
        };
        for (place, window) in racks.windows.iter_mut().zip(windows) {
            *place = *window;
        }
        racks
    }
}

/// The slot of each rack, or none for a rack left out: for every m at once as many of the first m racks are baked as any plan can bake.
///
/// ```
/// use oven::{best_day, Slot, Window};
///
/// let racks = [(1, 2), (1, 1), (2, 2), (1, 3)];
/// let windows = racks.map(|(first, last)| Window { first: Slot(first), last: Slot(last) });
/// assert_eq!(best_day(&windows)?, [Some(Slot(2)), Some(Slot(1)), None, Some(Slot(3))]);
/// # Ok::<(), oven::BestDayRefusal>(())
/// ```
pub fn best_day(windows: &[Window]) -> Result<Vec<Option<Slot>>, BestDayRefusal> {
    let answer = calls::best_day(Racks::of(windows));
    BestDayRefusal::from_number(answer.refusal).map(|()| {
        let slots = answer.slots.iter().take(windows.len());
        slots.map(|&slot| (slot != 0).then_some(Slot(slot))).collect()
    })
}
