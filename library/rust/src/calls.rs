//! The library's calls with their answers as they come: the number of a refusal, or 0, and the board, tally or page that came back.

use crate::{Board, Page, Racks, Slot, Tally, Wait};

pub use crate::declared::best_day;
pub use crate::declared::{admit, close, close_into, open, promise, sound, withdraw};
pub use crate::declared::{count, note, zero};
pub use crate::declared::{page_full, page_hand_over, page_new, page_print};

/// What opening answers.
#[repr(C)]
#[derive(Clone, Copy, Debug, PartialEq, Eq)]
pub struct OpenAnswer {
    /// The number of a refusal, or 0.
    pub refusal: u8,
    /// The board; all zero after a refusal.
    pub board: Board,
}

/// What admitting answers.
#[repr(C)]
#[derive(Clone, Copy, Debug, PartialEq, Eq)]
pub struct AdmitAnswer {
    /// The number of a refusal, or 0.
    pub refusal: u8,
    /// The rack's last slot; 0 after a refusal.
    pub last: Slot,
    /// The board that came back.
    pub board: Board,
}

/// What closing answers.
#[repr(C)]
#[derive(Clone, Copy, Debug, PartialEq, Eq)]
pub struct CloseAnswer {
    /// The number of a refusal, or 0.
    pub refusal: u8,
    /// The rack baked; 0 for none.
    pub ticket: u32,
    /// Its grade.
    pub grade: u8,
    /// How many racks are given up.
    pub given_up: u32,
    /// Of the racks before the bake, the fewest that any plan gives up if nothing more arrives.
    pub shortfall: u32,
    /// The board that came back.
    pub board: Board,
}

/// What promising answers.
#[repr(C)]
#[derive(Clone, Copy, Debug, PartialEq, Eq)]
pub struct PromiseAnswer {
    /// The number of a refusal, or 0.
    pub refusal: u8,
    /// The least wait that can be promised; 0 for none, and after a refusal.
    pub wait: Wait,
}

/// What withdrawing answers.
#[repr(C)]
#[derive(Clone, Copy, Debug, PartialEq, Eq)]
pub struct WithdrawAnswer {
    /// The number of a refusal, or 0.
    pub refusal: u8,
    /// The grade of the rack taken off; 0 after a refusal.
    pub grade: u8,
    /// The board that came back.
    pub board: Board,
}

/// What a tally answers to an event.
#[repr(C)]
#[derive(Clone, Copy, Debug, PartialEq, Eq)]
pub struct CountAnswer {
    /// The number of a refusal, or 0.
    pub refusal: u8,
    /// The tally that came back.
    pub tally: Tally,
}

/// What a page answers to a closing.
#[repr(C)]
#[derive(Clone, Copy, Debug, PartialEq, Eq)]
pub struct HandOverAnswer {
    /// The number of a refusal, or 0.
    pub refusal: u8,
    /// The page that came back.
    pub page: Page,
}

/// What the best day in hindsight answers.
#[repr(C)]
#[derive(Clone, Copy, Debug, PartialEq, Eq)]
pub struct BestDayAnswer {
    /// The number of a refusal, or 0.
    pub refusal: u8,
    /// The slot of each rack in the list's order; 0 for a rack left out, past the last one, and after a refusal.
    pub slots: [u32; Racks::MOST],
}
