//! The sheet for the oven door: a page of closings, and its text.

use crate::board::Closed;
use crate::calls;
use crate::refusal::HandOverRefusal;
use crate::Slot;

/// A closing as the sheet has it.
#[repr(C)]
#[derive(Clone, Copy, Debug, Default, PartialEq, Eq)]
pub struct Figures {
    /// The slot that was closed.
    pub slot: Slot,
    /// The ticket of the rack baked; 0 for none.
    pub ticket: u32,
    /// Its grade.
    pub grade: u32,
    /// How many racks were given up.
    pub given_up: u32,
}

impl Figures {
    /// Those of a closing that ended this slot.
    pub fn of(slot: Slot, closed: Closed) -> Figures {
        let (ticket, grade) = closed
            .baked
            .map_or((0, 0), |baked| (baked.ticket, baked.grade));
        Figures {
            slot,
            ticket,
            grade: u32::from(grade),
            given_up: closed.given_up as u32,
        }
    }
}

/// A page of the sheet. Its closings stand in the first `count` places.
///
/// ```
/// use oven::{Board, Entry, Figures, Page, Wait};
///
/// let mut board = Board::open(1)?;
/// board.admit(7, Wait(1), 1)?;
/// board.admit(8, Wait(1), 0)?;
/// let mut page = Page::new();
/// for _ in 0..2 {
///     let slot = board.slot;
///     let closed = board.close(&mut [Entry::default(); Board::PLACES])?;
///     page.hand_over(Figures::of(slot, closed))?;
/// }
/// let text = String::from_utf8(page.print().to_vec())?;
/// let lines: Vec<&str> = text.lines().collect();
/// assert_eq!(lines[0], "   SLOT     TICKET G OUT");
/// assert_eq!(lines[1], "      1          8 0   1");
/// assert_eq!(lines[2], "      2          0 0   0");
/// assert_eq!(lines[49], "                 1     1");
/// # Ok::<(), Box<dyn std::error::Error>>(())
/// ```
#[repr(C)]
#[derive(Clone, Copy, Debug, PartialEq, Eq)]
pub struct Page {
    /// How many closings are on it; a count above 48 says that all places have one.
    pub count: usize,
    /// The closings, and then places of which nothing is printed.
    pub closings: [Figures; Page::SLOTS],
}

impl Page {
    /// Slots on a page.
    pub const SLOTS: usize = 48;
    /// Bytes of its text: 50 lines of 24 and a line end each.
    pub const LENGTH: usize = 1250;

    /// A page without closings.
    pub fn new() -> Page {
        calls::page_new()
    }

    /// Hands a closing to the page. A full page takes no more: the closing begins the next page and is alone on it, so a page is
    /// printed once it is full. A refusal leaves the page as it was.
    pub fn hand_over(&mut self, closing: Figures) -> Result<(), HandOverRefusal> {
        let answer = calls::page_hand_over(*self, closing);
        *self = answer.page;
        HandOverRefusal::from_number(answer.refusal)
    }

    /// Whether the page is full.
    pub fn is_full(&self) -> bool {
        calls::page_full(*self)
    }

    /// The page's text, full or not.
    pub fn print(&self) -> [u8; Page::LENGTH] {
        let mut text = [0; Page::LENGTH];
        calls::page_print(*self, &mut text);
        text
    }
}

impl Default for Page {
    fn default() -> Page {
        Page::new()
    }
}
