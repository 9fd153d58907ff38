//! The numbers of the oven board, each written once.

/// Longest wait of a rack.
pub const LONGEST_LAXITY: u32 = 24;

/// Most racks admitted in one slot.
pub const MOST_PER_SLOT: usize = 8;

/// Most racks held, which is also the least length of a lent list.
pub const MOST_HELD: usize = 192;

/// Last slot of a book. A board that has closed it stands one further.
pub const LAST_SLOT: u32 = 1_000_000;

/// The highest value of one count of the tally.
pub const FULL_COUNT: u32 = 8_000_000;

/// Longest line in bytes, the end of line not counted.
pub const LONGEST_LINE: usize = 40;

/// Greatest depth of a board.
pub const DEEPEST: u32 = 3;

/// Number of grades at the greatest depth.
pub const MOST_GRADES: usize = 1 << DEEPEST;

/// Most digits of a field.
pub const MOST_DIGITS: usize = 10;

/// Slots on a page of the sheet.
pub const SLOTS_ON_PAGE: usize = 48;

/// Most racks given up that a line of the sheet takes.
pub const MOST_GIVEN_UP: u32 = 255;

/// Most racks of a day seen in hindsight, and the slot numbers of its answer.
pub const MOST_IN_HINDSIGHT: usize = 64;

/// Last slot of a day seen in hindsight.
pub const LAST_IN_HINDSIGHT: u32 = 64;
