//! The refusals and their numbers.

/// Why a call, a line or a closing for the sheet was refused; the value is the paper's number.
#[derive(Clone, Copy, Debug, PartialEq, Eq, PartialOrd, Ord)]
pub enum Refusal {
    /// Opening: depth above 3.
    Depth = 1,
    /// The board is not sound.
    Unsound = 2,
    /// The slot is 1,000,001.
    BookEnded = 3,
    /// The ticket is not above the highest so far.
    Ticket = 4,
    /// The wait is 0 or longer than the longest one.
    Laxity = 5,
    /// The grade is not below 2^D.
    Grade = 6,
    /// Eight racks were admitted in this slot already.
    SlotFull = 7,
    /// The lent list has fewer entries than a board has places.
    ListShort = 8,
    /// Tally: kind above 3 or grade above 7.
    NoSuchCount = 9,
    /// Tally: that count is already 8,000,000.
    CountFull = 10,
    /// Line: more than 40 bytes.
    LineLong = 11,
    /// Line: the first field is no known letter.
    Letter = 12,
    /// Line: the wrong number of fields for its letter.
    FieldCount = 13,
    /// Line: a field after the first is not a number.
    Field = 14,
    /// Line: D while a board is open, A, B, Q or W while none is.
    NotNow = 15,
    /// Sheet: a slot above 1,000,000, a grade above 7 or more than 255 given up.
    OffSheet = 16,
    /// Withdrawing: the ticket is not on the board or was admitted in this slot.
    NotWaiting = 17,
    /// Hindsight: more than 64 racks.
    TooMany = 18,
    /// Hindsight: a slot outside 1 to 64 or a last slot before the first.
    Window = 19,
}

impl Refusal {
    /// The number that is printed.
    pub fn number(self) -> u32 {
        self as u32
    }
}
