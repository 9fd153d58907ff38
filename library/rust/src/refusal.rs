//! Why a call refused: an enum for each call, with the numbers of the board's paper and, but for its limits, its words.

use std::error::Error;
use std::fmt;

/// An enum of refusals: each case with its number and its words.
macro_rules! refusals {
    ($(#[$meta:meta])* $name:ident: $($case:ident = $number:literal, $words:literal;)*) => {
        $(#[$meta])*
        #[derive(Clone, Copy, Debug, PartialEq, Eq, Hash)]
        pub enum $name {
            $(#[doc = $words] $case = $number,)*
        }

        impl $name {
            /// The refusal's number.
            pub fn number(self) -> u8 {
                self as u8
            }

            /// What the number of an answer says: 0 is no refusal.
            pub(crate) fn from_number(number: u8) -> Result<(), $name> {
                match number {
                    0 => Ok(()),
                    $($number => Err($name::$case),)*
                    _ => unreachable!("the call never gives {number}"),
                }
            }
        }

        impl fmt::Display for $name {
            fn fmt(&self, f: &mut fmt::Formatter) -> fmt::Result {
                match self {
                    $($name::$case => f.write_str($words),)*
                }
            }
        }

        impl Error for $name {}
    };
}

refusals! {
    /// Why opening refused.
    OpenRefusal:
    Depth = 1, "depth above 3";
}

refusals! {
    /// Why admitting refused.
    AdmitRefusal:
    Unsound = 2, "board not sound";
    BookEnded = 3, "slot is 1,000,001";
    Ticket = 4, "ticket not above the highest so far";
    Wait = 5, "wait is 0, or above the longest";
    Grade = 6, "grade not below 2^D";
    SlotFull = 7, "eight racks on the board were admitted in this slot";
}

refusals! {
    /// Why closing refused.
    CloseRefusal:
    Unsound = 2, "board not sound";
    BookEnded = 3, "slot is 1,000,001";
    ListShort = 8, "lent list has fewer entries than a board has places";
}

refusals! {
    /// Why promising refused.
    PromiseRefusal:
    Unsound = 2, "board not sound";
    BookEnded = 3, "slot is 1,000,001";
}

refusals! {
    /// Why withdrawing refused.
    WithdrawRefusal:
    Unsound = 2, "board not sound";
    BookEnded = 3, "slot is 1,000,001";
    NotWaiting = 17, "ticket not on the board, or admitted in this slot";
}

refusals! {
    /// Why a tally refused an event.
    CountRefusal:
    NoSuchCount = 9, "kind above 3 or grade above 7";
    CountFull = 10, "that count is already 8,000,000";
}

refusals! {
    /// Why a page refused a closing.
    HandOverRefusal:
    OffSheet = 16, "slot above 1,000,000, grade above 7 or more than 255 given up";
}

refusals! {
    /// Why the best day in hindsight was refused.
    BestDayRefusal:
    TooMany = 18, "more than 64 racks";
    Window = 19, "a slot outside 1 to 64, or a last slot before the first";
}
