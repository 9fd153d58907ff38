//! The oven board: which rack to bake in each slot, by calls that are proved.
//!
//! An oven bakes one rack in each slot. A rack comes with a ticket, a [`Wait`] and a grade, 0 the best. At the close of a slot the
//! [`Board`] names the rack to bake and the racks to give up, and a [`Tally`] counts what became of them. A [`Page`] has the closed
//! slots as the sheet for the oven door shows them.
//!
//! ```
//! use oven::{Baked, Board, Entry, Kind, Slot, Tally, Wait};
//!
//! let mut board = Board::open(1)?;
//! let mut tally = Tally::new();
//! for (ticket, wait, grade) in [(1, 1, 1), (2, 2, 1), (3, 2, 0)] {
//!     board.admit(ticket, Wait(wait), grade)?;
//!     tally.count(Kind::Admitted, grade)?;
//! }
//! assert_eq!(board.promise()?, None);
//! let mut list = [Entry::default(); Board::PLACES];
//! let closed = board.close(&mut list)?;
//! assert_eq!(closed.baked, Some(Baked { ticket: 3, grade: 0 }));
//! assert_eq!(list[..closed.given_up], [Entry { ticket: 1, grade: 1, admitted: Slot(1) }]);
//! assert_eq!(closed.shortfall, 1);
//! tally.count(Kind::Baked, 0)?;
//! tally.count(Kind::GivenUp, 1)?;
//! assert_eq!(board.promise()?, Some(Wait(2)));
//! assert_eq!(board.withdraw(2)?, 1);
//! tally.count(Kind::Withdrawn, 1)?;
//! assert_eq!(board.promise()?, Some(Wait(1)));
//! # Ok::<(), Box<dyn std::error::Error>>(())
//! ```
//!
//! The functions of [`calls`] hand on the library's answers as they are.
#![deny(unsafe_code, unsafe_op_in_unsafe_fn)]
#![warn(missing_docs)]

mod board;
pub mod calls;
mod declared;
mod hindsight;
mod refusal;
mod sheet;
mod tally;

pub use board::{Baked, Board, Closed, Entry, Place, Slot, Wait};
pub use hindsight::{best_day, Racks, Window};
pub use refusal::{
    AdmitRefusal, BestDayRefusal, CloseRefusal, CountRefusal, HandOverRefusal, OpenRefusal,
    PromiseRefusal, WithdrawRefusal,
};
pub use sheet::{Figures, Page};
pub use tally::{Kind, Tally};
