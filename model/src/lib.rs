//! A plain reference model of the oven board.
//!
//! Everything here is lists, sorting and counting. Speed is nowhere the aim;
//! the aim is that each function can be read beside the paper's sentence.
//!
//! Names are the scheduling field's. A rack is a `Job`, its wait a laxity, its
//! last slot a deadline; a rack given up has expired.

pub mod board;
pub mod book;
pub mod calls;
pub mod cases;
pub mod day;
pub mod draw;
pub mod edges;
pub mod hindsight;
pub mod inputs;
pub mod limits;
pub mod lines;
pub mod list;
pub mod plans;
pub mod printing;
pub mod program;
pub mod promise;
pub mod refusal;
pub mod rows;
pub mod rule;
pub mod samples;
pub mod sheet;
pub mod shortfall;
pub mod soundness;
pub mod tally;
