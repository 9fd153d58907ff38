//! Two boards written for speed, to compare with: one sorts the racks by last slot at every level of the search, one counts them and sorts nothing.
//! Both stand in the same program; soundness is not checked.

pub mod board;
pub mod counter;
pub mod day;
mod digits;
mod input;
mod output;
pub mod program;
mod request;
pub mod single;
pub mod sorter;
