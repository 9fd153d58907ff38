//! The oven board's program with the racks sorted by last slot at every level of the search.

use benchmark::program;
use benchmark::sorter::Sorter;
use std::io;

fn main() -> io::Result<()> {
    program::main::<Sorter>()
}
