//! The oven board's program with counts for each wait, and nothing sorted: the practical limit.

use benchmark::counter::Counter;
use benchmark::program;
use std::io;

fn main() -> io::Result<()> {
    program::main::<Counter>()
}
