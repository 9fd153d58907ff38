//! The program `hindsight`: a list of racks in, best first, the slots of its plan out.

use std::io;

fn main() -> io::Result<()> {
    // A list has few lines, so standard output needs no further buffer.
    model::hindsight::program::run(io::stdin().lock(), &mut io::stdout().lock())
}
