//! The sheet's program: the board's input in, the pages of its day out.

use std::io;

fn main() -> io::Result<()> {
    // A page is written whole, so standard output needs no further buffer.
    model::sheet::run(io::stdin().lock(), &mut io::stdout().lock())
}
