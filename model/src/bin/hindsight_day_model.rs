//! The program `hindsight-day`: the board's input in, its day seen in hindsight out.

use std::io;

fn main() -> io::Result<()> {
    // A list has few lines, so standard output needs no further buffer.
    model::hindsight::day::run(io::stdin().lock(), &mut io::stdout().lock())
}
