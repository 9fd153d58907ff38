//! The oven board's program: standard input in, standard output out.

use std::io::{self, BufWriter, Write};

fn main() -> io::Result<()> {
    // Standard input is buffered already.
    let input = io::stdin().lock();
    let mut output = BufWriter::new(io::stdout().lock());
    model::program::run(input, &mut output)?;
    output.flush()
}
