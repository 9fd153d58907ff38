//! The board's program: standard input in, standard output out.

use std::io::{self, BufRead, Write};

use crate::day::{self, Day};
use crate::printing;

/// Reads the input line by line and writes what the program prints; the state at
/// the end is handed back.
pub fn run<R: BufRead, W: Write>(input: R, output: &mut W) -> io::Result<Day> {
    let day = day::follow(input, |line_number, answer| match answer {
        Ok(done) => write_lines(output, &printing::done(&done)),
        Err(refusal) => write_lines(output, &[printing::refused(line_number, refusal)]),
    })?;
    write_lines(output, &printing::totals(&day))?;
    Ok(day)
}

/// `run` on bytes in memory.
pub fn run_bytes(input: &[u8]) -> Vec<u8> {
    in_memory(|output| run(input, output))
}

/// What is written into memory.
pub fn in_memory<T, P>(write: P) -> Vec<u8>
where
    P: FnOnce(&mut Vec<u8>) -> io::Result<T>,
{
    let mut output = Vec::new();
    write(&mut output).expect("memory can be read and written");
    output
}

/// Writes lines, each with its end.
pub fn write_lines<W: Write>(output: &mut W, lines: &[String]) -> io::Result<()> {
    for line in lines {
        output.write_all(line.as_bytes())?;
        output.write_all(b"\n")?;
    }
    Ok(())
}
