//! The program `hindsight`: a list of racks in, best first, the slots of its plan out.

use std::io::{self, BufRead, Write};

use super::{plan, Refused, Window};
use crate::limits::MOST_IN_HINDSIGHT;
use crate::lines::{fields, next_line, number};
use crate::printing;
use crate::program::{in_memory, write_lines};
use crate::refusal::Refusal;

/// Reads the list and writes what the program prints.
pub fn run<R: BufRead, W: Write>(input: R, output: &mut W) -> io::Result<()> {
    let lines = match read_all(input)? {
        Ok(windows) => printed(&windows),
        Err(refused) => vec![refusal(refused)],
    };
    write_lines(output, &lines)
}

/// `run` on bytes in memory.
pub fn run_bytes(input: &[u8]) -> Vec<u8> {
    in_memory(|output| run(input, output))
}

/// The racks of the lines, or the first line that breaks a row: 'the line rows come
/// before those of the call'. A line that is one too many is the last that is read: with
/// it the list is refused, whatever comes after it.
fn read_all<R: BufRead>(mut input: R) -> io::Result<Result<Vec<Window>, Refused>> {
    let mut windows = Vec::new();
    while windows.len() <= MOST_IN_HINDSIGHT {
        let Some(line) = next_line(&mut input)? else {
            break;
        };
        match read(&line) {
            Ok(window) => windows.push(window),
            Err(refusal) => {
                let place = windows.len();
                return Ok(Err(Refused { refusal, place }));
            }
        }
    }
    Ok(Ok(windows))
}

/// Rows 11, 13 and 14 of a line `first,last`, in order.
pub fn read(line: &[u8]) -> Result<Window, Refusal> {
    match fields(line)?[..] {
        [first, last] => Ok(Window {
            first: number(first)?,
            last: number(last)?,
        }),
        _ => Err(Refusal::FieldCount),
    }
}

/// The lines of a plan, or the one line of a refusal.
fn printed(windows: &[Window]) -> Vec<String> {
    match plan(windows) {
        Ok(slots) => plan_lines(&slots),
        Err(refused) => vec![refusal(refused)],
    }
}

/// H: a rack's line and its slot, 0 where it is left out; S: the racks and how many of
/// them are baked.
fn plan_lines(slots: &[u32]) -> Vec<String> {
    let mut lines = Vec::new();
    for (place, slot) in slots.iter().enumerate() {
        lines.push(format!("H,{},{slot}", place + 1));
    }
    let baked = slots.iter().filter(|&&slot| slot != 0).count();
    lines.push(format!("S,{},{baked}", slots.len()));
    lines
}

/// R: each rack has a line of its own, so its place tells the line.
fn refusal(refused: Refused) -> String {
    printing::refused(refused.place as u64 + 1, refused.refusal)
}
