//! Small days of every kind, with what the model prints.

use crate::antt::list;
use model::inputs::KINDS;
use model::limits::DEEPEST;
use model::program::run_bytes;
use model::sheet::sheet;

/// Bytes of a day at the most: the definitions are computed, not compiled.
const LONGEST_DAY: usize = 400;

/// This many days, the kinds in turn, and one for each depth with blank grades; the
/// sheets of every third; and the sheets of days with so many closings.
pub fn cases(count: u64, seed: u64) -> Vec<String> {
    let generated = (0..count).map(|number| day(number, seed));
    let with_blanks = (0..=DEEPEST).map(day_with_blanks);
    let days: Vec<Vec<u8>> = generated.chain(with_blanks).collect();
    let sheets = days.iter().step_by(3).map(|input| sheet_case(input));
    let closings = [0, 1, 47, 48, 49, 97].map(|count| sheet_case(&day_of_closings(count)));
    let lines = days.iter().map(|input| case(input));
    lines.chain(sheets).chain(closings).collect()
}

fn day(number: u64, seed: u64) -> Vec<u8> {
    let kind = &KINDS[number as usize % KINDS.len()];
    let mut input = kind.input(seed + number, Some(4));
    input.truncate(LONGEST_DAY);
    input
}

/// Racks without a grade: baked, given up and refused for another field.
fn day_with_blanks(depth: u32) -> Vec<u8> {
    format!("D,{depth}\nA,1,1,\nA,2,1,0\nA,3,2,\nA,3,1,\nB\nB\n").into_bytes()
}

/// So many slots closed without a rack, a refused line before each third.
fn day_of_closings(count: usize) -> Vec<u8> {
    let mut text = String::from("D,0\n");
    for slot in 0..count {
        text.push_str(if slot % 3 == 0 { "B,\nB\n" } else { "B\n" });
    }
    text.into_bytes()
}

fn case(input: &[u8]) -> String {
    format!("day_right {} {}", list(input), list(&run_bytes(input)))
}

fn sheet_case(input: &[u8]) -> String {
    format!("sheet_right {} {}", list(input), list(&sheet(input)))
}
