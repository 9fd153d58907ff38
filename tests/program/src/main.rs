//! Compares what the programs print with what the model prints.
//!
//! `program BOARD SHEET` runs both programs on inputs of every kind, long and
//! short, in one piece and in many, and the sheet's on an input that has not ended,
//! and says which differ. Its last line is 'N passed, M failed'.

mod compare;
mod count;
mod inputs;
mod run;
mod waiting;

use std::env;
use std::process;

use count::Count;
use inputs::Case;
use model::program::run_bytes;
use model::sheet::sheet;

/// The first line at which the board's program prints something else.
fn board_differs(binary: &str, case: &Case) -> Option<usize> {
    let expected = case.expected.clone();
    let expected = expected.unwrap_or_else(|| run_bytes(&case.bytes));
    let printed = run::program(binary, &case.bytes, case.piece);
    compare::difference(&printed, &expected)
}

/// The first line at which the sheet's program prints something else.
fn sheet_differs(binary: &str, case: &Case) -> Option<usize> {
    let printed = run::program(binary, &case.bytes, case.piece);
    compare::difference(&printed, &sheet(&case.bytes))
}

fn main() {
    let words: Vec<String> = env::args().skip(1).collect();
    if words.len() != 2 {
        eprintln!("use: program BOARD SHEET");
        process::exit(2);
    }
    let mut count = Count::default();
    for case in inputs::all() {
        count.take("board", &case.name, board_differs(&words[0], &case));
        count.take("sheet", &case.name, sheet_differs(&words[1], &case));
    }
    for (name, difference) in waiting::steps(&words[1]) {
        count.take("sheet, input open", name, difference);
    }
    println!("{} passed, {} failed", count.passed, count.failed);
    process::exit(i32::from(count.failed > 0));
}
