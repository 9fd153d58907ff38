//! The board beside the model and beside two Rust programs written for speed, one that sorts and one that counts, as ratios from one run; or two
//! checkouts of it, both beside these.
//!
//! The calls go by the library's Rust crate. Two checkouts are two libraries, and so two of these programs: one runs both, each with `calls`.

mod beside;
mod calls;
#[allow(dead_code)] // the calls' tests use all of it
#[path = "../../tests/calls/src/convert.rs"]
mod convert;
mod days;
mod handed;
mod run;
mod tables;
mod timed;

use std::{env, io, process};

const USAGE: &str = "benchmark OVEN MODEL SORTING COUNTS
benchmark calls
benchmark handed
benchmark beside BENCHMARK BENCHMARK OVEN OVEN MODEL SORTING COUNTS";

fn main() -> io::Result<()> {
    let words: Vec<String> = env::args().skip(1).collect();
    let words: Vec<&str> = words.iter().map(String::as_str).collect();
    match &words[..] {
        ["calls"] => calls::pass()
            .iter()
            .for_each(|call| println!("{}", call.line())),
        ["handed"] => handed::run(),
        ["beside", this, other, programs @ ..] if programs.len() == 5 => {
            beside::run(this, other, programs)?
        }
        programs if programs.len() == 4 => run::run(programs)?,
        _ => {
            eprintln!("{USAGE}");
            process::exit(2)
        }
    }
    Ok(())
}
