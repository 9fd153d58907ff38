//! Writes cases with the model's answers as modules of the crate `cases`.
//!
//! `definitions CRATES COUNT SEED < LINES` reads the lines that the model's
//! programs `cases` and `sound` print, makes COUNT small days and some pages besides, and writes
//! modules below CRATES/cases/proofs, a few cases each. It prints the number of
//! cases written.

mod antt;
mod days;
mod pages;
mod parse;

use std::env;
use std::fs;
use std::io::{self, BufRead};
use std::path::{Path, PathBuf};
use std::process;

/// Cases in a module.
const IN_MODULE: usize = 20;

fn main() -> io::Result<()> {
    let words: Vec<String> = env::args().skip(1).collect();
    let numbers: Vec<u64> = words
        .iter()
        .skip(1)
        .filter_map(|word| word.parse().ok())
        .collect();
    if words.len() != 3 || numbers.len() != 2 {
        eprintln!("use: definitions CRATES COUNT SEED");
        process::exit(2);
    }
    let crates = PathBuf::from(&words[0]);
    let mut cases = Vec::new();
    for line in io::stdin().lock().lines() {
        cases.push(parse::case(&line?));
    }
    cases.extend(days::cases(numbers[0], numbers[1]));
    cases.extend(pages::cases());
    write_modules(&crates, &cases)?;
    println!("{}", cases.len());
    Ok(())
}

fn write_modules(crates: &Path, cases: &[String]) -> io::Result<()> {
    let proofs = crates.join("cases").join("proofs");
    let unfolding = antt::unfoldable_names(crates)?;
    let mut root = fs::read_to_string(proofs.join("Lib.antt"))?;
    for (number, part) in cases.chunks(IN_MODULE).enumerate() {
        let name = format!("Cases{number}");
        fs::write(
            proofs.join(format!("{name}.antt")),
            antt::module(part, &unfolding),
        )?;
        root.push_str(&format!("pub mod {name}\n"));
    }
    fs::write(proofs.join("Lib.antt"), root)
}
