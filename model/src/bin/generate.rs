//! Prints an input for one of the programs.
//!
//! `generate KIND SEED [SIZE]` prints the input, the same bytes each time;
//! `generate --kinds` lists the kinds, one a line: name, tab, what it holds.

use std::env;
use std::io::{self, Write};
use std::process;

use model::inputs;

fn main() -> io::Result<()> {
    let words: Vec<String> = env::args().skip(1).collect();
    if words == ["--kinds"] {
        for kind in inputs::every_kind() {
            println!("{}\t{}", kind.name, kind.about);
        }
        return Ok(());
    }
    match input(&words) {
        Some(bytes) => io::stdout().lock().write_all(&bytes),
        None => {
            eprintln!("use: generate KIND SEED [SIZE], or generate --kinds");
            process::exit(2);
        }
    }
}

/// The input asked for, or none where the words make no sense.
fn input(words: &[String]) -> Option<Vec<u8>> {
    if words.len() < 2 || words.len() > 3 {
        return None;
    }
    let kind = inputs::find(&words[0])?;
    let seed = words[1].parse().ok()?;
    let size = match words.get(2) {
        Some(word) => Some(word.parse().ok()?),
        None => None,
    };
    Some(kind.input(seed, size))
}
