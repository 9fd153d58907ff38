//! The programs in a shop's hands: `shop BOARD SHEET FAULT`. FAULT is the library that disturbs reads and writes. The last line is
//! 'N passed, M failed'.

mod days;
mod failures;
mod started;
mod system;
mod till;

use days::Program;
use std::{env, process};

/// Each test and whether it passed.
fn tested(program: &Program, fault: &str) -> [(&'static str, bool); 14] {
    [
        ("a till, piece by piece", till::piece_by_piece(program, &program.sample)),
        ("a line in pieces", till::piece_by_piece(program, &program.in_pieces)),
        ("a terminal", till::terminal(program, false)),
        ("a terminal, ^C", till::terminal(program, true)),
        ("a slow reader that does not wait", till::nonblocking_reader(program)),
        ("a slow writer that does not wait", till::nonblocking_writer(program)),
        ("a full disk", failures::full_disk(program)),
        ("a closed pipe", failures::closed_pipe(program, false)),
        ("a closed pipe, the signal ignored", failures::closed_pipe(program, true)),
        ("a file's limit", failures::file_limit(program)),
        ("a folder as input", failures::directory(program)),
        ("an input that breaks off", failures::broken_off(program)),
        ("disturbed reads and writes", failures::disturbed(program, fault)),
        ("exit statuses", failures::statuses(program)),
    ]
}

fn main() {
    let words: Vec<String> = env::args().skip(1).collect();
    if words.len() != 3 {
        eprintln!("use: shop BOARD SHEET FAULT");
        process::exit(2);
    }
    let (mut passed, mut failed) = (0, 0);
    for program in [days::board(&words[0]), days::sheet(&words[1])] {
        for (name, well) in tested(&program, &words[2]) {
            if well {
                passed += 1;
            } else {
                failed += 1;
                println!("{}: {name}: failed", program.name);
            }
        }
    }
    println!("{passed} passed, {failed} failed");
    process::exit(i32::from(failed > 0));
}
