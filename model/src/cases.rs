//! What the programs that print cases have in common.

use std::env;
use std::process;

use crate::draw::Draw;

/// The words COUNT and SEED of a program's call: the count, and the draw of that seed.
/// With other words it says how the program is used and ends it.
pub fn count_and_draw(program: &str) -> (u64, Draw) {
    let words: Vec<String> = env::args().skip(1).collect();
    let numbers: Vec<u64> = words.iter().filter_map(|word| word.parse().ok()).collect();
    if words.len() != 2 || numbers.len() != 2 {
        eprintln!("use: {program} COUNT SEED");
        process::exit(2);
    }
    (numbers[0], Draw::new(numbers[1]))
}

/// Numbers in decimal, one space between them.
pub fn words<T: ToString>(numbers: &[T]) -> String {
    let words: Vec<String> = numbers.iter().map(|number| number.to_string()).collect();
    words.join(" ")
}
