//! Prints lists of racks with the model's answers in hindsight.
//!
//! `hindsight_cases COUNT SEED` prints COUNT lines, all numbers in decimal, one space
//! between words, of the form
//! `hindsight ; RACK ; RACK ... => NUMBER SLOT SLOT ... | M0 M1 ...`
//! Before the arrow are the racks, best first, RACK being `FIRST LAST`, its first slot and
//! its last. After it are the number of the refusal, 0 for none, and a slot number for
//! each rack but those from the 65th on; all others of the 64 are 0. After the bar is the
//! most of the first 0, 1, ... racks that any plan bakes; nothing where refused. In turn
//! come a few racks for the first slots, a few of any shape, many, and a list that is
//! refused.

use std::io::{self, BufWriter, Write};

use model::cases::{count_and_draw, words};
use model::draw::Draw;
use model::hindsight::{self, plans, samples, Window};
use model::limits::MOST_IN_HINDSIGHT;

/// Most racks of a list of few.
const FEW: u32 = 7;

fn main() -> io::Result<()> {
    let (count, mut draw) = count_and_draw("hindsight_cases");
    let mut output = BufWriter::new(io::stdout().lock());
    for turn in 0..count {
        writeln!(output, "{}", case(&list(&mut draw, turn)))?;
    }
    output.flush()
}

/// The list of a turn.
fn list(draw: &mut Draw, turn: u64) -> Vec<Window> {
    let few = draw.between(0, FEW) as usize;
    match turn % 4 {
        0 => samples::early(draw, few, FEW),
        1 => samples::windows(draw, few),
        2 => {
            let many = draw.between(FEW, MOST_IN_HINDSIGHT as u32);
            samples::windows(draw, many as usize)
        }
        _ => samples::refused(draw),
    }
}

fn case(windows: &[Window]) -> String {
    let mut asked = vec!["hindsight".to_string()];
    for window in windows {
        asked.push(format!("{} {}", window.first, window.last));
    }
    let (number, slots) = hindsight::call(windows);
    let mut told = vec![u32::from(number)];
    told.extend(slots.iter().take(windows.len()));
    let most = match number {
        0 => plans::most_by_matching(windows),
        _ => Vec::new(),
    };
    let (asked, told) = (asked.join(" ; "), words(&told));
    format!("{asked} => {told} | {}", words(&most))
}
