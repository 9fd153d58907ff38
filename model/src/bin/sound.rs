//! Prints boards and whether they are sound.
//!
//! `sound COUNT SEED` prints COUNT lines of the form
//! `SOUND DEPTH SLOT HIGHEST COUNT ; PLACE ; PLACE ...`
//! in decimal, one space between words. SOUND is 1 for a sound board, else 0;
//! PLACE is `TICKET ADMITTED LAST GRADE`, from the first place on; places that
//! are not listed are zero. In turn come a board with one clause broken, a board
//! that meets a bound exactly, a random sound board, and a random sound board
//! with one field changed, which may be sound still.

use std::io::{self, BufWriter, Write};

use model::board::{Board, Job};
use model::cases::count_and_draw;
use model::draw::Draw;
use model::edges;
use model::limits::MOST_HELD;
use model::samples;
use model::soundness::is_sound;

fn main() -> io::Result<()> {
    let (count, mut draw) = count_and_draw("sound");
    let mut output = BufWriter::new(io::stdout().lock());
    for turn in 0..count {
        let board = board(&mut draw, turn as usize);
        writeln!(output, "{}", board_words(&board))?;
    }
    output.flush()
}

/// The board of a turn; the clauses and the bounds come round one by one.
fn board(draw: &mut Draw, turn: usize) -> Board {
    let round = turn / 4;
    match turn % 4 {
        0 => edges::BROKEN[round % edges::BROKEN.len()].1(draw),
        1 => edges::BOUNDARY[round % edges::BOUNDARY.len()].1(draw),
        2 => samples::board(draw, 12),
        _ => changed(draw),
    }
}

/// A random sound board with one field changed, by a little or to anything.
fn changed(draw: &mut Draw) -> Board {
    let mut board = samples::board(draw, 12);
    let place = draw.index((board.held() + 1).min(MOST_HELD));
    let job = &mut board.places[place];
    match draw.between(0, 7) {
        0 => board.depth = draw.between(0, 255),
        1 => board.slot = near(draw, board.slot, u32::MAX),
        2 => board.highest_ticket = near(draw, board.highest_ticket, u32::MAX),
        3 => board.count = near(draw, board.count, 2 * MOST_HELD as u32),
        4 => job.ticket = near(draw, job.ticket, u32::MAX),
        5 => job.admitted = near(draw, job.admitted, u32::MAX),
        6 => job.deadline = near(draw, job.deadline, u32::MAX),
        _ => job.grade = draw.between(0, 9),
    }
    board
}

/// A number close to this one, or any up to the highest.
fn near(draw: &mut Draw, number: u32, highest: u32) -> u32 {
    match draw.between(0, 3) {
        0 => draw.between(0, highest),
        1 => number.saturating_sub(draw.between(1, 3)),
        _ => number.saturating_add(draw.between(1, 3)),
    }
}

fn board_words(board: &Board) -> String {
    let sound = u32::from(is_sound(board));
    let (depth, slot, highest) = (board.depth, board.slot, board.highest_ticket);
    let count = board.count;
    let mut words = vec![format!("{sound} {depth} {slot} {highest} {count}")];
    for job in listed(board) {
        let (ticket, admitted) = (job.ticket, job.admitted);
        words.push(format!(
            "{ticket} {admitted} {} {}",
            job.deadline, job.grade
        ));
    }
    words.join(" ; ")
}

/// The places up to the last that is not zero.
fn listed(board: &Board) -> &[Job] {
    let zero = Job::default();
    let used = board.places.iter().rposition(|job| *job != zero);
    let length = used.map_or(0, |last| last + 1);
    &board.places[..length]
}
