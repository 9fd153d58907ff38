//! Compares the library's calls, by both layers of its Rust crate, with the model's.
//!
//! Random sound boards, full ones, boards with every rack in its last slot, boards
//! damaged in one clause, boundary boards, boards full up to a wait, tickets on a board and off it, short lent lists,
//! tallies at their limits,
//! pages of any count and any figures, and runs of calls. A lent list is compared
//! entry by entry, the entries past the racks given up too. Its last line is
//! 'N passed, M failed'.

mod admitting;
mod boards;
mod closing;
mod convert;
mod count;
mod pages;
mod promising;
mod refusals;
mod tallies;
mod withdrawing;

use model::draw::Draw;
use model::limits::{LONGEST_LAXITY, MOST_HELD};
use model::samples;
use std::process;

/// Boards tried.
const BOARDS: u64 = 20_000;
/// Tallies tried.
const TALLIES: u64 = 20_000;
/// Pages tried.
const PAGES: u64 = 20_000;
/// Runs of calls tried, on a board and on a page.
const RUNS: u64 = 300;

/// Calls one after the other on one board, each on what the call before handed back.
fn run(draw: &mut Draw) -> bool {
    let mut board = samples::board(draw, 12);
    (0..60).all(|_| {
        if draw.one_in(5) {
            return promising::promising(&board);
        }
        if draw.one_in(5) {
            let ticket = withdrawing::ticket(draw, &board);
            return withdrawing::withdraws(&mut board, ticket);
        }
        if draw.one_in(3) {
            if draw.one_in(2) {
                return closing::closes_into(draw, &mut board, MOST_HELD);
            }
            let tickets = MOST_HELD - usize::from(draw.one_in(9));
            return closing::closes_in_parts(draw, &mut board, [tickets, MOST_HELD, MOST_HELD]);
        }
        let ticket = board.highest_ticket.saturating_add(draw.between(0, 3));
        let (wait, grade) = (draw.between(0, LONGEST_LAXITY + 1), draw.between(0, 8));
        admitting::admits(&mut board, ticket, wait, grade)
    })
}

fn main() {
    let mut draw = Draw::new(20_261);
    let mut count = count::Count::default();
    for depth in (0..10).chain([255, 256, u32::MAX]) {
        count.take("opening", admitting::opening(depth));
    }
    for number in 0..BOARDS {
        let board = boards::board(&mut draw, number);
        count.take("soundness", admitting::soundness(&board));
        count.take("admitting", admitting::admitting(&mut draw, &board));
        count.take("closing, parts", closing::in_parts(&mut draw, &board));
        count.take("closing, entries", closing::into_list(&mut draw, &board));
        count.take("promising", promising::promising(&board));
        let filled = promising::filled(&mut draw);
        count.take("promising, filled", promising::promising(&filled));
        count.take("withdrawing", withdrawing::withdrawing(&mut draw, &board));
        count.take(
            "withdrawing, let through",
            withdrawing::let_through(&mut draw),
        );
    }
    count.take("zero tally", tallies::zero());
    for _ in 0..TALLIES {
        count.take("event", tallies::event(&mut draw));
    }
    for (name, passed) in pages::at_the_limits(&mut draw) {
        count.take(name, passed);
    }
    for _ in 0..PAGES {
        count.take("page", pages::any(&mut draw));
    }
    for _ in 0..RUNS {
        count.take("run", run(&mut draw));
        count.take("run of a page", pages::run(&mut draw));
    }
    println!("{} passed, {} failed", count.passed, count.failed);
    process::exit(i32::from(count.failed > 0));
}
