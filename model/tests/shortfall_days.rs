//! The shortfall on days: what is printed for each closing, and mistakes that the
//! generated boards and days must show.

mod common;

use common::{each_closing, figures, least_by_matching, smallest_excess, Closing};
use model::board::Job;
use model::draw::Draw;
use model::inputs;
use model::limits::LAST_SLOT;
use model::rule::laxity;
use model::samples;
use model::shortfall::least_given_up;

/// The day of a kind and a seed.
fn day(name: &str, seed: u64) -> Vec<u8> {
    inputs::find(name).expect("a kind").input(seed, None)
}

/// The sixth field of the B line is the matching's number, and the slot gives up no
/// more racks than that.
fn is_right(closing: &Closing, printed: &str) {
    let [slot, _, _, given_up, shortfall] = figures(printed);
    assert_eq!(slot, closing.slot);
    assert_eq!(shortfall, least_by_matching(&closing.jobs, slot));
    assert!(given_up <= shortfall, "{printed}");
}

#[test]
fn every_closing_of_every_kind_of_day() {
    let (mut closings, mut lost) = (0, 0);
    for kind in inputs::KINDS {
        let seeds = match kind.name {
            "end" => 1,
            "long" => 2,
            _ => 12,
        };
        for seed in 0..seeds {
            each_closing(&kind.input(seed, None), |closing, printed| {
                is_right(closing, printed);
                closings += 1;
                lost += usize::from(closing.closed.shortfall > 0);
            });
        }
    }
    // Nearly all of the million closings of `end` are of an empty board.
    assert!(closings > 1_010_000 && lost > 5_000, "{closings} {lost}");
}

/// A mistaken shortfall of a closing.
type Mistake = fn(&Closing) -> u32;

/// Of the racks of the baked rack's grade only.
fn of_one_grade(closing: &Closing) -> u32 {
    let jobs = closing.jobs.iter().copied();
    let of_grade = jobs.filter(|job| job.grade == closing.closed.grade);
    least_given_up(&of_grade.collect::<Vec<_>>(), closing.slot)
}

/// The size of the smallest excess, where that is above zero too.
fn size_of_excess(closing: &Closing) -> u32 {
    let smallest = smallest_excess(&closing.jobs, closing.slot);
    smallest.map_or(0, |excess| excess.unsigned_abs() as u32)
}

/// Counted after the bake, on the board that the closing hands back.
fn after_the_bake(closing: &Closing) -> u32 {
    least_given_up(&closing.left, closing.slot + 1)
}

/// Counted in the slot of the bake, but without the rack that is baked.
fn without_the_baked(closing: &Closing) -> u32 {
    let jobs = closing.jobs.iter().copied();
    let others = jobs.filter(|job| job.ticket != closing.closed.ticket);
    least_given_up(&others.collect::<Vec<_>>(), closing.slot)
}

/// The number given up in this slot.
fn given_up_now(closing: &Closing) -> u32 {
    closing.closed.expired.len() as u32
}

/// The slots past the book's end not counted.
fn within_the_book(closing: &Closing) -> u32 {
    let jobs = closing.jobs.iter();
    let cut = jobs.map(|job| Job {
        deadline: job.deadline.min(LAST_SLOT),
        ..*job
    });
    least_given_up(&cut.collect::<Vec<_>>(), closing.slot)
}

/// The racks left out that may wait past the book's end.
fn due_within_the_book(closing: &Closing) -> u32 {
    let jobs = closing.jobs.iter().copied();
    let due = jobs.filter(|job| job.deadline <= LAST_SLOT);
    least_given_up(&due.collect::<Vec<_>>(), closing.slot)
}

/// The present slot not counted.
fn from_the_next_slot(closing: &Closing) -> u32 {
    least_given_up(&closing.jobs, closing.slot + 1)
}

/// The racks less the longest wait: the excess at one wait only.
fn at_the_longest_wait(closing: &Closing) -> u32 {
    let waits = closing.jobs.iter().map(|job| laxity(job, closing.slot));
    let longest = waits.max().unwrap_or(0) as u32;
    (closing.jobs.len() as u32).saturating_sub(longest)
}

/// Whether the board is overfull, and not how far.
fn overfull_or_not(closing: &Closing) -> u32 {
    closing.closed.shortfall.min(1)
}

/// The mistakes that show far from the book's end.
const MISTAKES: &[(&str, Mistake)] = &[
    ("of one grade", of_one_grade),
    ("size of excess", size_of_excess),
    ("after the bake", after_the_bake),
    ("without the baked", without_the_baked),
    ("given up now", given_up_now),
    ("from the next slot", from_the_next_slot),
    ("at the longest wait", at_the_longest_wait),
    ("overfull or not", overfull_or_not),
];

/// The mistakes that show only near it.
const AT_THE_END: &[(&str, Mistake)] = &[
    ("within the book", within_the_book),
    ("due within the book", due_within_the_book),
];

/// Whether a mistake shows on a closing.
fn shows(mistake: Mistake, closing: &Closing) -> bool {
    mistake(closing) != closing.closed.shortfall
}

#[test]
fn mistakes_show_on_drawn_boards() {
    // As the program `cases` draws them.
    let mut draw = Draw::new(81);
    let boards = (0..2_000).map(|_| samples::board(&mut draw, 7));
    let closings: Vec<Closing> = boards.map(|board| Closing::of(&board)).collect();
    for (name, mistake) in MISTAKES.iter().chain(AT_THE_END) {
        let shown = closings.iter().filter(|closing| shows(*mistake, closing));
        let shown = shown.count();
        assert!(shown > 20, "{name}: {shown}");
    }
}

/// On how many closings of the days of a kind each of some mistakes shows.
fn shown(kind: &str, seeds: u64, mistakes: &[(&str, Mistake)]) -> Vec<usize> {
    let mut shown = vec![0; mistakes.len()];
    for seed in 0..seeds {
        each_closing(&day(kind, seed), |closing, _| {
            for (count, (_, mistake)) in shown.iter_mut().zip(mistakes) {
                *count += usize::from(shows(*mistake, closing));
            }
        });
    }
    shown
}

#[test]
fn mistakes_show_on_days() {
    for kind in ["ordinary", "overfull", "ties", "mixed", "shortfall"] {
        let shown = shown(kind, 20, MISTAKES);
        assert!(shown.iter().all(|&count| count > 10), "{kind}: {shown:?}");
    }
}

#[test]
fn mistakes_show_at_the_books_end() {
    let shown = shown("end", 1, AT_THE_END);
    assert!(shown.iter().all(|&count| count > 2), "{shown:?}");
}
