//! The kind `pages`: the days that the sheet is tried on.

mod common;

use common::closed_slots;
use common::crowds::FIRST_OVERFULL;
use common::paper::{LINES, PAGE};
use model::inputs::{self, Kind};
use model::limits::{LONGEST_LAXITY, MOST_HELD};
use model::program::run_bytes;
use model::sheet::sheet;

/// Closings of a day, and the pages that they make.
const DAYS: [(u32, usize); 7] = [(0, 0), (1, 1), (47, 1), (48, 1), (49, 2), (96, 2), (97, 3)];

/// The most racks that a slot can give up: all of a full board but one.
const ALL_BUT_ONE: u32 = MOST_HELD as u32 - 1;

fn kind() -> Kind {
    inputs::find("pages").expect("a kind")
}

/// What the board's program prints for a day of so many closings.
fn printed(seed: u64, closings: u32) -> String {
    String::from_utf8(run_bytes(&kind().input(seed, Some(closings)))).expect("text")
}

#[test]
fn a_day_has_so_many_closings() {
    for (closings, pages) in DAYS {
        for seed in 0..60 {
            let closed = closed_slots(&printed(seed, closings));
            assert_eq!(closed.len(), closings as usize, "{closings} {seed}");
            let sheet = sheet(&kind().input(seed, Some(closings)));
            assert_eq!(sheet.len(), pages * PAGE, "{closings} {seed}");
        }
    }
}

#[test]
fn refused_lines_stand_between_closings() {
    let mut wanted = vec!["B,", "R,", "B,"].into_iter().peekable();
    let output = printed(0, 97);
    for line in output.lines() {
        wanted.next_if(|start| line.starts_with(start));
    }
    assert_eq!(wanted.next(), None);
}

#[test]
fn long_days_have_slots_that_bake_nothing() {
    for closings in [47, 48, 49, 96, 97] {
        let has_empty = |seed| {
            let closed = closed_slots(&printed(seed, closings));
            closed.iter().any(|figures| figures[1] == 0)
        };
        let days = (0..60).filter(|&seed| has_empty(seed)).count();
        assert!(days > 30, "{closings}: {days}");
    }
}

/// How many slots of a day give up all racks of a full board but one.
fn giving_up_all_but_one(seed: u64, closings: u32) -> usize {
    let closed = closed_slots(&printed(seed, closings));
    let out = closed.iter().map(|figures| figures[3]);
    out.filter(|&out| out == ALL_BUT_ONE).count()
}

#[test]
fn where_closings_are_enough_a_slot_gives_up_a_full_board_but_one() {
    // First come the racks for the slots before that one, then those that wait for it.
    let enough = FIRST_OVERFULL + LONGEST_LAXITY;
    for closings in [enough, 47, 48, 49, 96, 97] {
        for seed in 0..60 {
            let slots = giving_up_all_but_one(seed, closings);
            assert_eq!(slots, 1, "{closings} {seed}");
        }
    }
    assert_eq!(giving_up_all_but_one(0, enough - 1), 0);
}

#[test]
fn that_slot_stands_on_either_of_two_pages() {
    let out = format!(" {ALL_BUT_ONE}");
    let mut seen = [0; 2];
    for seed in 0..60 {
        let sheet = sheet(&kind().input(seed, Some(96)));
        for (number, page) in sheet.chunks(PAGE).enumerate() {
            let lines = page.split(|&byte| byte == b'\n').take(LINES - 1);
            let has_it = |line: &&[u8]| line.ends_with(out.as_bytes());
            seen[number] += lines.filter(has_it).count();
        }
    }
    assert!(seen[0] > 0 && seen[1] > 0, "{seen:?}");
    assert_eq!(seen[0] + seen[1], 60);
}
