//! The shortfalls that the generated days have, above all those of the kind `shortfall`.

mod common;

use std::collections::BTreeMap;

use common::{each_closing, smallest_excess, Closing};
use model::inputs;
use model::limits::{LAST_SLOT, LONGEST_LAXITY, MOST_HELD};
use model::rule::tight_laxity;

/// Hands on each closing of the days of a kind with the shortfall of the closing
/// before it, 0 for the first.
fn each_of_days<E: FnMut(u32, &Closing)>(name: &str, seeds: u64, mut each: E) {
    let kind = inputs::find(name).expect("a kind");
    for seed in 0..seeds {
        let mut before = 0;
        each_closing(&kind.input(seed, None), |closing, _| {
            each(before, closing);
            before = closing.closed.shortfall;
        });
    }
}

/// How many closings of the days of a kind have each shortfall.
fn shortfalls(name: &str, seeds: u64) -> BTreeMap<u32, usize> {
    let mut seen = BTreeMap::new();
    each_of_days(name, seeds, |_, closing| {
        *seen.entry(closing.closed.shortfall).or_default() += 1;
    });
    seen
}

#[test]
fn a_rack_fewer_than_fits_just_as_many_and_one_more() {
    // Closings with excess -1, 0 and 1, and those of them whose tight wait is above 8.
    let (mut seen, mut waiting) = ([0; 3], [0; 3]);
    each_of_days("shortfall", 40, |_, closing| {
        let excess = smallest_excess(&closing.jobs, closing.slot);
        if let Some(excess @ -1..=1) = excess {
            let place = (excess + 1) as usize;
            seen[place] += 1;
            let tight = tight_laxity(&closing.jobs, closing.slot);
            waiting[place] += usize::from(tight > Some(8));
        }
    });
    // Of 4,000 closings.
    assert!(seen.iter().all(|&closings| closings > 400), "{seen:?}");
    assert!(
        waiting.iter().all(|&closings| closings > 100),
        "{waiting:?}"
    );
}

#[test]
fn it_rises_and_falls_from_slot_to_slot() {
    for name in ["ordinary", "overfull", "ties", "mixed", "shortfall"] {
        let (mut rises, mut falls, mut stays) = (0, 0, 0);
        each_of_days(name, 40, |before, closing| {
            let now = closing.closed.shortfall;
            rises += usize::from(now > before);
            falls += usize::from(now < before);
            stays += usize::from(now == before && now > 0);
        });
        let seen = [rises, falls, stays];
        assert!(seen.iter().all(|&slots| slots > 100), "{name} {seen:?}");
    }
}

#[test]
fn shortfalls_small_and_large() {
    let seen = shortfalls("shortfall", 40);
    for shortfall in [0, 1, 2, 3, 9] {
        assert!(seen.get(&shortfall) > Some(&200), "{seen:?}");
    }
    let seen = shortfalls("overfull", 40);
    for shortfall in 0..=40 {
        assert!(seen.contains_key(&shortfall), "{seen:?}");
    }
    let full = MOST_HELD as u32;
    let largest = |name, seeds| shortfalls(name, seeds).into_keys().max();
    assert!(largest("given-up", 40) > Some(full * 3 / 5));
    assert!(largest("long", 2) > Some(full * 2 / 5));
    assert_eq!(largest("pages", 10), Some(full - 1));
}

#[test]
fn more_are_lost_than_the_slot_gives_up() {
    for name in ["ordinary", "overfull", "given-up", "ties", "shortfall"] {
        let (mut more, mut as_many) = (0, 0);
        each_of_days(name, 40, |_, closing| {
            let given_up = closing.closed.expired.len() as u32;
            let lost = closing.closed.shortfall;
            more += usize::from(lost > given_up);
            as_many += usize::from(lost > 0 && lost == given_up);
        });
        assert!(more > 200 && as_many > 200, "{name} {more} {as_many}");
    }
}

#[test]
fn an_empty_board_follows_racks_that_are_lost() {
    for name in ["ordinary", "ties", "mixed", "shortfall"] {
        let mut seen = 0;
        each_of_days(name, 40, |before, closing| {
            seen += usize::from(before > 0 && closing.jobs.is_empty());
        });
        assert!(seen > 5, "{name} {seen}");
    }
}

#[test]
fn racks_wait_past_the_books_end() {
    let (mut closings, mut lost_there, mut last_slot) = (0, 0, 0);
    each_of_days("end", 1, |_, closing| {
        let (jobs, slot) = (&closing.jobs, closing.slot);
        if jobs.iter().any(|job| job.deadline > LAST_SLOT) {
            closings += 1;
            // More racks are due by a slot past the end than there are slots up to it.
            let tight = tight_laxity(jobs, slot).map(|wait| slot + wait as u32 - 1);
            let past_end = tight > Some(LAST_SLOT);
            lost_there += usize::from(past_end && closing.closed.shortfall > 0);
            last_slot += usize::from(slot == LAST_SLOT);
        }
    });
    // Racks can wait past the end in no more slots than the longest wait has, less one.
    let most_of_them = LONGEST_LAXITY * 5 / 8;
    assert!(closings > most_of_them, "{closings}");
    assert!(lost_there > 0, "{lost_there}");
    assert_eq!(last_slot, 1);
}
