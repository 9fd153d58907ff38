//! The promise against plans: all of them on small boards, a matching on large ones;
//! against the word 'least'; and against the free slots that two other ways of
//! reckoning leave.

mod common;

use common::boards::{drawn_board, held, large_board, slot_to_sell_out, ABOUT_FULL};
use common::spread::Spread;
use common::{
    book_from, promise_by_matching, promised_by_matching, sets_baked, slots_ahead, smallest_excess,
    with_further,
};
use model::board::{Board, Job};
use model::calls::promise;
use model::draw::Draw;
use model::limits::{LAST_SLOT, LONGEST_LAXITY, MOST_HELD};
use model::plans::{baked, every_plan, is_plan};
use model::promise::{least_wait, least_wait_up_to, plan_with};
use model::rule::excess;
use model::samples;
use model::shortfall::least_given_up;

/// Whether some plan bakes all of these racks: every plan is listed.
fn all_in_some_plan(jobs: &[Job], slot: u32) -> bool {
    let ahead = slots_ahead(jobs, slot) as usize;
    let plans = every_plan(&book_from(jobs, slot), ahead);
    plans.iter().any(|plan| baked(plan, ahead) == jobs.len())
}

/// Whether some plan bakes all of these racks: this slot gets none of them, or any one,
/// and so on. A rack that is left in its last slot is given up.
fn all_by_trying(jobs: &[Job], slot: u32) -> bool {
    if jobs.is_empty() {
        return true;
    }
    let goes_on = |left: &[Job]| {
        let in_date = left.iter().all(|job| slot < job.deadline);
        in_date && all_by_trying(left, slot + 1)
    };
    let without = |place: usize| [&jobs[..place], &jobs[place + 1..]].concat();
    goes_on(jobs) || (0..jobs.len()).any(|place| goes_on(&without(place)))
}

/// Whether some plan bakes all of these racks: the set of all is one that a plan bakes.
fn all_by_sets(jobs: &[Job], slot: u32) -> bool {
    sets_baked(jobs, slot).contains(&((1 << jobs.len()) - 1))
}

/// The least wait up to the longest such that all racks, a further one of this wait
/// among them, are baked by some plan; 0 where there is none.
fn least_by<A>(all: A, longest: u32, jobs: &[Job], slot: u32) -> u32
where
    A: Fn(&[Job], u32) -> bool,
{
    let promised = (1..=longest).find(|&wait| all(&with_further(wait, jobs, slot), slot));
    promised.unwrap_or(0)
}

/// Every list of at most so many waits up to the longest, each in rising order.
fn every_list_of_waits(most: usize, longest: u32) -> Vec<Vec<u32>> {
    let mut lists = vec![Vec::new()];
    let mut last = lists.clone();
    for _ in 0..most {
        let mut longer = Vec::new();
        for list in &last {
            let least = list.last().copied().unwrap_or(1);
            longer.extend((least..=longest).map(|wait| [&list[..], &[wait]].concat()));
        }
        lists.extend_from_slice(&longer);
        last = longer;
    }
    lists
}

#[test]
fn every_plan_of_every_small_board() {
    let lists = every_list_of_waits(5, 4);
    assert_eq!(lists.len(), 126);
    let mut seen = Spread::default();
    for slot in [7, LAST_SLOT - 1] {
        for waits in &lists {
            let board = held(slot, waits);
            let jobs = board.jobs();
            // Whether waits 1 to 6 can be promised, a plan for each or none.
            let can_be: Vec<bool> = (1..=6).map(|wait| in_some_plan(wait, &board)).collect();
            // With the longest wait cut down, so that small boards can be sold out.
            for longest in 0..=6 {
                let place = can_be[..longest].iter().position(|&can_be| can_be);
                let wanted = place.map_or(0, |place| place as u32 + 1);
                let wait = least_wait_up_to(longest as u32, jobs, slot);
                assert_eq!(wait, wanted, "{waits:?}");
                seen.count(wait, jobs, slot);
            }
        }
    }
    assert!(seen.rarest(5) > 10, "{seen:?}");
}

/// Whether a further rack of this wait and every one on the board are in some plan:
/// both ways of trying every plan say so, and so does the laying out.
fn in_some_plan(wait: u32, board: &Board) -> bool {
    let (jobs, slot) = (board.jobs(), board.slot);
    let all = with_further(wait, jobs, slot);
    let can_be = all_in_some_plan(&all, slot);
    assert_eq!(all_by_trying(&all, slot), can_be);
    assert_eq!(plan_with(wait, jobs, slot).is_some(), can_be);
    can_be
}

#[test]
fn every_plan_of_drawn_boards() {
    let mut draw = Draw::new(111);
    let (mut all, mut one_by_one) = (Spread::default(), Spread::default());
    for number in 0..4_000 {
        let board = match number % 3 {
            0 => filled_board(&mut draw, 6, 7),
            _ => drawn_board(&mut draw, 7, number / 3),
        };
        let (jobs, slot) = (board.jobs(), board.slot);
        let longest = draw.between(1, 9);
        let wait = least_wait_up_to(longest, jobs, slot);
        assert_eq!(wait, least_by(all_by_sets, longest, jobs, slot), "{jobs:?}");
        all.count(wait, jobs, slot);
        if slots_ahead(jobs, slot) <= 5 {
            let longest = longest.min(6);
            let wait = least_wait_up_to(longest, jobs, slot);
            assert_eq!(wait, least_by(all_by_trying, longest, jobs, slot));
            one_by_one.count(wait, jobs, slot);
        }
    }
    assert!(all.rarest(7) > 20, "{all:?}");
    assert!(one_by_one.rarest(5) > 10, "{one_by_one:?}");
}

/// A board of at most so many racks that is full up to a wait from 0 to the longest,
/// and not at the next.
fn filled_board(draw: &mut Draw, longest: u32, most: u32) -> Board {
    let slot = slot_to_sell_out(draw);
    let wait = draw.between(0, longest);
    let later = draw.between(0, most - wait);
    samples::filled_board(draw, slot, wait, later as usize)
}

/// A board with its last rack in an earlier slot or a later one: now a rack too many
/// is due by some slot, now one fewer.
fn moved(draw: &mut Draw, mut board: Board) -> Board {
    if let Some(last) = board.held().checked_sub(1) {
        let job = &mut board.places[last];
        job.deadline = draw.between(board.slot, job.admitted + LONGEST_LAXITY - 1);
    }
    board
}

/// Boards of any size; half of them can be promised a rack, of any wait.
fn any_board(draw: &mut Draw, number: u32) -> Board {
    match number % 4 {
        0 => large_board(draw, number / 4),
        1 => drawn_board(draw, ABOUT_FULL, number / 4),
        2 => filled_board(draw, LONGEST_LAXITY, LONGEST_LAXITY),
        _ => {
            let board = filled_board(draw, LONGEST_LAXITY, LONGEST_LAXITY);
            moved(draw, board)
        }
    }
}

#[test]
fn a_matching_on_large_boards() {
    let mut draw = Draw::new(112);
    let mut seen = Spread::default();
    for number in 0..2_000 {
        let board = any_board(&mut draw, number);
        let wait = promise(&board).expect("the board is sound");
        assert_eq!(wait, promise_by_matching(board.jobs(), board.slot));
        seen.count(wait, board.jobs(), board.slot);
    }
    let rarest = seen.rarest(LONGEST_LAXITY);
    assert!(rarest > 5 && seen.of(0) > 500, "{seen:?}");
}

#[test]
fn a_board_full_up_to_a_wait_gives_the_next() {
    let mut draw = Draw::new(113);
    for _ in 0..100 {
        for full in 0..=LONGEST_LAXITY {
            let slot = slot_to_sell_out(&mut draw);
            let later = draw.index(12);
            let board = samples::filled_board(&mut draw, slot, full, later);
            assert_eq!(least_given_up(board.jobs(), slot), 0);
            let is_sold_out = full == LONGEST_LAXITY;
            let next = if is_sold_out { 0 } else { full + 1 };
            assert_eq!(promise(&board), Ok(next));
        }
    }
}

#[test]
fn no_shorter_wait_can_be_promised_and_every_longer_one_can() {
    let mut draw = Draw::new(114);
    let mut seen = Spread::default();
    for number in 0..1_000 {
        let board = any_board(&mut draw, number);
        let (jobs, slot) = (board.jobs(), board.slot);
        let promised = least_wait(jobs, slot);
        for wait in 1..=LONGEST_LAXITY {
            let can_be = promised != 0 && promised <= wait;
            assert_eq!(plan_with(wait, jobs, slot).is_some(), can_be);
            assert_eq!(promised_by_matching(wait, jobs, slot), can_be);
        }
        seen.count(promised, jobs, slot);
    }
    assert!(seen.rarest(LONGEST_LAXITY) > 1, "{seen:?}");
}

#[test]
fn the_longest_wait_only_cuts_off() {
    // Whatever the longest wait is, the least is the same or out of reach.
    let mut draw = Draw::new(115);
    for number in 0..500 {
        let board = any_board(&mut draw, number);
        let (jobs, slot) = (board.jobs(), board.slot);
        // The slot after that many racks is free.
        let endless = least_wait_up_to(MOST_HELD as u32 + 1, jobs, slot);
        assert_eq!(endless == 0, least_given_up(jobs, slot) > 0);
        let about = LONGEST_LAXITY - 1..=LONGEST_LAXITY + 1;
        for longest in about.chain([0, 1, 2, LONGEST_LAXITY * 3 / 4]) {
            let wanted = if endless <= longest { endless } else { 0 };
            assert_eq!(least_wait_up_to(longest, jobs, slot), wanted);
        }
    }
}

#[test]
fn the_laying_out_is_a_plan_of_all_racks() {
    let mut draw = Draw::new(116);
    let mut seen = 0;
    for number in 0..2_000 {
        let board = any_board(&mut draw, number);
        let (jobs, slot) = (board.jobs(), board.slot);
        let promised = least_wait(jobs, slot);
        if promised == 0 {
            continue;
        }
        seen += 1;
        let laid = plan_with(promised, jobs, slot).expect("a plan");
        let plan = laid.iter().map(|job| Some(job.ticket)).collect();
        let all = with_further(promised, jobs, slot);
        assert!(is_plan(&book_from(&all, slot), &plan));
        assert_eq!(baked(&plan, plan.len()), jobs.len() + 1);
    }
    assert!(seen > 800, "{seen}");
}

/// The promise by another laying out: each rack has the last free slot that it can
/// have, those with the last slots first. The further rack gets the first free slot.
fn first_free_slot(jobs: &[Job], slot: u32) -> u32 {
    let mut by_deadline = jobs.to_vec();
    by_deadline.sort_by_key(|job| job.deadline);
    let mut taken = [false; LONGEST_LAXITY as usize];
    for job in by_deadline.iter().rev() {
        let can_have = &mut taken[..=(job.deadline - slot) as usize];
        match can_have.iter().rposition(|taken| !taken) {
            Some(place) => can_have[place] = true,
            None => return 0,
        }
    }
    let free = taken.iter().position(|taken| !taken);
    free.map_or(0, |place| place as u32 + 1)
}

#[test]
fn the_first_slot_left_free_by_racks_laid_as_late_as_can_be() {
    let mut draw = Draw::new(117);
    let mut seen = Spread::default();
    for number in 0..10_000 {
        let board = any_board(&mut draw, number);
        let (jobs, slot) = (board.jobs(), board.slot);
        let wait = least_wait(jobs, slot);
        assert_eq!(wait, first_free_slot(jobs, slot), "{jobs:?}");
        seen.count(wait, jobs, slot);
    }
    assert!(seen.rarest(LONGEST_LAXITY) > 50, "{seen:?}");
}

/// The promise by counting: where no excess is below zero, the wait after the last
/// whose excess is zero, be there a rack of that wait or not; 1 where there is none.
fn by_excess(jobs: &[Job], slot: u32) -> u32 {
    if smallest_excess(jobs, slot) < Some(0) && !jobs.is_empty() {
        return 0;
    }
    let is_full = |wait: &i64| excess(jobs, slot, *wait) == 0;
    let longest = i64::from(LONGEST_LAXITY);
    match (1..=longest).rev().find(is_full) {
        None => 1,
        Some(full) if full == longest => 0,
        Some(full) => full as u32 + 1,
    }
}

#[test]
fn the_wait_after_the_last_whose_excess_is_zero() {
    let mut draw = Draw::new(118);
    let mut seen = Spread::default();
    for number in 0..10_000 {
        let board = any_board(&mut draw, number);
        let (jobs, slot) = (board.jobs(), board.slot);
        let wait = least_wait(jobs, slot);
        assert_eq!(wait, by_excess(jobs, slot), "{jobs:?}");
        seen.count(wait, jobs, slot);
    }
    assert!(seen.rarest(LONGEST_LAXITY) > 50, "{seen:?}");
}
