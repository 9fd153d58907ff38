//! The shortfall against plans: all of them on small boards, a matching on large
//! ones; and against the paper's other words, the smallest excess.

mod common;

use common::boards::{drawn_board, large_board};
use common::{book_from, least_by_matching, sets_baked, slots_ahead, smallest_excess, Closing};
use model::board::Job;
use model::draw::Draw;
use model::limits::{LAST_SLOT, LONGEST_LAXITY, MOST_HELD};
use model::list::{play, Answer, Call};
use model::plans::{is_plan, most_baked_by_trying};
use model::shortfall::{laid_out, least_given_up};

/// The least number given up by any plan: this slot gets none of the racks, or any
/// one of them, and so on. Every plan is tried.
fn least_by_trying(jobs: &[Job], slot: u32) -> u32 {
    if jobs.is_empty() {
        return 0;
    }
    let mut least = least_of_the_rest(jobs, slot);
    for place in 0..jobs.len() {
        let mut others = jobs.to_vec();
        others.remove(place);
        least = least.min(least_of_the_rest(&others, slot));
    }
    least
}

/// Of the racks that this slot did not get, those in their last slot are given up.
fn least_of_the_rest(jobs: &[Job], slot: u32) -> u32 {
    let (out, left): (Vec<Job>, Vec<Job>) = jobs.iter().partition(|job| job.deadline == slot);
    out.len() as u32 + least_by_trying(&left, slot + 1)
}

/// The least number given up by any plan, by the sets of racks that plans bake.
fn least_by_sets(jobs: &[Job], slot: u32) -> u32 {
    let sets = sets_baked(jobs, slot);
    let most = sets.iter().map(|set| set.count_ones()).max();
    jobs.len() as u32 - most.unwrap_or(0)
}

/// How many boards there were, how many with a shortfall above 0, how many with one
/// above 1, and how many where it is not the number given up in the slot.
#[derive(Debug, Default)]
struct Seen {
    boards: usize,
    above_0: usize,
    above_1: usize,
    not_given_up: usize,
}

impl Seen {
    fn count(&mut self, closing: &Closing) {
        let shortfall = closing.closed.shortfall;
        self.boards += 1;
        self.above_0 += usize::from(shortfall > 0);
        self.above_1 += usize::from(shortfall > 1);
        let given_up = closing.closed.expired.len() as u32;
        self.not_given_up += usize::from(shortfall != given_up);
    }

    /// The least of these counts but that of all boards.
    fn rarest(&self) -> usize {
        self.above_0.min(self.above_1).min(self.not_given_up)
    }
}

#[test]
fn every_plan_of_small_boards() {
    let mut draw = Draw::new(71);
    let (mut all, mut one_by_one) = (Seen::default(), Seen::default());
    for number in 0..8_000 {
        let board = drawn_board(&mut draw, 7, number);
        let closing = Closing::of(&board);
        let (jobs, slot) = (board.jobs(), board.slot);
        let shortfall = closing.closed.shortfall;
        assert_eq!(shortfall, least_by_sets(jobs, slot), "{jobs:?}");
        all.count(&closing);
        if slots_ahead(jobs, slot) <= 5 {
            assert_eq!(shortfall, least_by_trying(jobs, slot), "{jobs:?}");
            one_by_one.count(&closing);
        }
    }
    assert!(all.rarest() > 1_000, "{all:?}");
    assert!(one_by_one.rarest() > 500, "{one_by_one:?}");
}

#[test]
fn the_list_of_every_plan() {
    let mut draw = Draw::new(72);
    let mut seen = Seen::default();
    while seen.boards < 2_000 {
        let number = seen.boards as u32;
        let board = drawn_board(&mut draw, 5, number);
        let (jobs, slot) = (board.jobs(), board.slot);
        let ahead = slots_ahead(jobs, slot) as usize;
        if ahead > 4 {
            continue;
        }
        let closing = Closing::of(&board);
        let most = most_baked_by_trying(&book_from(jobs, slot), ahead);
        assert_eq!(closing.closed.shortfall as usize, jobs.len() - most);
        seen.count(&closing);
    }
    assert!(seen.rarest() > 100, "{seen:?}");
}

#[test]
fn a_matching_on_large_boards() {
    let mut draw = Draw::new(73);
    let mut seen = Seen::default();
    let (mut full, mut roomy, mut one) = (0, 0, 0);
    for number in 0..4_000 {
        let board = large_board(&mut draw, number);
        let closing = Closing::of(&board);
        let shortfall = closing.closed.shortfall;
        assert_eq!(shortfall, least_by_matching(board.jobs(), board.slot));
        seen.count(&closing);
        full += usize::from(board.held() == MOST_HELD);
        roomy += usize::from(shortfall == 0 && board.held() > 10);
        one += usize::from(shortfall == 1);
    }
    assert!(seen.rarest() > 2_000, "{seen:?}");
    let some = [full, roomy, one];
    assert!(some.iter().all(|&boards| boards > 100), "{some:?}");
}

#[test]
fn the_laying_out_is_a_plan() {
    let mut draw = Draw::new(74);
    for number in 0..3_000 {
        let board = large_board(&mut draw, number);
        let (jobs, slot) = (board.jobs(), board.slot);
        let laid = laid_out(jobs, slot);
        let plan = laid.iter().map(|job| Some(job.ticket)).collect();
        assert!(is_plan(&book_from(jobs, slot), &plan));
        let given_up = least_given_up(jobs, slot) as usize;
        assert_eq!(laid.len() + given_up, board.held());
    }
}

/// The paper's other words: 'zero where that excess is zero or more, else its size
/// below zero; an empty board has shortfall zero'.
fn by_excess(smallest: Option<i64>) -> u32 {
    match smallest {
        Some(excess) if excess < 0 => excess.unsigned_abs() as u32,
        _ => 0,
    }
}

#[test]
fn the_size_of_the_smallest_excess_below_zero() {
    let mut draw = Draw::new(75);
    let mut seen = [0; 5];
    for number in 0..20_000 {
        let board = match number % 2 {
            0 => drawn_board(&mut draw, 12, number / 2),
            _ => large_board(&mut draw, number / 2),
        };
        let smallest = smallest_excess(board.jobs(), board.slot);
        let shortfall = Closing::of(&board).closed.shortfall;
        assert_eq!(shortfall, by_excess(smallest));
        if let Some(excess) = smallest {
            seen[(excess.clamp(-2, 2) + 2) as usize] += 1;
        }
    }
    // Excess -2 or less, -1, 0, 1, 2 or more.
    assert!(seen[0] > 10_000, "{seen:?}");
    assert!(seen[1..].iter().all(|&boards| boards > 500), "{seen:?}");
}

#[test]
fn if_nothing_more_arrives_the_board_gives_up_just_so_many() {
    let mut draw = Draw::new(76);
    let mut tried = 0;
    for number in 0..3_000 {
        let mut board = large_board(&mut draw, number);
        if board.slot + LONGEST_LAXITY > LAST_SLOT {
            continue;
        }
        tried += 1;
        let closings = [Call::Close { lent: MOST_HELD }; LONGEST_LAXITY as usize];
        let mut still = least_given_up(board.jobs(), board.slot);
        for answer in play(&mut board, &closings) {
            let closed = match answer {
                Answer::Closed(closed) => closed,
                other => panic!("{other:?}"),
            };
            assert_eq!(closed.shortfall, still);
            still -= closed.expired.len() as u32;
        }
        assert_eq!((still, board.count), (0, 0));
    }
    assert!(tried > 1_500, "{tried}");
}
