//! The old code's habits, each caught by the worked boards or by the totals.
//!
//! These tests show that the other tests bite.

mod common;

use common::trials::beaten;
use common::{closings, worked, Pick};
use model::board::{Board, Job};
use model::draw::Draw;
use model::rule::{bit, excess, first_due, group, job_to_bake, laxity, tight_laxity};
use model::samples;

/// A way to find l* of some racks, told the whole board too.
type Tight = fn(&[Job], &[Job], u32) -> Option<i64>;

/// The rule with another way to find l*.
fn rule_with(tight: Tight, jobs: &[Job], slot: u32, depth: u32) -> Option<Job> {
    let mut bits = Vec::new();
    loop {
        let mut set = group(jobs, depth, &bits);
        let wait = tight(&set, jobs, slot)?;
        set.retain(|job| laxity(job, slot) <= wait);
        if bits.len() == depth as usize {
            return first_due(set);
        }
        let place = bits.len();
        let zero = set.iter().any(|job| bit(job.grade, depth, place) == 0);
        bits.push(u32::from(!zero));
    }
}

/// The waits of some racks, from the least, each once.
fn waits(jobs: &[Job], slot: u32) -> Vec<i64> {
    let mut waits: Vec<i64> = jobs.iter().map(|job| laxity(job, slot)).collect();
    waits.sort_unstable();
    waits.dedup();
    waits
}

fn right_tight(set: &[Job], _: &[Job], slot: u32) -> Option<i64> {
    tight_laxity(set, slot)
}

fn greatest_tight(set: &[Job], _: &[Job], slot: u32) -> Option<i64> {
    let from_greatest = waits(set, slot).into_iter().rev();
    from_greatest.min_by_key(|&wait| excess(set, slot, wait))
}

fn tight_at_any_wait(set: &[Job], _: &[Job], slot: u32) -> Option<i64> {
    let greatest = waits(set, slot).last().copied()?;
    (1..=greatest).min_by_key(|&wait| excess(set, slot, wait))
}

fn tight_over_whole_board(set: &[Job], board: &[Job], slot: u32) -> Option<i64> {
    let waits = waits(set, slot).into_iter();
    waits.min_by_key(|&wait| excess(board, slot, wait))
}

fn right(jobs: &[Job], slot: u32, depth: u32) -> Option<Job> {
    rule_with(right_tight, jobs, slot, depth)
}

fn best_grade(jobs: &[Job], _: u32, _: u32) -> Option<Job> {
    let best = jobs.iter().map(|job| job.grade).min()?;
    first_due(
        jobs.iter()
            .filter(|job| job.grade == best)
            .copied()
            .collect(),
    )
}

fn least_deadline(jobs: &[Job], _: u32, _: u32) -> Option<Job> {
    first_due(jobs.to_vec())
}

fn greatest_on_ties(jobs: &[Job], slot: u32, depth: u32) -> Option<Job> {
    rule_with(greatest_tight, jobs, slot, depth)
}

fn waits_no_rack_has(jobs: &[Job], slot: u32, depth: u32) -> Option<Job> {
    rule_with(tight_at_any_wait, jobs, slot, depth)
}

fn whole_board(jobs: &[Job], slot: u32, depth: u32) -> Option<Job> {
    rule_with(tight_over_whole_board, jobs, slot, depth)
}

fn latest_ticket(jobs: &[Job], _: u32, _: u32) -> Option<Job> {
    jobs.last().copied()
}

fn idle(_: &[Job], _: u32, _: u32) -> Option<Job> {
    None
}

/// Boards 2 to 8: depth and racks.
fn boards() -> Vec<Board> {
    vec![
        worked(1, &[(1, 1), (2, 0)]),
        worked(1, &[(1, 1), (1, 0)]),
        worked(1, &[(1, 1), (2, 1), (2, 0)]),
        worked(1, &[(2, 1), (3, 0), (3, 0)]),
        worked(2, &[(2, 1), (1, 2), (3, 0)]),
        worked(2, &[(2, 1), (1, 2), (3, 0), (3, 3)]),
        worked(0, &[(3, 0)]),
    ]
}

/// The numbers of those boards on which a pick's closings are not the rule's.
fn wrong_boards(pick: Pick) -> Vec<usize> {
    let mut wrong = Vec::new();
    for (place, board) in boards().iter().enumerate() {
        let ours = closings(&mut board.clone(), 4, job_to_bake);
        let theirs = closings(&mut board.clone(), 4, pick);
        if ours != theirs {
            wrong.push(place + 2);
        }
    }
    wrong
}

/// On how many of so many random boards a pick names another rack.
fn differs(pick: Pick, trials: usize) -> usize {
    let mut draw = Draw::new(41);
    let mut differs = 0;
    for _ in 0..trials {
        let board = samples::board(&mut draw, 7);
        let (jobs, slot, depth) = (board.jobs(), board.slot, board.depth);
        differs += usize::from(pick(jobs, slot, depth) != job_to_bake(jobs, slot, depth));
    }
    differs
}

#[test]
fn the_rule_itself_passes() {
    assert_eq!(wrong_boards(right), []);
    assert_eq!(differs(right, 2_000), 0);
    assert_eq!(beaten(right, 2_000), 0);
}

#[test]
fn best_grade_present_loses_racks() {
    assert_eq!(wrong_boards(best_grade), [2, 5, 6, 7]);
    let mut board = worked(1, &[(1, 1), (2, 0)]);
    assert_eq!(closings(&mut board, 1, best_grade)[0].2, [1]);
    let mut board = worked(2, &[(2, 1), (1, 2), (3, 0)]);
    assert_eq!(closings(&mut board, 1, best_grade)[0].2, [2]);
    assert!(beaten(best_grade, 2_000) > 0);
}

#[test]
fn least_last_slot_has_the_total_right_and_grades_wrong() {
    assert!(wrong_boards(least_deadline).contains(&4));
    assert_eq!(beaten(least_deadline, 2_000), 0);
    assert!(differs(least_deadline, 2_000) > 0);
}

#[test]
fn greatest_tight_wait_on_ties() {
    let board = worked(0, &[3, 3, 5, 7, 7, 7, 9].map(|wait| (wait, 0)));
    assert_eq!(greatest_tight(board.jobs(), &[], 1), Some(7));
    assert!(wrong_boards(greatest_on_ties).contains(&2));
    assert!(beaten(greatest_on_ties, 2_000) > 0);
}

#[test]
fn excess_at_waits_that_no_rack_has() {
    let board = worked(0, &[(3, 0)]);
    assert_eq!(tight_at_any_wait(board.jobs(), &[], 1), Some(1));
    assert_eq!(waits_no_rack_has(board.jobs(), 1, 0), None);
    assert!(wrong_boards(waits_no_rack_has).contains(&8));
    assert!(beaten(waits_no_rack_has, 2_000) > 0);
}

#[test]
fn excess_over_the_whole_board() {
    assert_eq!(wrong_boards(whole_board), [7]);
    assert!(differs(whole_board, 20_000) > 0);
}

#[test]
fn other_worthless_boards() {
    assert!(!wrong_boards(latest_ticket).is_empty());
    assert!(beaten(latest_ticket, 2_000) > 0);
    assert_eq!(wrong_boards(idle), [2, 3, 4, 5, 6, 7, 8]);
    assert!(beaten(idle, 2_000) > 0);
}
