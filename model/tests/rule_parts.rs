//! The parts of the rule, each on small examples.

mod common;

use common::{closings, worked};
use model::board::Job;
use model::rule::{
    bit, descend, excess, group, job_to_bake, laxity, no_regret_set, starts_with, tight_after,
    tight_laxity, tight_set,
};

/// A rack with a last slot and a grade.
fn job(ticket: u32, deadline: u32, grade: u32) -> Job {
    Job {
        ticket,
        admitted: 1,
        deadline,
        grade,
    }
}

fn tickets(jobs: &[Job]) -> Vec<u32> {
    jobs.iter().map(|job| job.ticket).collect()
}

#[test]
fn wait_in_a_slot() {
    let job = job(1, 12, 0);
    assert_eq!([9, 11, 12].map(|slot| laxity(&job, slot)), [4, 2, 1]);
}

#[test]
fn bits_are_written_highest_first() {
    let bits = |grade, depth: u32| -> Vec<u32> {
        let places = 0..depth as usize;
        places.map(|place| bit(grade, depth, place)).collect()
    };
    assert_eq!(bits(0, 0), []);
    assert_eq!(bits(1, 1), [1]);
    assert_eq!(bits(2, 2), [1, 0]);
    assert_eq!(bits(1, 3), [0, 0, 1]);
    assert_eq!(bits(6, 3), [1, 1, 0]);
    assert_eq!(bits(1, 5), [0, 0, 0, 0, 1]);
}

#[test]
fn grades_start_with_bits() {
    assert!(starts_with(6, 3, &[]));
    assert!(starts_with(6, 3, &[1, 1]));
    assert!(starts_with(6, 3, &[1, 1, 0]));
    assert!(!starts_with(6, 3, &[1, 0]));
    assert!(!starts_with(3, 3, &[1]));
    let jobs: Vec<Job> = (0..8).map(|grade| job(grade + 1, 5, grade)).collect();
    assert_eq!(tickets(&group(&jobs, 3, &[0])), [1, 2, 3, 4]);
    assert_eq!(tickets(&group(&jobs, 3, &[1, 0])), [5, 6]);
    assert_eq!(tickets(&group(&jobs, 3, &[1, 0, 1])), [6]);
}

#[test]
fn excess_may_be_below_zero_and_how_far_counts() {
    // Waits 1,1,2,2,5: excess -1 at 1, -2 at 2, 0 at 5.
    let board = worked(0, &[1, 1, 2, 2, 5].map(|wait| (wait, 0)));
    let jobs = board.jobs();
    assert_eq!([1, 2, 5].map(|wait| excess(jobs, 1, wait)), [-1, -2, 0]);
    assert_eq!(tight_laxity(jobs, 1), Some(2));
    assert_eq!(tickets(&tight_set(jobs, 1)), [1, 2, 3, 4]);
}

#[test]
fn no_racks_have_no_tight_wait() {
    assert_eq!(tight_laxity(&[], 1), None);
    assert_eq!(tight_set(&[], 1), []);
    assert_eq!(no_regret_set(&[], 1, 3), []);
    assert_eq!(job_to_bake(&[], 1, 3), None);
}

#[test]
fn the_rule_does_not_mind_the_order_of_the_racks() {
    let mut jobs = vec![job(1, 2, 1), job(2, 1, 2), job(3, 3, 0), job(4, 3, 3)];
    for _ in 0..4 {
        jobs.rotate_left(1);
        assert_eq!(job_to_bake(&jobs, 1, 2).map(|job| job.ticket), Some(1));
    }
}

#[test]
fn board_7_step_by_step() {
    let board = worked(2, &[(2, 1), (1, 2), (3, 0), (3, 3)]);
    let jobs = board.jobs();
    assert_eq!(tickets(&tight_after(jobs, 1, 2, 0)), [1, 2, 3, 4]);
    assert_eq!(descend(jobs, 1, 2, 1), [0]);
    assert_eq!(tickets(&tight_after(jobs, 1, 2, 1)), [1]);
    assert_eq!(descend(jobs, 1, 2, 2), [0, 1]);
    assert_eq!(tickets(&no_regret_set(jobs, 1, 2)), [1]);
}

#[test]
fn of_the_no_regret_set_the_least_last_slot_then_the_lowest_ticket() {
    // Waits 2,1,2: the whole board is tight, and the second rack is due first.
    let mut board = worked(0, &[(2, 0), (1, 0), (2, 0)]);
    assert_eq!(tickets(&no_regret_set(board.jobs(), 1, 0)), [1, 2, 3]);
    let seen = closings(&mut board, 3, job_to_bake);
    assert_eq!(seen, [(2, 0, vec![]), (1, 0, vec![3]), (0, 0, vec![])]);
}

#[test]
fn deeper_grades_than_a_board_has() {
    // The same board with 0s put before each grade.
    let board = worked(2, &[(2, 1), (1, 2), (3, 0), (3, 3)]);
    for depth in 2..=32 {
        let ticket = job_to_bake(board.jobs(), 1, depth).map(|job| job.ticket);
        assert_eq!(ticket, Some(1), "depth {depth}");
    }
}
