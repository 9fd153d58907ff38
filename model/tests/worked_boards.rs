//! Boards 1 to 9, worked by hand in the paper.

mod common;

use common::{answers, closings, worked};
use model::board::{Board, Job};
use model::calls::{admit, close, Closed};
use model::limits::{LAST_SLOT, LONGEST_LAXITY, MOST_HELD};
use model::refusal::Refusal;
use model::rule::{excess, job_to_bake, tight_laxity, tight_set};

/// No tickets.
const NONE: Vec<u32> = Vec::new();

#[test]
fn board_1_excess_and_tight_set() {
    let racks = [3, 3, 5, 7, 7, 7, 9].map(|wait| (wait, 0));
    let board = worked(0, &racks);
    let jobs = board.jobs();
    assert_eq!([3, 5, 7, 9].map(|wait| excess(jobs, 1, wait)), [1, 2, 1, 2]);
    assert_eq!(tight_laxity(jobs, 1), Some(3));
    let tight: Vec<u32> = tight_set(jobs, 1).iter().map(|job| job.ticket).collect();
    assert_eq!(tight, [1, 2]);
}

#[test]
fn board_2_grade_1_then_grade_0() {
    let mut board = worked(1, &[(1, 1), (2, 0)]);
    let seen = closings(&mut board, 3, job_to_bake);
    assert_eq!(seen, [(1, 1, NONE), (2, 0, NONE), (0, 0, NONE)]);
}

#[test]
fn board_3_grade_0_and_grade_1_given_up() {
    let mut board = worked(1, &[(1, 1), (1, 0)]);
    let seen = closings(&mut board, 2, job_to_bake);
    assert_eq!(seen, [(2, 0, vec![1]), (0, 0, NONE)]);
}

#[test]
fn board_4_grade_0_then_the_later_grade_1() {
    let mut board = worked(1, &[(1, 1), (2, 1), (2, 0)]);
    let seen = closings(&mut board, 3, job_to_bake);
    assert_eq!(seen, [(3, 0, vec![1]), (2, 1, NONE), (0, 0, NONE)]);
}

#[test]
fn board_5_lower_ticket_of_grade_0_then_1_then_0() {
    let mut board = worked(1, &[(2, 1), (3, 0), (3, 0)]);
    let seen = closings(&mut board, 4, job_to_bake);
    let wanted = [(2, 0, NONE), (1, 1, NONE), (3, 0, NONE), (0, 0, NONE)];
    assert_eq!(seen, wanted);
}

#[test]
fn board_6_the_1_2_first() {
    let mut board = worked(2, &[(2, 1), (1, 2), (3, 0)]);
    assert_eq!(closings(&mut board, 1, job_to_bake), [(2, 2, NONE)]);
}

#[test]
fn board_7_the_2_1_first_and_1_2_given_up() {
    let mut board = worked(2, &[(2, 1), (1, 2), (3, 0), (3, 3)]);
    let seen = closings(&mut board, 4, job_to_bake);
    let wanted = [(1, 1, vec![2]), (3, 0, NONE), (4, 3, NONE), (0, 0, NONE)];
    assert_eq!(seen, wanted);
}

#[test]
fn board_8_one_rack_and_none() {
    for depth in 0..=3 {
        let mut board = worked(depth, &[(3, 0)]);
        let seen = closings(&mut board, 2, job_to_bake);
        assert_eq!(seen, [(1, 0, NONE), (0, 0, NONE)]);
        assert_eq!((board.slot, board.count), (3, 0));
    }
}

#[test]
fn board_9_waits() {
    let mut board = worked(0, &[]);
    let longest = LONGEST_LAXITY;
    assert_eq!(admit(&mut board, 1, longest, 0), Ok(longest));
    assert_eq!(admit(&mut board, 2, longest + 1, 0), Err(Refusal::Laxity));
    assert_eq!(admit(&mut board, 2, 0, 0), Err(Refusal::Laxity));
}

#[test]
fn board_9_waits_as_lines() {
    let longest = LONGEST_LAXITY;
    let too_long = longest + 1;
    let input = format!("D,0\nA,1,{longest},0\nA,2,{too_long},0\nA,2,0,0\nB\nA,2,{longest},0\n");
    let [first, second] = [1, 2].map(|slot| slot + longest - 1);
    let wanted = format!("D,0 A,1,{first} R,3,5 R,4,5 B,1,1,0,0,0 A,2,{second}");
    assert_eq!(answers(&input).join(" "), wanted);
}

#[test]
fn board_9_eight_racks_a_slot() {
    let mut board = worked(0, &[(5, 0); 7]);
    assert_eq!(admit(&mut board, 8, 5, 0), Ok(5));
    assert_eq!(admit(&mut board, 9, 5, 0), Err(Refusal::SlotFull));
}

#[test]
fn board_9_last_slot_of_the_book() {
    let job = Job {
        ticket: 1,
        admitted: LAST_SLOT,
        deadline: LAST_SLOT + 1,
        grade: 0,
    };
    let mut board = Board::holding(0, LAST_SLOT, 1, &[job]);
    let closed = Closed {
        ticket: 1,
        grade: 0,
        expired: Vec::new(),
        shortfall: 0,
    };
    assert_eq!(close(&mut board, MOST_HELD), Ok(closed));
    assert_eq!(close(&mut board, MOST_HELD), Err(Refusal::BookEnded));
    assert_eq!(admit(&mut board, 2, 1, 0), Err(Refusal::BookEnded));
}

#[test]
fn board_9_tickets() {
    let mut board = worked(0, &[(5, 0)]);
    assert_eq!(admit(&mut board, 1, 5, 0), Err(Refusal::Ticket));
    let too_long = LONGEST_LAXITY + 1;
    assert_eq!(admit(&mut board, 1, too_long, 0), Err(Refusal::Ticket));
}

#[test]
fn board_9_line_length() {
    let forty = format!("A,1,1,{}", "0".repeat(34));
    assert_eq!(forty.len(), 40);
    let input = format!("D,1\n{forty}\n{forty}0\nA,1,1,0\n");
    assert_eq!(answers(&input), ["D,1", "R,2,14", "R,3,11", "A,1,1"]);
}
