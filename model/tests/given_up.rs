//! The list of racks given up: 'by grade from best to worst, within a grade by rising ticket'.

mod common;

use common::{answers, worked};
use model::board::{Board, Job};
use model::calls::{close, Closed, Expired};
use model::draw::Draw;
use model::limits::{LAST_SLOT, LONGEST_LAXITY, MOST_HELD};
use model::samples;

/// Closes a board that is sound.
fn closed(board: &Board) -> Closed {
    close(&mut board.clone(), MOST_HELD).expect("a sound board")
}

/// The racks given up, as ticket and grade.
fn listed(board: &Board) -> Vec<(u32, u32)> {
    let expired = closed(board).expired;
    expired.iter().map(|job| (job.ticket, job.grade)).collect()
}

#[test]
fn grades_mixed_in_one_slot() {
    let grades = [3, 0, 2, 0, 1, 3, 1, 2];
    let board = worked(2, &grades.map(|grade| (1, grade)));
    assert_eq!(closed(&board).ticket, 2);
    let wanted = [(4, 0), (5, 1), (7, 1), (3, 2), (8, 2), (1, 3), (6, 3)];
    assert_eq!(listed(&board), wanted);
}

#[test]
fn worst_first_on_the_board() {
    let grades = [7, 6, 5, 4, 3, 2, 1, 0];
    let board = worked(3, &grades.map(|grade| (1, grade)));
    assert_eq!(closed(&board).ticket, 8);
    let wanted = [(7, 1), (6, 2), (5, 3), (4, 4), (3, 5), (2, 6), (1, 7)];
    assert_eq!(listed(&board), wanted);
}

#[test]
fn one_grade_is_by_ticket_alone() {
    for (depth, grade) in [(0, 0), (1, 1), (2, 2), (3, 5)] {
        let board = worked(depth, &[(1, grade); 5]);
        let wanted = [(2, grade), (3, grade), (4, grade), (5, grade)];
        assert_eq!(listed(&board), wanted);
    }
}

#[test]
fn racks_that_stay_stand_between() {
    let board = worked(1, &[(1, 1), (2, 0), (1, 0), (3, 1), (1, 0), (1, 1)]);
    assert_eq!(closed(&board).ticket, 3);
    assert_eq!(listed(&board), [(5, 0), (1, 1), (6, 1)]);
}

#[test]
fn an_entry_has_its_own_admitted_slot() {
    let job = |ticket, admitted, grade| Job {
        ticket,
        admitted,
        deadline: 40,
        grade,
    };
    // As early as a rack with last slot 40 can have come, and three slots later.
    let oldest = 40 + 1 - LONGEST_LAXITY;
    let later = oldest + 3;
    let jobs = [
        job(3, oldest, 1),
        job(5, later, 0),
        job(6, later, 1),
        job(8, 39, 0),
        job(9, 40, 1),
        job(11, 40, 0),
    ];
    let wanted = [
        (8, 0, 39),
        (11, 0, 40),
        (3, 1, oldest),
        (6, 1, later),
        (9, 1, 40),
    ];
    let wanted = wanted.map(|(ticket, grade, admitted)| Expired {
        ticket,
        grade,
        admitted,
    });
    let closed = closed(&Board::holding(1, 40, 11, &jobs));
    assert_eq!((closed.ticket, closed.grade), (5, 0));
    assert_eq!(closed.expired, wanted);
}

#[test]
fn printed_lines_are_in_the_lists_order() {
    let input = "D,3
A,8,2,6
A,9,2,1
A,10,2,6
A,11,3,0
A,12,2,1
B
A,13,1,7
A,99,1,6
A,100,1,1
A,101,1,0
B
B
";
    let wanted = [
        "D,3",
        "A,8,2",
        "A,9,2",
        "A,10,2",
        "A,11,3",
        "A,12,2",
        "B,1,9,1,0,2",
        "A,13,2",
        "A,99,2",
        "A,100,2",
        "A,101,2",
        "B,2,101,0,6,6",
        "G,2,12,1",
        "G,2,100,1",
        "G,2,8,6",
        "G,2,10,6",
        "G,2,99,6",
        "G,2,13,7",
        "B,3,11,0,0,0",
    ];
    assert_eq!(answers(input), wanted);
}

#[test]
fn the_greatest_tickets() {
    let seen = answers("D,1\nA,1,1,1\nA,4294967294,1,0\nA,4294967295,1,0\nB\n");
    let wanted = ["B,1,4294967294,0,2,2", "G,1,4294967295,0", "G,1,1,1"];
    assert_eq!(seen[4..], wanted);
}

#[test]
fn a_full_board_of_racks_in_their_last_slot() {
    // Eight racks from each of the last slots, one of each grade, the worst first.
    let (full, oldest) = (MOST_HELD as u32, 100 + 1 - LONGEST_LAXITY);
    let mut jobs = Vec::new();
    for ticket in 1..=full {
        jobs.push(Job {
            ticket,
            admitted: oldest + (ticket - 1) / 8,
            deadline: 100,
            grade: 7 - (ticket - 1) % 8,
        });
    }
    let board = Board::holding(3, 100, full, &jobs);
    assert_eq!((closed(&board).ticket, closed(&board).grade), (8, 0));
    let mut wanted = Vec::new();
    for grade in 0..8 {
        for round in 0..LONGEST_LAXITY {
            wanted.push((8 - grade + 8 * round, grade));
        }
    }
    // Ticket 8 is baked.
    wanted.remove(0);
    assert_eq!(listed(&board), wanted);
}

/// A sound board: small, of any size, full, or with every rack in its last slot.
fn drawn_board(draw: &mut Draw, number: u32) -> Board {
    let slot = draw.between(LONGEST_LAXITY, LAST_SLOT);
    match number % 5 {
        0 => samples::board(draw, 12),
        1 => samples::board(draw, MOST_HELD as u32),
        2 => samples::full_board(draw, slot),
        3 => samples::all_due(samples::board(draw, MOST_HELD as u32)),
        _ => samples::all_due(samples::full_board(draw, slot)),
    }
}

/// Whether an entry is to stand before another.
fn stands_before(one: &Expired, other: &Expired) -> bool {
    one.grade < other.grade || (one.grade == other.grade && one.ticket < other.ticket)
}

#[test]
fn drawn_boards_list_each_rack_once_and_in_order() {
    let mut draw = Draw::new(23);
    let mut several_grades = 0;
    for number in 0..3_000 {
        let board = drawn_board(&mut draw, number);
        let closed = closed(&board);
        let mut wanted = 0;
        for job in board.jobs() {
            let entry = Expired {
                ticket: job.ticket,
                grade: job.grade,
                admitted: job.admitted,
            };
            let given_up = job.deadline == board.slot && job.ticket != closed.ticket;
            let times = closed.expired.iter().filter(|other| **other == entry);
            assert_eq!(times.count(), usize::from(given_up));
            wanted += usize::from(given_up);
        }
        assert_eq!(closed.expired.len(), wanted);
        let mut pairs = closed.expired.windows(2);
        assert!(pairs.all(|pair| stands_before(&pair[0], &pair[1])));
        let grades = closed.expired.windows(2);
        let differ = |pair: &[Expired]| pair[0].grade != pair[1].grade;
        several_grades += usize::from(grades.into_iter().any(differ));
    }
    assert!(several_grades > 1_000, "{several_grades}");
}
