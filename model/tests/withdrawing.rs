//! Withdrawing: the call, its rows in order, and what it leaves as it was.

mod common;

use common::boards::{held, held_for_long, large_board};
use common::withdrawals::{baked_from, gets_another_baked};
use common::{worked, Closing};
use model::board::{open, Board, Job};
use model::calls::{admit, close, promise, withdraw};
use model::draw::Draw;
use model::edges;
use model::limits::{LAST_SLOT, LONGEST_LAXITY, MOST_HELD};
use model::refusal::Refusal;
use model::samples;
use model::soundness::is_sound;

/// A rack with last slot 53, for a board in slot 50.
fn job(ticket: u32, admitted: u32, grade: u32) -> Job {
    Job {
        ticket,
        admitted,
        deadline: 53,
        grade,
    }
}

/// Four racks in slot 50, the last one admitted in it.
const FOUR: [(u32, u32, u32); 4] = [(3, 40, 2), (5, 40, 0), (8, 49, 3), (9, 50, 1)];

/// A board of these racks. Highest ticket 12: three more were admitted, and are gone.
fn board_of(racks: &[(u32, u32, u32)]) -> Board {
    let jobs = racks.iter();
    let jobs: Vec<Job> = jobs.map(|&(t, admitted, g)| job(t, admitted, g)).collect();
    Board::holding(2, 50, 12, &jobs)
}

/// The board without the rack of this ticket, all else as it is.
fn without(board: &Board, ticket: u32) -> Board {
    let mut left = board.jobs().to_vec();
    left.retain(|job| job.ticket != ticket);
    Board::holding(board.depth, board.slot, board.highest_ticket, &left)
}

/// A withdrawal is refused with this number, and the board stays as it is.
fn is_refused(board: &Board, ticket: u32, refusal: Refusal) {
    let mut after = board.clone();
    assert_eq!(withdraw(&mut after, ticket), Err(refusal), "{ticket}");
    assert_eq!(after, *board);
}

/// The tickets on the board that were admitted before this slot.
fn earlier(board: &Board) -> Vec<u32> {
    let jobs = board.jobs().iter();
    let earlier = jobs.filter(|job| job.admitted < board.slot);
    earlier.map(|job| job.ticket).collect()
}

#[test]
fn it_takes_the_rack_off_and_tells_its_grade() {
    for (ticket, grade, left) in [
        (3, 2, [FOUR[1], FOUR[2], FOUR[3]]),
        (5, 0, [FOUR[0], FOUR[2], FOUR[3]]),
        (8, 3, [FOUR[0], FOUR[1], FOUR[3]]),
    ] {
        let mut board = board_of(&FOUR);
        assert_eq!(withdraw(&mut board, ticket), Ok(grade));
        assert_eq!(board, board_of(&left));
        assert_eq!((board.slot, board.highest_ticket, board.count), (50, 12, 3));
    }
}

#[test]
fn every_rack_of_drawn_boards() {
    let mut draw = Draw::new(131);
    let (mut off, mut this_slot) = (0, 0);
    for number in 0..600 {
        let board = large_board(&mut draw, number);
        for job in board.jobs() {
            if job.admitted == board.slot {
                is_refused(&board, job.ticket, Refusal::NotWaiting);
                this_slot += 1;
                continue;
            }
            let mut after = board.clone();
            assert_eq!(withdraw(&mut after, job.ticket), Ok(job.grade));
            assert_eq!(after, without(&board, job.ticket));
            assert!(is_sound(&after));
            off += 1;
        }
    }
    assert!(off > 20_000 && this_slot > 1_000, "{off} {this_slot}");
}

#[test]
fn seventeen_when_the_ticket_is_not_on_the_board() {
    let board = board_of(&FOUR);
    // 0; between the racks; up to the highest so far; above it.
    for ticket in [0, 1, 2, 4, 6, 7, 10, 11, 12, 13, 50, 255, u32::MAX] {
        is_refused(&board, ticket, Refusal::NotWaiting);
    }
    for depth in 0..=3 {
        for ticket in [0, 1, u32::MAX] {
            is_refused(&open(depth).0, ticket, Refusal::NotWaiting);
        }
    }
}

#[test]
fn seventeen_for_0_however_full_the_board_is() {
    let mut draw = Draw::new(132);
    is_refused(&samples::full_board(&mut draw, 99), 0, Refusal::NotWaiting);
    for many in [0, 1, 7, 8, MOST_HELD - 1] {
        is_refused(&held_for_long(99, many), 0, Refusal::NotWaiting);
    }
}

#[test]
fn seventeen_when_it_was_admitted_in_this_slot() {
    is_refused(&board_of(&FOUR), 9, Refusal::NotWaiting);
    // In the next slot it can be withdrawn.
    let mut board = worked(1, &[(3, 1), (3, 1), (3, 0)]);
    for ticket in 1..=3 {
        is_refused(&board, ticket, Refusal::NotWaiting);
    }
    assert_eq!(close(&mut board, MOST_HELD).map(|c| c.ticket), Ok(3));
    assert_eq!(withdraw(&mut board, 2), Ok(1));
    assert_eq!(withdraw(&mut board, 1), Ok(1));
}

#[test]
fn seventeen_for_racks_that_have_left_the_board() {
    // Ticket 2 is baked, ticket 1 given up, ticket 3 withdrawn.
    let mut board = worked(1, &[(1, 1), (1, 0), (5, 1), (5, 1)]);
    let closed = close(&mut board, MOST_HELD).expect("a closing");
    assert_eq!((closed.ticket, closed.expired[0].ticket), (2, 1));
    assert_eq!(withdraw(&mut board, 3), Ok(1));
    for ticket in 1..=3 {
        is_refused(&board, ticket, Refusal::NotWaiting);
    }
    assert_eq!(withdraw(&mut board, 4), Ok(1));
    is_refused(&board, 4, Refusal::NotWaiting);
    assert_eq!(board, Board::holding(1, 2, 4, &[]));
}

#[test]
fn the_first_of_any_faults() {
    for faults in 0..8u32 {
        let has = |place: u32| faults >> place & 1 == 1;
        let slot = if has(1) { LAST_SLOT + 1 } else { LAST_SLOT };
        let jobs = [(1, slot - 1), (2, slot - 1), (3, slot)].map(|(ticket, admitted)| Job {
            ticket,
            admitted,
            deadline: slot + 3,
            grade: 1,
        });
        let mut board = Board::holding(1, slot, 3, &jobs);
        if has(0) {
            board.places[MOST_HELD - 1].grade = 1;
        }
        // Each reason for 17, or none.
        for ticket in if has(2) { vec![0, 3, 4] } else { vec![1, 2] } {
            let first = match (has(0), has(1), has(2)) {
                (true, _, _) => Refusal::Unsound,
                (_, true, _) => Refusal::BookEnded,
                (_, _, true) => Refusal::NotWaiting,
                _ => {
                    assert_eq!(withdraw(&mut board.clone(), ticket), Ok(1));
                    continue;
                }
            };
            is_refused(&board, ticket, first);
        }
    }
}

#[test]
fn two_for_each_unsound_board() {
    let mut draw = Draw::new(133);
    for _ in 0..50 {
        for (_, make) in edges::BROKEN {
            let board = make(&mut draw);
            let on_board = board.jobs().first().map_or(1, |job| job.ticket);
            for ticket in [0, on_board, u32::MAX] {
                is_refused(&board, ticket, Refusal::Unsound);
            }
        }
    }
    is_refused(&Board::zero(), 0, Refusal::Unsound);
}

#[test]
fn sound_boards_at_each_bound_are_answered() {
    let mut draw = Draw::new(134);
    let mut off = 0;
    for _ in 0..20 {
        for (_, make) in edges::BOUNDARY {
            let board = make(&mut draw);
            let earlier = earlier(&board);
            for job in board.jobs() {
                let mut after = board.clone();
                let answer = withdraw(&mut after, job.ticket);
                if board.slot == LAST_SLOT + 1 {
                    assert_eq!(answer, Err(Refusal::BookEnded));
                } else if earlier.contains(&job.ticket) {
                    assert_eq!(answer, Ok(job.grade));
                    assert_eq!(after, without(&board, job.ticket));
                    off += 1;
                } else {
                    assert_eq!(answer, Err(Refusal::NotWaiting));
                }
            }
        }
    }
    assert!(off > 10_000, "{off}");
}

#[test]
fn three_past_the_books_end() {
    let ended = LAST_SLOT + 1;
    is_refused(&Board::holding(0, ended, 9, &[]), 0, Refusal::BookEnded);
    // Eight of them were admitted in this slot.
    let board = held(ended, &[3; 12]);
    for ticket in [0, 1, 4, 5, 12, 13] {
        is_refused(&board, ticket, Refusal::BookEnded);
    }
    // The last slot of the book is not refused; closing it ends the book.
    let mut board = held(LAST_SLOT, &[3; 12]);
    assert_eq!(withdraw(&mut board, 2), Ok(0));
    close(&mut board, MOST_HELD).expect("a closing");
    is_refused(&board, 3, Refusal::BookEnded);
}

#[test]
fn admitting_a_withdrawn_ticket_again_gets_4() {
    let mut board = worked(0, &[(9, 0); 4]);
    close(&mut board, MOST_HELD).expect("a closing");
    // The highest ticket goes on as it was, also when that rack itself is withdrawn.
    for ticket in [4, 2] {
        assert_eq!(withdraw(&mut board, ticket), Ok(0));
        assert_eq!(board.highest_ticket, 4);
        assert_eq!(admit(&mut board, ticket, 9, 0), Err(Refusal::Ticket));
    }
    assert_eq!(admit(&mut board, 5, 9, 0), Ok(10));
}

#[test]
fn the_greatest_ticket() {
    let mut board = open(0).0;
    assert_eq!(admit(&mut board, u32::MAX - 1, 9, 0), Ok(9));
    assert_eq!(admit(&mut board, u32::MAX, 9, 0), Ok(9));
    close(&mut board, MOST_HELD).expect("a closing");
    assert_eq!(withdraw(&mut board, u32::MAX), Ok(0));
    // No ticket is left for another rack.
    assert_eq!(admit(&mut board, u32::MAX, 9, 0), Err(Refusal::Ticket));
    assert_eq!(board, Board::holding(0, 2, u32::MAX, &[]));
}

#[test]
fn row_7_counts_the_racks_of_this_slot_as_before() {
    let mut board = worked(0, &[(9, 0); 8]);
    close(&mut board, MOST_HELD).expect("a closing");
    for ticket in 9..=16 {
        assert_eq!(admit(&mut board, ticket, 9, 0), Ok(10));
    }
    // No rack taken off makes room in this slot.
    for ticket in 2..=8 {
        assert_eq!(admit(&mut board, 17, 9, 0), Err(Refusal::SlotFull));
        assert_eq!(withdraw(&mut board, ticket), Ok(0));
    }
    assert_eq!(admit(&mut board, 17, 9, 0), Err(Refusal::SlotFull));
    is_refused(&board, 9, Refusal::NotWaiting);
    assert_eq!(board.count, 8);
    close(&mut board, MOST_HELD).expect("a closing");
    assert_eq!(admit(&mut board, 17, 9, 0), Ok(11));
}

#[test]
fn one_after_the_other_until_only_this_slots_racks_are_left() {
    let mut draw = Draw::new(135);
    for number in 0..200 {
        let mut board = large_board(&mut draw, number);
        let now = samples::admitted_now(&board);
        let mut tickets = earlier(&board);
        while !tickets.is_empty() {
            let ticket = tickets.swap_remove(draw.index(tickets.len()));
            let wanted = without(&board, ticket);
            assert!(withdraw(&mut board, ticket).is_ok());
            assert_eq!(board, wanted);
        }
        let left: Vec<u32> = board.jobs().iter().map(|job| job.ticket).collect();
        assert_eq!(left, now);
    }
}

#[test]
fn a_rack_in_its_last_slot_and_one_with_the_longest_wait() {
    let mut board = worked(0, &[(2, 0), (2, 0), (LONGEST_LAXITY, 0)]);
    close(&mut board, MOST_HELD).expect("a closing");
    for ticket in [2, 3] {
        assert_eq!(withdraw(&mut board, ticket), Ok(0));
    }
    let closed = close(&mut board, MOST_HELD).expect("a closing");
    assert_eq!((closed.ticket, closed.expired.len()), (0, 0));
}

#[test]
fn another_rack_is_baked_in_its_place() {
    // Board 4, its racks admitted a slot before: 1/1, 2/1, 2/0.
    let racks = [(1, 9, 1), (2, 10, 1), (3, 10, 0)];
    let jobs = racks.map(|(ticket, deadline, grade)| Job {
        ticket,
        admitted: 8,
        deadline,
        grade,
    });
    let board = Board::holding(1, 9, 3, &jobs);
    assert_eq!(baked_from(&board), [2, 3].into());
    for (ticket, baked, another) in [(1, [2, 3], false), (2, [1, 3], true), (3, [1, 2], true)] {
        let mut left = board.clone();
        assert!(withdraw(&mut left, ticket).is_ok());
        assert_eq!(baked_from(&left), baked.into());
        assert_eq!(gets_another_baked(&board, ticket), another);
    }
}

#[test]
fn shortfall_and_promise_are_those_of_the_racks_left() {
    let mut draw = Draw::new(136);
    let (mut fewer, mut as_many, mut shorter) = (0, 0, 0);
    for number in 0..2_000 {
        let board = match number % 2 {
            0 => large_board(&mut draw, number / 2),
            _ => {
                let slot = draw.between(LONGEST_LAXITY, LAST_SLOT);
                let wait = draw.between(1, LONGEST_LAXITY);
                samples::filled_board(&mut draw, slot, wait, 9)
            }
        };
        let mut left = board.clone();
        let ticket = match samples::to_withdraw(&mut draw, &board) {
            Some(ticket) => ticket,
            None => continue,
        };
        assert!(withdraw(&mut left, ticket).is_ok());
        let lost = |board: &Board| Closing::of(board).closed.shortfall;
        let (before, after) = (lost(&board), lost(&left));
        assert!(after == before || after + 1 == before);
        fewer += usize::from(after < before);
        as_many += usize::from(after == before);
        if before == 0 {
            let wait = |board: &Board| match promise(board) {
                Ok(0) => LONGEST_LAXITY + 1,
                answer => answer.expect("a sound board"),
            };
            assert!(wait(&left) <= wait(&board));
            shorter += usize::from(wait(&left) < wait(&board));
        }
    }
    let seen = [fewer, as_many, shorter];
    assert!(seen.iter().all(|&boards| boards > 300), "{seen:?}");
}
