//! Every refusal of the calls, in order, and that it changes nothing.

mod common;

use model::board::{open, Board, Job};
use model::calls::{admit, close};
use model::draw::Draw;
use model::edges;
use model::limits::{FULL_COUNT, LAST_SLOT, LONGEST_LAXITY, MOST_HELD};
use model::refusal::Refusal;
use model::samples;
use model::tally::Tally;

/// A board with the faults asked for; each can be there with or without the others.
fn board_with(unsound: bool, ended: bool, slot_full: bool) -> Board {
    let slot = if ended { LAST_SLOT + 1 } else { 700 };
    let many = if slot_full { 8 } else { 7 };
    let mut jobs = Vec::new();
    for ticket in 1..=many {
        jobs.push(Job {
            ticket,
            admitted: slot,
            deadline: slot + 3,
            grade: 0,
        });
    }
    let mut board = Board::holding(1, slot, 9, &jobs);
    if unsound {
        board.places[MOST_HELD - 1].grade = 1;
    }
    board
}

/// The faults numbered from 2 on; the answer to be given is the least, if any.
fn least(faults: &[(bool, u32)]) -> Option<u32> {
    let present = faults.iter().filter(|(present, _)| *present);
    present.map(|(_, number)| *number).min()
}

#[test]
fn numbers_are_the_papers() {
    let all = [
        Refusal::Depth,
        Refusal::Unsound,
        Refusal::BookEnded,
        Refusal::Ticket,
        Refusal::Laxity,
        Refusal::Grade,
        Refusal::SlotFull,
        Refusal::ListShort,
        Refusal::NoSuchCount,
        Refusal::CountFull,
        Refusal::LineLong,
        Refusal::Letter,
        Refusal::FieldCount,
        Refusal::Field,
        Refusal::NotNow,
        Refusal::OffSheet,
        Refusal::NotWaiting,
    ];
    let numbers: Vec<u32> = all.iter().map(|refusal| refusal.number()).collect();
    assert_eq!(numbers, (1..=17).collect::<Vec<u32>>());
}

#[test]
fn opening() {
    for depth in 0..=3 {
        let board = Board::holding(depth, 1, 0, &[]);
        assert_eq!(open(depth), (board, Ok(())));
    }
    for depth in [4, 5, 8, 255, 256, u32::MAX] {
        assert_eq!(open(depth), (Board::zero(), Err(Refusal::Depth)));
    }
}

#[test]
fn admitting_gives_the_first_of_any_faults() {
    for faults in 0..64u32 {
        let has = |place: u32| faults >> place & 1 == 1;
        let mut board = board_with(has(0), has(1), has(5));
        let before = board.clone();
        let ticket = if has(2) { 9 } else { 10 };
        let laxity = LONGEST_LAXITY + u32::from(has(3));
        let grade = if has(4) { 2 } else { 1 };
        let answer = admit(&mut board, ticket, laxity, grade);
        let numbered: Vec<(bool, u32)> = (0..6).map(|place| (has(place), place + 2)).collect();
        match least(&numbered) {
            Some(number) => {
                assert_eq!(answer.map_err(Refusal::number), Err(number));
                assert_eq!(board, before);
            }
            None => {
                assert_eq!(answer, Ok(700 + LONGEST_LAXITY - 1));
                assert_eq!((board.count, board.highest_ticket), (8, 10));
            }
        }
    }
}

#[test]
fn closing_gives_the_first_of_any_faults() {
    for faults in 0..8u32 {
        let has = |place: u32| faults >> place & 1 == 1;
        let mut board = board_with(has(0), has(1), false);
        let before = board.clone();
        let lent = if has(2) { MOST_HELD - 1 } else { MOST_HELD };
        let answer = close(&mut board, lent);
        match least(&[(has(0), 2), (has(1), 3), (has(2), 8)]) {
            Some(number) => {
                assert_eq!(answer.map_err(Refusal::number), Err(number));
                assert_eq!(board, before);
            }
            None => {
                assert_eq!(answer.map(|closed| closed.ticket), Ok(1));
                assert_eq!((board.count, board.slot), (6, 701));
            }
        }
    }
}

#[test]
fn ends_of_the_ranges() {
    let try_admit = |ticket, laxity, grade| {
        let mut board = board_with(false, false, false);
        admit(&mut board, ticket, laxity, grade).map_err(Refusal::number)
    };
    assert_eq!(try_admit(0, 1, 0), Err(4));
    assert_eq!(try_admit(8, 1, 0), Err(4));
    assert_eq!(try_admit(u32::MAX, 1, 0), Ok(700));
    assert_eq!(try_admit(10, 0, 0), Err(5));
    assert_eq!(try_admit(10, u32::MAX, 0), Err(5));
    assert_eq!(try_admit(10, 1, u32::MAX), Err(6));
    for lent in [0, 1, MOST_HELD - 1] {
        let answer = close(&mut board_with(false, false, false), lent);
        assert_eq!(answer, Err(Refusal::ListShort));
    }
    for lent in [MOST_HELD, MOST_HELD + 1, 100_000] {
        assert!(close(&mut board_with(false, false, false), lent).is_ok());
    }
}

#[test]
fn every_wait_up_to_the_longest_and_none_longer() {
    for slot in [1, 700, LAST_SLOT] {
        let board = Board::holding(0, slot, 0, &[]);
        let try_wait = |wait| admit(&mut board.clone(), 1, wait, 0);
        for wait in 1..=LONGEST_LAXITY {
            assert_eq!(try_wait(wait), Ok(slot + wait - 1));
            assert_eq!(try_wait(LONGEST_LAXITY + wait), Err(Refusal::Laxity));
        }
    }
}

#[test]
fn a_full_board_is_closed_with_a_list_of_as_many_entries_as_places() {
    let mut draw = Draw::new(7);
    let board = samples::all_due(samples::full_board(&mut draw, 700));
    let mut closed = board.clone();
    assert_eq!(close(&mut closed, MOST_HELD - 1), Err(Refusal::ListShort));
    assert_eq!(closed, board);
    let answer = close(&mut closed, MOST_HELD).expect("the list is long enough");
    assert_eq!((answer.expired.len(), closed.count), (MOST_HELD - 1, 0));
}

#[test]
fn grades_at_every_depth() {
    for depth in 0..=3 {
        let board = open(depth).0;
        for grade in 0..10 {
            let answer = admit(&mut board.clone(), 1, 1, grade);
            assert_eq!(answer.is_ok(), grade < 1 << depth);
        }
    }
}

#[test]
fn the_highest_ticket_has_no_ticket_after_it() {
    let mut board = open(0).0;
    assert_eq!(admit(&mut board, u32::MAX, 1, 0), Ok(1));
    for ticket in [0, 1, u32::MAX - 1, u32::MAX] {
        assert_eq!(admit(&mut board, ticket, 1, 0), Err(Refusal::Ticket));
    }
}

#[test]
fn an_unsound_board_comes_back_as_it_was() {
    let mut draw = Draw::new(5);
    for _ in 0..50 {
        for (_, make) in edges::BROKEN {
            let mut board = make(&mut draw);
            let before = board.clone();
            assert_eq!(admit(&mut board, u32::MAX, 1, 0), Err(Refusal::Unsound));
            assert_eq!(admit(&mut board, 0, 0, 99), Err(Refusal::Unsound));
            assert_eq!(close(&mut board, MOST_HELD), Err(Refusal::Unsound));
            assert_eq!(close(&mut board, 0), Err(Refusal::Unsound));
            assert_eq!(board, before);
        }
    }
}

#[test]
fn a_full_board_has_no_refusal_of_its_own() {
    let mut draw = Draw::new(6);
    let mut board = samples::full_board(&mut draw, 500);
    assert_eq!(admit(&mut board, 1000, 1, 0), Err(Refusal::SlotFull));
    assert!(close(&mut board, MOST_HELD).is_ok());
    assert_eq!(admit(&mut board, 1000, 1, 0), Ok(501));
}

#[test]
fn the_last_place_is_taken_like_any_other() {
    let mut draw = Draw::new(8);
    let mut board = samples::full_board(&mut draw, 500);
    // Without its last rack the board has a place left, and the slot an eighth rack to come.
    let without_last = board.jobs()[..MOST_HELD - 1].to_vec();
    board.put(&without_last);
    assert_eq!(
        admit(&mut board, 1000, LONGEST_LAXITY, 0),
        Ok(500 + LONGEST_LAXITY - 1)
    );
    assert_eq!(
        (board.held(), board.places[MOST_HELD - 1].ticket),
        (MOST_HELD, 1000)
    );
    assert_eq!(admit(&mut board, 1001, 1, 0), Err(Refusal::SlotFull));
}

#[test]
fn tally_kind_or_grade_out_of_range() {
    let mut tally = Tally::default();
    for (kind, grade) in [(4, 0), (0, 8), (3, 8), (4, 8), (u32::MAX, 0), (0, u32::MAX)] {
        assert_eq!(tally.record(kind, grade), Err(Refusal::NoSuchCount));
    }
    assert_eq!(tally, Tally::default());
}

#[test]
fn tally_count_full() {
    for kind in 0..4 {
        for grade in 0..8 {
            let mut tally = Tally::default();
            let place = (kind as usize, grade as usize);
            tally.counts[place.0][place.1] = FULL_COUNT - 1;
            assert_eq!(tally.record(kind, grade), Ok(()));
            let full = tally.clone();
            assert_eq!(full.count(kind, grade), FULL_COUNT);
            assert_eq!(tally.record(kind, grade), Err(Refusal::CountFull));
            assert_eq!(tally, full);
            // Another count is not touched by that.
            assert_eq!(tally.record(kind, (grade + 1) % 8), Ok(()));
        }
    }
}
