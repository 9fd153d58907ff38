//! Soundness: for each clause a board that only it rejects, and bounds that pass.

mod common;

use model::board::{open, Board, Job};
use model::draw::Draw;
use model::edges;
use model::limits::{LAST_SLOT, LONGEST_LAXITY, MOST_HELD};
use model::samples;
use model::soundness::{broken, is_sound, CLAUSES};

#[test]
fn each_clause_alone_rejects_a_board() {
    let mut draw = Draw::new(1);
    for _ in 0..200 {
        for (clause, make) in edges::BROKEN {
            let board = make(&mut draw);
            assert_eq!(broken(&board), [clause], "{board:?}");
            assert!(!is_sound(&board));
        }
    }
}

#[test]
fn every_clause_has_such_a_board() {
    for (clause, _) in CLAUSES {
        assert!(edges::BROKEN.iter().any(|(name, _)| *name == clause));
    }
}

#[test]
fn boards_on_a_bound_are_sound() {
    let mut draw = Draw::new(2);
    for _ in 0..200 {
        for (bound, make) in edges::BOUNDARY {
            let board = make(&mut draw);
            assert_eq!(broken(&board), Vec::<&str>::new(), "{bound}: {board:?}");
            assert!(is_sound(&board));
        }
    }
}

#[test]
fn random_boards_are_sound() {
    let mut draw = Draw::new(3);
    for _ in 0..5_000 {
        let board = samples::board(&mut draw, 40);
        assert_eq!(broken(&board), Vec::<&str>::new(), "{board:?}");
    }
}

#[test]
fn opened_boards_are_sound_and_the_zero_board_is_not() {
    for depth in 0..=3 {
        assert!(is_sound(&open(depth).0));
    }
    assert!(!is_sound(&open(4).0));
    assert_eq!(broken(&Board::zero()), ["slot"]);
}

#[test]
fn each_field_past_the_count_must_be_zero() {
    for place in [0, 1, 100, MOST_HELD - 1] {
        for field in 0..4 {
            let mut board = open(2).0;
            let job = &mut board.places[place];
            let fields = [
                &mut job.ticket,
                &mut job.admitted,
                &mut job.deadline,
                &mut job.grade,
            ];
            *fields.into_iter().nth(field).expect("four fields") = 1;
            assert_eq!(broken(&board), ["unused"]);
        }
    }
}

#[test]
fn as_many_racks_as_places_and_no_more() {
    let mut draw = Draw::new(8);
    for slot in [LONGEST_LAXITY, 700, LAST_SLOT + 1] {
        let full = samples::full_board(&mut draw, slot);
        assert_eq!(full.held(), MOST_HELD);
        assert!(is_sound(&full));
        let mut one_fewer = full.clone();
        one_fewer.put(&full.jobs()[..MOST_HELD - 1]);
        assert_eq!(one_fewer.count as usize, MOST_HELD - 1);
        assert!(is_sound(&one_fewer));
        let one_more = Board {
            count: full.count + 1,
            ..full
        };
        assert_eq!(broken(&one_more), ["count"]);
    }
}

#[test]
fn from_admitted_slot_to_last_slot_is_less_than_the_longest_wait() {
    let with_rack = |admitted, deadline| {
        let job = Job {
            ticket: 1,
            admitted,
            deadline,
            grade: 0,
        };
        Board::holding(0, 700, 1, &[job])
    };
    // The rack has come in this slot; its last slot is this one; the slot is between them.
    for admitted in [700, 701 - LONGEST_LAXITY, 700 - LONGEST_LAXITY / 2] {
        let latest = admitted + LONGEST_LAXITY - 1;
        assert!(is_sound(&with_rack(admitted, latest)));
        assert_eq!(broken(&with_rack(admitted, latest + 1)), ["span"]);
        assert_eq!(broken(&with_rack(admitted - 1, latest)), ["span"]);
    }
}

#[test]
fn wild_numbers_are_unsound_and_do_no_harm() {
    // About the limits, the bits of a number and the values of a byte.
    let (longest, places) = (LONGEST_LAXITY, MOST_HELD as u32);
    let about = [longest, places, u32::BITS, 1 << 8].map(|number| [number - 1, number]);
    let ends = [0, 1, 1 << 31, u32::MAX - 1, u32::MAX];
    let wild = [&about.concat()[..], &ends].concat();
    let mut draw = Draw::new(4);
    for _ in 0..2_000 {
        let mut board = samples::board(&mut draw, 5);
        board.depth = draw.pick(&wild);
        board.slot = draw.pick(&wild);
        board.count = draw.pick(&wild);
        board.places[0].deadline = draw.pick(&wild);
        board.places[0].admitted = draw.pick(&wild);
        let sound = is_sound(&board);
        assert!(!sound || (board.depth <= 3 && board.slot >= 1 && board.count <= places));
    }
}
