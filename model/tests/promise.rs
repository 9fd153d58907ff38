//! The promise: boards and days worked by hand.

mod common;

use common::boards::{held, held_for_long, of_the_longest_wait, FIRST_SOLD_OUT};
use common::crowds::{up_to_first_overfull, EIGHT, FIRST_OVERFULL, ROOM_THERE};
use common::{answers, printed, worked, Closing};
use model::board::{open, Board, Job};
use model::calls::{admit, close, promise};
use model::day::{Day, Done};
use model::draw::Draw;
use model::edges;
use model::limits::{LAST_SLOT, LONGEST_LAXITY, MOST_HELD, MOST_PER_SLOT};
use model::promise::{least_wait, least_wait_up_to};
use model::refusal::Refusal;
use model::samples;
use model::shortfall::least_given_up;

/// The wait promised on a board that can be asked.
fn promised(board: &Board) -> u32 {
    promise(board).expect("the board is sound")
}

/// The wait promised beside racks of these waits.
fn beside(waits: &[u32]) -> u32 {
    promised(&held(50, waits))
}

/// The shortfall of a board.
fn shortfall(board: &Board) -> u32 {
    least_given_up(board.jobs(), board.slot)
}

/// The promises before and after closings one after the other.
fn by_slot(mut board: Board, closings: usize) -> Vec<u32> {
    let mut seen = vec![promised(&board)];
    for _ in 0..closings {
        close(&mut board, MOST_HELD).expect("the board can be closed");
        seen.push(promised(&board));
    }
    seen
}

#[test]
fn an_empty_board_gives_1() {
    for depth in 0..=3 {
        assert_eq!(promised(&open(depth).0), 1);
        assert_eq!(promised(&Board::holding(depth, LAST_SLOT, 9, &[])), 1);
    }
}

#[test]
fn beside_one_rack() {
    assert_eq!(beside(&[1]), 2);
    for wait in 2..=LONGEST_LAXITY {
        assert_eq!(beside(&[wait]), 1);
    }
}

#[test]
fn beside_a_few_racks() {
    assert_eq!(beside(&[1, 2]), 3);
    assert_eq!(beside(&[2, 2]), 3);
    assert_eq!(beside(&[1, 3]), 2);
    assert_eq!(beside(&[2, 3]), 1);
    assert_eq!(beside(&[3, 3, 3]), 4);
    assert_eq!(beside(&[1, 2, 4]), 3);
    // Racks are lost already.
    assert_eq!(beside(&[1, 1]), 0);
    assert_eq!(beside(&[2, 2, 2]), 0);
    assert_eq!(beside(&[1, 1, LONGEST_LAXITY]), 0);
    assert_eq!(beside(&[1, 5, 5, 5, 5, 5, 9]), 0);
}

#[test]
fn the_last_full_wait_counts_and_not_the_first() {
    // Slot 2 is free only as long as the three of wait 4 can wait.
    assert_eq!(beside(&[1, 4, 4, 4]), 5);
    assert_eq!(beside(&[1, 4, 4]), 2);
    assert_eq!(beside(&[1, 2, 5, 5, 5]), 6);
    assert_eq!(beside(&[2, 2, 3, 7, 7, 7, 7]), 8);
    assert_eq!(beside(&[2, 2, 3, 7, 7, 7, 8]), 4);
    assert_eq!(beside(&[2, 2, 3, 7, 7, 7, 8, 8]), 9);
}

#[test]
fn boards_1_to_8() {
    let board_1 = worked(0, &[3, 3, 5, 7, 7, 7, 9].map(|wait| (wait, 0)));
    assert_eq!(promised(&board_1), 1);
    let board_2 = worked(1, &[(1, 1), (2, 0)]);
    assert_eq!(by_slot(board_2, 3), [3, 2, 1, 1]);
    // Two racks for slot 1: then the board is empty.
    let board_3 = worked(1, &[(1, 1), (1, 0)]);
    assert_eq!(by_slot(board_3, 2), [0, 1, 1]);
    // Three racks for slots 1 and 2: then one for slot 2.
    let board_4 = worked(1, &[(1, 1), (2, 1), (2, 0)]);
    assert_eq!(by_slot(board_4, 3), [0, 2, 1, 1]);
    let board_5 = worked(1, &[(2, 1), (3, 0), (3, 0)]);
    assert_eq!(by_slot(board_5, 3), [4, 3, 2, 1]);
    let board_6 = worked(2, &[(2, 1), (1, 2), (3, 0)]);
    assert_eq!(by_slot(board_6, 3), [4, 3, 2, 1]);
    // Four racks for slots 1 to 3: then two for slots 2 and 3.
    let board_7 = worked(2, &[(2, 1), (1, 2), (3, 0), (3, 3)]);
    assert_eq!(by_slot(board_7, 3), [0, 3, 2, 1]);
    let board_8 = worked(0, &[(3, 0)]);
    assert_eq!(by_slot(board_8, 2), [1, 1, 1]);
}

#[test]
fn a_rack_for_each_slot_up_to_a_wait() {
    for full in 0..LONGEST_LAXITY {
        let waits: Vec<u32> = (1..=full).collect();
        assert_eq!(beside(&waits), full + 1);
    }
    let sold_out = held(50, &(1..=LONGEST_LAXITY).collect::<Vec<_>>());
    assert_eq!((promised(&sold_out), shortfall(&sold_out)), (0, 0));
}

#[test]
fn the_longest_wait_is_promised_and_none_longer() {
    let longest = LONGEST_LAXITY;
    for slot in [50, LAST_SLOT] {
        let last_free = held(slot, &(1..longest).collect::<Vec<_>>());
        assert_eq!(promised(&last_free), longest);
        // Only a wait one slot longer would do.
        let sold_out = held(slot, &(1..=longest).collect::<Vec<_>>());
        assert_eq!(promised(&sold_out), 0);
        let would_do = least_wait_up_to(longest + 1, sold_out.jobs(), slot);
        assert_eq!(would_do, longest + 1);
    }
}

#[test]
fn as_many_racks_of_the_longest_wait_as_it_has_slots() {
    let full = LONGEST_LAXITY as usize;
    for (many, wait, lost) in [
        (full - 2, 1, 0),
        (full - 1, 1, 0),
        (full, 0, 0),
        (full + 1, 0, 1),
    ] {
        let jobs = of_the_longest_wait(7, many);
        assert_eq!(
            (least_wait(&jobs, 7), least_given_up(&jobs, 7)),
            (wait, lost)
        );
    }
    for many in 0..=MOST_HELD {
        let board = held_for_long(500, many);
        let wait = if many < full { 1 } else { 0 };
        assert_eq!(promised(&board), wait, "{many}");
        assert_eq!(shortfall(&board) > 0, many > full);
    }
}

#[test]
fn racks_that_fill_all_slots_but_the_last_leave_that_one() {
    // A board has at most sixteen racks whose wait is the longest but one or longer. So
    // fifteen have that wait, and the others fill the first slots.
    let before_last = LONGEST_LAXITY - 1;
    let mut waits = vec![before_last; before_last as usize];
    let first = waits.len() - (2 * MOST_PER_SLOT - 1);
    waits[..first].fill(first as u32);
    let board = held(50, &waits);
    assert_eq!((promised(&board), shortfall(&board)), (LONGEST_LAXITY, 0));
}

#[test]
fn a_sold_out_board_runs_down() {
    let full = LONGEST_LAXITY as usize;
    // Nobody else arrives: each slot that is closed makes the wait one shorter.
    let mut wanted = vec![0];
    wanted.extend((1..=LONGEST_LAXITY).rev());
    wanted.push(1);
    assert_eq!(by_slot(held_for_long(500, full), full + 1), wanted);
    // With a rack fewer slot 1 is free at first; the oven bakes in it, and then there
    // is a slot more than racks again.
    let closings = full + 8;
    let seen = by_slot(held_for_long(500, full - 1), closings);
    assert_eq!(seen, vec![1; closings + 1]);
}

#[test]
fn a_promise_is_kept() {
    let mut draw = Draw::new(101);
    let (mut kept, mut none_shorter) = (0, 0);
    for _ in 0..3_000 {
        let slot = draw.between(FIRST_SOLD_OUT, LAST_SLOT);
        let full = draw.between(0, LONGEST_LAXITY - 1);
        let board = samples::filled_board(&mut draw, slot, full, 9);
        let wait = promised(&board);
        let after = |wait| {
            let mut board = board.clone();
            admit(&mut board, u32::MAX, wait, 0).map(|_| shortfall(&board))
        };
        for longer in wait..=LONGEST_LAXITY {
            if after(longer) != Err(Refusal::SlotFull) {
                assert_eq!(after(longer), Ok(0));
                kept += 1;
            }
        }
        for shorter in 1..wait {
            if after(shorter) != Err(Refusal::SlotFull) {
                assert_eq!(after(shorter), Ok(1));
                none_shorter += 1;
            }
        }
    }
    assert!(kept > 10_000 && none_shorter > 10_000);
}

#[test]
fn all_racks_count_whenever_they_were_admitted() {
    let racks = |admitted: [u32; 4]| {
        let jobs = [(1, 50), (2, 53), (3, 53), (4, 53)].map(|(ticket, deadline)| Job {
            ticket,
            admitted: admitted[ticket as usize - 1],
            deadline,
            grade: 0,
        });
        promised(&Board::holding(0, 50, 9, &jobs))
    };
    // As early as a rack with last slot 50 or 53 can have come.
    let [oldest, later] = [50, 53].map(|deadline| deadline + 1 - LONGEST_LAXITY);
    for admitted in [
        [50, 50, 50, 50],
        [oldest, later, later, later],
        [oldest, later + 8, 49, 50],
        [40, 40, 40, 50],
    ] {
        assert_eq!(racks(admitted), 5);
    }
}

#[test]
fn grades_change_nothing() {
    for grades in 0..1 << 4 {
        let waits = [1, 4, 4, 4].iter().enumerate();
        let racks: Vec<(u32, u32)> = waits
            .map(|(place, &wait)| (wait, grades >> place & 1))
            .collect();
        assert_eq!(promised(&worked(1, &racks)), 5);
    }
    let board = worked(3, &[0, 1, 2, 3, 4, 5, 6, 7].map(|grade| (8, grade)));
    assert_eq!(promised(&board), 9);
}

#[test]
fn the_order_of_the_racks_does_not_matter() {
    let mut jobs = held(50, &[1, 4, 4, 4, 6, 9]).jobs().to_vec();
    for _ in 0..6 {
        jobs.rotate_left(1);
        assert_eq!(least_wait(&jobs, 50), 5);
    }
}

#[test]
fn row_7_plays_no_part() {
    // Eight racks were admitted in this slot.
    let mut board = held(50, &[9; 8]);
    assert_eq!(admit(&mut board, 9, 9, 0), Err(Refusal::SlotFull));
    assert_eq!(promised(&board), 1);
    assert_eq!(beside(&[8; 8]), 9);
    assert_eq!(beside(&[1, 2, 3, 4, 5, 6, 7, 8]), 9);
    assert_eq!(beside(&[7; 8]), 0);
}

#[test]
fn full_boards_are_sold_out() {
    let mut draw = Draw::new(102);
    for _ in 0..50 {
        let board = samples::full_board(&mut draw, 700);
        assert_eq!(promised(&board), 0);
        assert_eq!(promised(&samples::all_due(board)), 0);
    }
}

#[test]
fn slots_past_the_books_end_count() {
    let at_end = |waits: &[u32]| promised(&held(LAST_SLOT, waits));
    assert_eq!(at_end(&[]), 1);
    assert_eq!(at_end(&[1]), 2);
    assert_eq!(at_end(&[2]), 1);
    assert_eq!(at_end(&[3; 3]), 4);
    assert_eq!(at_end(&[3; 2]), 1);
    assert_eq!(at_end(&[3; 4]), 0);
    assert_eq!(at_end(&[1, 4, 4, 4]), 5);
    // Two slots of the book and one past its end.
    assert_eq!(promised(&held(LAST_SLOT - 1, &[2, 3, 3])), 4);
    assert_eq!(promised(&held(LAST_SLOT - 1, &[1, 2])), 3);
    let full = LONGEST_LAXITY as usize;
    for (many, wait) in [(full - 1, 1), (full, 0), (full + 1, 0)] {
        assert_eq!(promised(&held_for_long(LAST_SLOT, many)), wait);
    }
    let waits: Vec<u32> = (1..LONGEST_LAXITY).collect();
    assert_eq!(promised(&held(LAST_SLOT, &waits)), LONGEST_LAXITY);
}

#[test]
fn refused_with_3_past_the_books_end() {
    let ended = LAST_SLOT + 1;
    assert_eq!(
        promise(&Board::holding(0, ended, 0, &[])),
        Err(Refusal::BookEnded)
    );
    let full = LONGEST_LAXITY as usize;
    for many in [1, 8, full, full + 1, MOST_HELD] {
        let board = held_for_long(ended, many);
        assert_eq!(promise(&board), Err(Refusal::BookEnded));
    }
    // The last slot of the book is not refused; closing it ends the book.
    let mut board = held(LAST_SLOT, &[3; 3]);
    assert_eq!(promise(&board), Ok(4));
    close(&mut board, MOST_HELD).expect("a closing");
    assert_eq!(promise(&board), Err(Refusal::BookEnded));
}

#[test]
fn refused_with_2_where_the_board_is_unsound() {
    let mut draw = Draw::new(103);
    for _ in 0..50 {
        for (_, make) in edges::BROKEN {
            assert_eq!(promise(&make(&mut draw)), Err(Refusal::Unsound));
        }
    }
    assert_eq!(promise(&Board::zero()), Err(Refusal::Unsound));
    // 2 comes before 3.
    let mut board = held(LAST_SLOT + 1, &[3; 3]);
    board.places[MOST_HELD - 1].grade = 1;
    assert_eq!(promise(&board), Err(Refusal::Unsound));
}

#[test]
fn sound_boards_at_each_bound_are_answered() {
    let mut draw = Draw::new(104);
    for _ in 0..50 {
        for (_, make) in edges::BOUNDARY {
            let board = make(&mut draw);
            match promise(&board) {
                Ok(wait) => assert!(wait <= LONGEST_LAXITY && board.slot <= LAST_SLOT),
                Err(refusal) => {
                    assert_eq!(refusal, Refusal::BookEnded);
                    assert_eq!(board.slot, LAST_SLOT + 1);
                }
            }
        }
    }
}

#[test]
fn boards_with_a_rack_for_each_slot() {
    let mut draw = Draw::new(106);
    for (name, wait) in [
        ("a rack for each slot", 0),
        ("a rack for each slot but the last", LONGEST_LAXITY),
    ] {
        let (_, make) = edges::BOUNDARY
            .into_iter()
            .find(|(bound, _)| *bound == name)
            .expect("a bound");
        for _ in 0..50 {
            let board = make(&mut draw);
            assert_eq!((promised(&board), shortfall(&board)), (wait, 0));
        }
    }
}

#[test]
fn no_wait_is_promised_where_racks_are_lost() {
    let mut draw = Draw::new(105);
    let mut seen = 0;
    for _ in 0..2_000 {
        let closing = Closing::of(&samples::board(&mut draw, 20));
        if closing.closed.shortfall > 0 {
            assert_eq!(least_wait(&closing.jobs, closing.slot), 0);
            seen += 1;
        }
    }
    assert!(seen > 1_000, "{seen}");
}

#[test]
fn printed_with_the_wait_or_0() {
    let input = "Q
D,1
Q
A,1,1,1
Q
A,2,4,0
A,3,4,0
A,4,4,1
Q
Q
Q,
q
A,5,5,0
Q
A,6,5,0
Q
B
Q
B
Q
";
    let wanted = [
        "R,1,15",
        "D,1",
        // No rack; then one, for slot 1.
        "Q,1",
        "A,1,1",
        "Q,2",
        "A,2,4",
        "A,3,4",
        "A,4,4",
        // Waits 1,4,4,4.
        "Q,5",
        "Q,5",
        "R,11,13",
        "R,12,12",
        "A,5,5",
        "Q,6",
        "A,6,5",
        // Six racks for slots 1 to 5.
        "Q,0",
        "B,1,2,0,1,1",
        "G,1,1,1",
        // Four racks for slots 2 to 5.
        "Q,5",
        "B,2,3,0,0,0",
        "Q,4",
    ];
    assert_eq!(answers(input), wanted);
    assert!(printed(input).ends_with("Q,4\nT,0,4,2,0,0\nT,1,2,0,1,0\n"));
}

#[test]
fn a_day_that_is_sold_out() {
    for more in 0..=EIGHT {
        let seen = answers(&(up_to_first_overfull(more) + "Q\n"));
        let wait = if more < ROOM_THERE { 1 } else { 0 };
        assert_eq!(seen.last(), Some(&format!("Q,{wait}")), "{more}");
    }
    // The next slot has room for a rack again.
    let (longest, closed) = (LONGEST_LAXITY, FIRST_OVERFULL);
    let ticket = EIGHT * (closed - 1) + ROOM_THERE + 1;
    let more = format!("Q\nB\nQ\nA,{ticket},{longest},0\nQ\n");
    let seen = answers(&(up_to_first_overfull(ROOM_THERE) + &more));
    let wanted = [
        "Q,0".to_string(),
        format!("B,{closed},{closed},0,0,0"),
        format!("Q,{longest}"),
        format!("A,{ticket},{}", closed + longest),
        "Q,0".to_string(),
    ];
    assert_eq!(seen[seen.len() - wanted.len()..], wanted);
}

#[test]
fn questions_at_the_books_end() {
    let mut day = Day {
        board: Some(held(LAST_SLOT, &[3; 3])),
        ..Day::default()
    };
    assert_eq!(day.take(b"Q"), Ok(Done::Promised { wait: 4 }));
    assert!(day.take(b"B").is_ok());
    // Two racks are left, and slots past the end would be there for them.
    for _ in 0..2 {
        assert_eq!(day.take(b"Q"), Err(Refusal::BookEnded));
        assert_eq!(day.take(b"B"), Err(Refusal::BookEnded));
    }
    // The rows of the line come first.
    assert_eq!(day.take(b"Q,"), Err(Refusal::FieldCount));
    assert_eq!(day.board.map(|board| board.count), Some(2));
}

#[test]
fn a_question_leaves_the_day_as_it_is() {
    let mut day = Day::default();
    assert_eq!(day.take(b"Q"), Err(Refusal::NotNow));
    assert!(day.board.is_none());
    for line in ["D,2", "A,5,1,3", "A,7,4,", "A,9,4,0", "A,10,4,2"] {
        day.take(line.as_bytes()).expect("a line that is taken");
    }
    let before = day.clone();
    for _ in 0..3 {
        assert_eq!(day.take(b"Q"), Ok(Done::Promised { wait: 5 }));
        assert_eq!(day.board, before.board);
        assert_eq!(day.tally, before.tally);
    }
}
