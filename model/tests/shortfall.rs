//! The shortfall: boards and days worked by hand.

mod common;

use std::cmp::Ordering;

use common::boards::{held, held_for_long, of_the_longest_wait};
use common::crowds::{
    of_longest_waits, of_one_last_slot, up_to_first_overfull, EIGHT, FIRST_OVERFULL, ROOM_THERE,
};
use common::{answers, closed_slots, printed, smallest_excess, worked, Closing};
use model::board::{open, Board, Job};
use model::calls::{admit, close, close_with};
use model::draw::Draw;
use model::limits::{LAST_SLOT, LONGEST_LAXITY, MOST_HELD};
use model::refusal::Refusal;
use model::rule::{first_due, group};
use model::samples;
use model::shortfall::least_given_up;

/// The shortfall in the answer of closing this board.
fn shortfall(board: &Board) -> u32 {
    Closing::of(board).closed.shortfall
}

/// Shortfall and number given up of closings one after the other.
fn by_slot(mut board: Board, closings: usize) -> Vec<(u32, usize)> {
    let mut seen = Vec::new();
    for _ in 0..closings {
        let closed = close(&mut board, MOST_HELD).expect("the board can be closed");
        seen.push((closed.shortfall, closed.expired.len()));
    }
    seen
}

#[test]
fn an_empty_board_has_none() {
    for depth in 0..=3 {
        assert_eq!(shortfall(&open(depth).0), 0);
        assert_eq!(shortfall(&Board::holding(depth, LAST_SLOT, 9, &[])), 0);
    }
}

#[test]
fn one_rack_is_never_lost() {
    for wait in 1..=LONGEST_LAXITY {
        assert_eq!(shortfall(&worked(0, &[(wait, 0)])), 0);
        assert_eq!(shortfall(&worked(3, &[(wait, 7)])), 0);
    }
}

#[test]
fn boards_1_to_8() {
    let board_1 = worked(0, &[3, 3, 5, 7, 7, 7, 9].map(|wait| (wait, 0)));
    assert_eq!(by_slot(board_1, 8), [(0, 0); 8]);
    let board_2 = worked(1, &[(1, 1), (2, 0)]);
    assert_eq!(by_slot(board_2, 3), [(0, 0); 3]);
    // Two racks for slot 1.
    let board_3 = worked(1, &[(1, 1), (1, 0)]);
    assert_eq!(by_slot(board_3, 2), [(1, 1), (0, 0)]);
    // Three racks for slots 1 and 2.
    let board_4 = worked(1, &[(1, 1), (2, 1), (2, 0)]);
    assert_eq!(by_slot(board_4, 3), [(1, 1), (0, 0), (0, 0)]);
    let board_5 = worked(1, &[(2, 1), (3, 0), (3, 0)]);
    assert_eq!(by_slot(board_5, 4), [(0, 0); 4]);
    let board_6 = worked(2, &[(2, 1), (1, 2), (3, 0)]);
    assert_eq!(by_slot(board_6, 4), [(0, 0); 4]);
    // Four racks for slots 1 to 3.
    let board_7 = worked(2, &[(2, 1), (1, 2), (3, 0), (3, 3)]);
    assert_eq!(by_slot(board_7, 4), [(1, 1), (0, 0), (0, 0), (0, 0)]);
    let board_8 = worked(0, &[(3, 0)]);
    assert_eq!(by_slot(board_8, 2), [(0, 0), (0, 0)]);
}

#[test]
fn of_racks_in_their_last_slot_all_but_one_are_lost() {
    for many in 1..=MOST_HELD {
        let board = held(500, &vec![1; many]);
        assert_eq!(by_slot(board, 2), [(many as u32 - 1, many - 1), (0, 0)]);
    }
}

#[test]
fn as_many_racks_of_the_longest_wait_as_it_has_slots() {
    let full = LONGEST_LAXITY as usize;
    for (many, lost) in [
        (full - 1, 0),
        (full, 0),
        (full + 1, 1),
        (full + 2, 2),
        (full + 8, 8),
        (MOST_HELD, MOST_HELD - full),
    ] {
        let jobs = of_the_longest_wait(7, many);
        assert_eq!(least_given_up(&jobs, 7) as usize, lost);
    }
}

#[test]
fn more_racks_than_slots_in_which_racks_wait() {
    // On these boards the racks lie about as late as can be: the slots of the longest
    // wait are there for them all, and as many of the youngest find theirs.
    let full = LONGEST_LAXITY as usize;
    for many in 0..=MOST_HELD {
        let lost = shortfall(&held_for_long(500, many));
        assert_eq!(lost as usize, many.saturating_sub(full), "{many}");
    }
}

#[test]
fn the_first_rack_too_many_of_a_day() {
    for more in 0..=EIGHT {
        let closed = closed_slots(&printed(&(up_to_first_overfull(more) + "B\n")));
        let shortfalls = closed.iter().map(|figures| figures[4]);
        let mut wanted = vec![0; FIRST_OVERFULL as usize - 1];
        wanted.push(more.saturating_sub(ROOM_THERE));
        assert_eq!(shortfalls.collect::<Vec<u32>>(), wanted);
    }
}

#[test]
fn eight_racks_of_the_longest_wait_in_every_slot() {
    // The first racks that cannot all be baked have this last slot. Up to it the slots
    // bake the tickets from 1 on, and of those racks the rest is given up.
    let first_out = FIRST_OVERFULL + LONGEST_LAXITY - 1;
    let rest = FIRST_OVERFULL * EIGHT - first_out;
    let input = of_longest_waits(2 * LONGEST_LAXITY);
    for [slot, ticket, _, given_up, shortfall] in closed_slots(&printed(&input)) {
        let out = match slot.cmp(&first_out) {
            Ordering::Less => 0,
            Ordering::Equal => rest,
            Ordering::Greater => EIGHT - 1,
        };
        // In slot k are 7k + 1 racks, until the board is full.
        let racks = (7 * slot + 1).min(MOST_HELD as u32);
        let lost = racks.saturating_sub(LONGEST_LAXITY);
        assert_eq!((given_up, shortfall), (out, lost), "{slot}");
        assert_eq!(ticket <= first_out, slot <= first_out);
    }
}

#[test]
fn slots_past_the_books_end_count() {
    let at_end = |waits: &[u32]| shortfall(&held(LAST_SLOT, waits));
    assert_eq!(at_end(&[3; 3]), 0);
    assert_eq!(at_end(&[3; 4]), 1);
    assert_eq!(at_end(&[1, 2]), 0);
    assert_eq!(at_end(&[1, 1]), 1);
    assert_eq!(at_end(&[8; 8]), 0);
    assert_eq!(at_end(&[7; 8]), 1);
    assert_eq!(at_end(&[LONGEST_LAXITY; 8]), 0);
    // Two slots of the book and one past its end.
    assert_eq!(shortfall(&held(LAST_SLOT - 1, &[2, 3, 3])), 0);
    assert_eq!(shortfall(&held(LAST_SLOT - 1, &[3; 4])), 1);
    let full = LONGEST_LAXITY as usize;
    for (many, lost) in [(full, 0), (full + 1, 1), (MOST_HELD, MOST_HELD - full)] {
        let board = held_for_long(LAST_SLOT, many);
        assert_eq!(shortfall(&board) as usize, lost);
    }
}

#[test]
fn racks_left_at_the_books_end_are_no_part_of_it() {
    // A plan has slots for all three, and yet two are never baked.
    let mut board = held(LAST_SLOT, &[3; 3]);
    let closed = close(&mut board, MOST_HELD).expect("a closing");
    assert_eq!((closed.shortfall, closed.expired.len()), (0, 0));
    assert_eq!(board.count, 2);
    assert_eq!(close(&mut board, MOST_HELD), Err(Refusal::BookEnded));
}

#[test]
fn a_refused_closing_has_none() {
    let mut board = held(9, &[1; 5]);
    assert_eq!(close(&mut board, MOST_HELD - 1), Err(Refusal::ListShort));
    assert_eq!(close(&mut board, MOST_HELD).map(|c| c.shortfall), Ok(4));
    // A refused admitting loses nothing more.
    let mut board = held(9, &[1; 8]);
    assert_eq!(admit(&mut board, 9, 1, 0), Err(Refusal::SlotFull));
    assert_eq!(shortfall(&board), 7);
}

#[test]
fn racks_of_all_grades_count() {
    // Grade 0 is baked, and alone it has room.
    let board = worked(1, &[(1, 1), (1, 1), (1, 0)]);
    let alone = |bit| least_given_up(&group(board.jobs(), 1, &[bit]), 1);
    assert_eq!([alone(0), alone(1)], [0, 1]);
    assert_eq!(shortfall(&board), 2);
    // One rack of each grade: each grade alone loses none.
    let board = worked(3, &[0, 1, 2, 3, 4, 5, 6, 7].map(|grade| (3, grade)));
    assert_eq!(by_slot(board, 4), [(5, 0), (5, 0), (5, 5), (0, 0)]);
}

#[test]
fn grades_change_nothing() {
    for grades in 0..1 << 6 {
        let waits = [1, 1, 2, 4, 4, 4].iter().enumerate();
        let racks: Vec<(u32, u32)> = waits
            .map(|(place, &wait)| (wait, grades >> place & 1))
            .collect();
        assert_eq!(shortfall(&worked(1, &racks)), 2);
    }
}

#[test]
fn an_excess_above_zero_is_no_shortfall() {
    for (waits, smallest) in [
        (&[5][..], 4),
        (&[2], 1),
        (&[LONGEST_LAXITY], i64::from(LONGEST_LAXITY) - 1),
        (&[3, 3, 5], 1),
        (&[9, 9, 9, 9], 5),
        // Exactly full.
        (&[1], 0),
        (&[2, 2], 0),
        (&[1, 2, 3, 4, 5, 6, 7, 8], 0),
        (&[8, 8, 8, 8, 8, 8, 8, 8], 0),
    ] {
        let board = held(50, waits);
        assert_eq!(smallest_excess(board.jobs(), 50), Some(smallest));
        assert_eq!(shortfall(&board), 0);
    }
}

#[test]
fn the_smallest_excess_is_not_always_at_the_longest_or_shortest_wait() {
    // Waits 1,1,2,2,5: excess -1 at 1, -2 at 2, 0 at 5.
    assert_eq!(shortfall(&held(50, &[1, 1, 2, 2, 5])), 2);
    // Waits 1,3,3,3,3,9: excess 0 at 1, -2 at 3, 3 at 9.
    assert_eq!(shortfall(&held(50, &[1, 3, 3, 3, 3, 9])), 2);
    // Waits 4,4,4,4,4,6,6,6: excess -1 at 4, -2 at 6.
    assert_eq!(shortfall(&held(50, &[4, 4, 4, 4, 4, 6, 6, 6])), 2);
}

#[test]
fn a_shortfall_beside_the_number_given_up() {
    // More are lost than go in this slot: three racks for two slots.
    assert_eq!(by_slot(held(50, &[2; 3]), 3), [(1, 0), (1, 1), (0, 0)]);
    // Two go now, one in the next slot but one.
    let board = held(50, &[1, 1, 1, 3, 3, 3]);
    assert_eq!(by_slot(board, 4), [(3, 2), (1, 0), (1, 1), (0, 0)]);
    // As many: all that are lost go now.
    let board = held(50, &[1, 1, 1, 4, 4, 4]);
    assert_eq!(by_slot(board, 2), [(2, 2), (0, 0)]);
}

#[test]
fn a_worse_choice_gives_up_more_than_the_shortfall() {
    // Board 2 by the best grade.
    let mut board = worked(1, &[(1, 1), (2, 0)]);
    let pick = |jobs: &[Job], _, _| jobs.iter().copied().find(|job| job.grade == 0);
    let closed = close_with(&mut board, MOST_HELD, pick).expect("a closing");
    assert_eq!((closed.shortfall, closed.expired.len()), (0, 1));
}

#[test]
fn it_is_counted_before_the_bake() {
    // Afterwards the board is empty.
    let closing = Closing::of(&held(50, &[1, 1]));
    assert_eq!(closing.closed.shortfall, 1);
    assert_eq!(least_given_up(&closing.left, 51), 0);
    // Without the rack that is baked the others would have room.
    assert_eq!(least_given_up(held(50, &[1]).jobs(), 50), 0);
}

#[test]
fn whichever_rack_is_baked() {
    let board = held(50, &[1, 1, 2, 2, 5]);
    for place in 0..5 {
        let pick = |jobs: &[Job], _, _| Some(jobs[place]);
        let closed = close_with(&mut board.clone(), MOST_HELD, pick);
        assert_eq!(closed.map(|closed| closed.shortfall), Ok(2));
    }
    let none = close_with(&mut board.clone(), MOST_HELD, |_, _, _| None);
    assert_eq!(none.map(|closed| closed.shortfall), Ok(2));
}

#[test]
fn the_order_of_the_racks_does_not_matter() {
    let mut jobs = held(50, &[1, 3, 3, 3, 3, 9]).jobs().to_vec();
    for _ in 0..6 {
        jobs.rotate_left(1);
        assert_eq!(least_given_up(&jobs, 50), 2);
    }
}

#[test]
fn full_boards() {
    let full = MOST_HELD as u32;
    // Eight of each wait: as many slots for all of them as the longest wait has.
    let even: Vec<u32> = (0..full).map(|place| place / 8 + 1).collect();
    assert_eq!(by_slot(held(500, &even), 1), [(full - LONGEST_LAXITY, 7)]);
    // All in their last slot.
    let mut waits = [1; MOST_HELD];
    let all_but_one = [(full - 1, MOST_HELD - 1), (0, 0)];
    assert_eq!(by_slot(held(500, &waits), 2), all_but_one);
    // All in their last slot but one.
    waits[MOST_HELD - 1] = 2;
    let all_but_two = [(full - 2, MOST_HELD - 2), (0, 0)];
    assert_eq!(by_slot(held(500, &waits), 2), all_but_two);
    // Any other has from 1 slot to as many as the longest wait has.
    let mut draw = Draw::new(61);
    for _ in 0..200 {
        let board = samples::full_board(&mut draw, 700);
        let lost = shortfall(&board);
        assert!((full - LONGEST_LAXITY..full).contains(&lost), "{lost}");
        assert_eq!(shortfall(&samples::all_due(board)), full - 1);
    }
}

#[test]
fn printed_as_a_sixth_field() {
    let too_long = LONGEST_LAXITY + 1;
    let input = format!(
        "D,1
B
A,1,2,0
A,2,2,1
A,3,2,1
B
A,4,{too_long},0
A,5,1,
A,6,3,0
B
B
B
"
    );
    let wanted = [
        "D,1",
        "B,1,0,0,0,0",
        "A,1,3",
        "A,2,3",
        "A,3,3",
        // Three racks for slots 2 and 3.
        "B,2,1,0,0,1",
        "R,7,5",
        "A,5,3",
        "A,6,5",
        // Three racks for slot 3, and one that has time.
        "B,3,2,1,2,2",
        "G,3,3,1",
        "G,3,5,1",
        "B,4,6,0,0,0",
        "B,5,0,0,0,0",
    ];
    assert_eq!(answers(&input), wanted);
}

#[test]
fn printed_as_0_where_the_excess_is_far_above_zero() {
    // In slot 6 two racks; the excess at both waits is the longest wait less two.
    let (longest, shorter) = (LONGEST_LAXITY, LONGEST_LAXITY - 1);
    let closings = "B\n".repeat(5);
    let input = format!("D,1\n{closings}A,7,{longest},0\nA,8,{shorter},1\nB\n");
    let [last, other] = [longest, shorter].map(|wait| 6 + wait - 1);
    let wanted = format!("A,7,{last} A,8,{other} B,6,8,1,0,0");
    assert_eq!(answers(&input)[6..].join(" "), wanted);
}

#[test]
fn the_greatest_shortfall_is_printed_whole() {
    // The last slot of this day has a full board of racks in their last slot, and those
    // of the slots before are gone.
    let (last, all_but_one) = (FIRST_OVERFULL + LONGEST_LAXITY, MOST_HELD - 1);
    let first_left = FIRST_OVERFULL * EIGHT + 1;
    let seen = answers(&of_one_last_slot(FIRST_OVERFULL));
    let wanted = format!("B,{last},{first_left},0,{all_but_one},{all_but_one}");
    assert!(seen.contains(&wanted));
}

#[test]
fn the_least_last_slot_first_bakes_all_but_the_shortfall() {
    let mut board = held(50, &[1, 3, 3, 3, 3, 9]);
    let pick = |jobs: &[Job], _, _| first_due(jobs.to_vec());
    let mut baked = 0;
    for _ in 0..9 {
        let closed = close_with(&mut board, MOST_HELD, pick).expect("a closing");
        baked += u32::from(closed.ticket != 0);
    }
    assert_eq!(baked, 6 - 2);
}
