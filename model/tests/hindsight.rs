//! The call of hindsight: its rows, its answer, and the order of its laying out, on lists
//! worked by hand.

mod common;

use common::hindsight::{drawn_list, plan, racks};
use model::draw::Draw;
use model::hindsight::samples;
use model::hindsight::{call, check, Refused, Window};
use model::refusal::Refusal;

/// So many racks that can be baked in any slot.
fn free(many: usize) -> Vec<Window> {
    vec![Window { first: 1, last: 64 }; many]
}

/// The number of a list's answer; where it is refused, all slot numbers must be 0.
fn number(windows: &[Window]) -> u8 {
    let (number, slots) = call(windows);
    if number != 0 {
        assert_eq!(slots, [0; 64]);
    }
    number
}

#[test]
fn an_empty_list_has_64_zeros() {
    assert_eq!(call(&[]), (0, [0; 64]));
}

#[test]
fn past_the_last_rack_are_zeros() {
    let (number, slots) = call(&racks(&[(2, 2), (2, 2), (1, 3)]));
    assert_eq!(number, 0);
    assert_eq!(slots[..3], [2, 0, 1]);
    assert_eq!(slots[3..], [0; 61]);
}

#[test]
fn slots_1_and_64_are_of_the_day() {
    for (window, slot) in [
        ((1, 1), 1),
        ((64, 64), 64),
        ((1, 64), 1),
        ((1, 2), 1),
        ((63, 64), 63),
        ((30, 40), 30),
    ] {
        assert_eq!(plan(&racks(&[window])), [slot]);
    }
}

#[test]
fn row_19_slots_outside_the_day_and_last_slots_before_the_first() {
    let wrong = [
        (0, 1),
        (0, 64),
        (0, 0),
        (1, 0),
        (64, 0),
        (1, 65),
        (64, 65),
        (65, 65),
        (65, 64),
        (65, 1),
        (0, 65),
        (2, 1),
        (64, 63),
        (64, 1),
        (1, u32::MAX),
        (u32::MAX, u32::MAX),
        (u32::MAX, 1),
    ];
    for window in wrong {
        assert_eq!(number(&racks(&[window])), 19, "{window:?}");
        assert_eq!(number(&racks(&[(1, 64), window, (3, 3)])), 19);
    }
    for window in [(1, 1), (64, 64), (1, 64), (5, 5), (63, 64)] {
        assert_eq!(number(&racks(&[window])), 0, "{window:?}");
    }
}

#[test]
fn row_19_is_given_for_the_first_rack_that_breaks_it() {
    let windows = racks(&[(1, 1), (64, 64), (5, 4), (0, 9), (1, 1)]);
    let refused = Refused {
        refusal: Refusal::Window,
        place: 2,
    };
    assert_eq!(check(&windows), Err(refused));
    assert_eq!(check(&windows[..2]), Ok(()));
}

#[test]
fn row_18_more_than_64_racks() {
    for (many, refused) in [
        (0, 0),
        (1, 0),
        (63, 0),
        (64, 0),
        (65, 18),
        (66, 18),
        (640, 18),
    ] {
        assert_eq!(number(&free(many)), refused, "{many}");
    }
    assert_eq!(call(&free(64)).1.to_vec(), (1..=64).collect::<Vec<_>>());
}

#[test]
fn row_18_comes_before_row_19() {
    for place in [0, 30, 63, 64] {
        let mut windows = free(65);
        windows[place] = Window { first: 0, last: 0 };
        assert_eq!(number(&windows), 18, "{place}");
        windows.remove(if place == 0 { 1 } else { 0 });
        assert_eq!(number(&windows), 19, "{place}");
    }
}

#[test]
fn drawn_lists_are_refused_with_18_or_19() {
    let mut draw = Draw::new(201);
    let (mut many, mut outside) = (0, 0);
    for _ in 0..1_000 {
        let windows = samples::refused(&mut draw);
        let wanted = if windows.len() > 64 { 18 } else { 19 };
        assert_eq!(number(&windows), wanted, "{windows:?}");
        many += usize::from(wanted == 18);
        outside += usize::from(wanted == 19);
    }
    assert!(many > 200 && outside > 200, "{many} {outside}");
    for number in 0..500 {
        assert_eq!(check(&drawn_list(&mut draw, number)), Ok(()));
    }
}

#[test]
fn least_last_slot_first() {
    assert_eq!(plan(&racks(&[(1, 3), (1, 2), (1, 1)])), [3, 2, 1]);
    assert_eq!(plan(&racks(&[(1, 64), (1, 63), (1, 62)])), [3, 2, 1]);
    // The better rack waits though it stands first.
    assert_eq!(plan(&racks(&[(4, 9), (4, 8)])), [5, 4]);
}

#[test]
fn then_earlier_in_the_list() {
    assert_eq!(plan(&racks(&[(1, 9), (1, 9), (1, 9)])), [1, 2, 3]);
    assert_eq!(plan(&racks(&[(1, 3), (1, 2), (1, 2)])), [3, 1, 2]);
    assert_eq!(plan(&racks(&[(2, 5), (1, 5), (1, 5)])), [2, 1, 3]);
}

#[test]
fn only_those_whose_first_slot_has_come() {
    assert_eq!(plan(&racks(&[(5, 9), (1, 9)])), [5, 1]);
    assert_eq!(plan(&racks(&[(2, 2), (1, 9)])), [2, 1]);
    // Slot 1 bakes the second, as the first has not come; then the first is due.
    assert_eq!(plan(&racks(&[(2, 3), (1, 9), (1, 9)])), [2, 1, 3]);
    assert_eq!(plan(&racks(&[(64, 64), (64, 64), (63, 64)])), [64, 0, 63]);
}

#[test]
fn racks_left_out_have_no_part_in_the_laying_out() {
    // The second and third have the least last slots, but the first is better than both.
    assert_eq!(
        plan(&racks(&[(1, 1), (1, 1), (1, 1), (1, 2)])),
        [1, 0, 0, 2]
    );
    assert_eq!(
        plan(&racks(&[(2, 3), (3, 3), (2, 2), (1, 3)])),
        [2, 3, 0, 1]
    );
}

#[test]
fn the_better_racks_are_baked_where_one_must_be_left_out() {
    assert_eq!(plan(&racks(&[(1, 1), (1, 2), (2, 2)])), [1, 2, 0]);
    assert_eq!(plan(&racks(&[(1, 2), (2, 2), (1, 1)])), [1, 2, 0]);
    assert_eq!(
        plan(&racks(&[(1, 2), (1, 1), (1, 1), (2, 2)])),
        [2, 1, 0, 0]
    );
}

#[test]
fn a_holder_moves_and_the_holder_of_its_next_slot_too() {
    assert_eq!(plan(&racks(&[(1, 2), (1, 1)])), [2, 1]);
    assert_eq!(plan(&racks(&[(1, 2), (2, 3), (1, 1)])), [2, 3, 1]);
    assert_eq!(plan(&racks(&[(2, 3), (1, 2), (3, 3)])), [2, 1, 3]);
    // Of the last two each wants a slot whose holder can move, but not both at once.
    assert_eq!(
        plan(&racks(&[(1, 2), (2, 3), (1, 1), (3, 3)])),
        [2, 3, 1, 0]
    );
}

#[test]
fn one_rack_moves_all_others_on() {
    let mut slots: Vec<(u32, u32)> = (1..=63).map(|slot| (slot, slot + 1)).collect();
    slots.push((1, 1));
    let moved: Vec<u32> = (2..=64).chain([1]).collect();
    assert_eq!(plan(&racks(&slots)), moved);
}

#[test]
fn none_can_move_on_where_the_last_of_them_cannot() {
    let mut slots = vec![(63, 63)];
    slots.extend((1..=62).map(|slot| (slot, slot + 1)));
    slots.push((1, 1));
    let stay: Vec<u32> = [63].into_iter().chain(1..=62).chain([0]).collect();
    assert_eq!(plan(&racks(&slots)), stay);
}

#[test]
fn twice_as_many_racks_as_slots() {
    // Two racks for each of 32 slots: the better one of each is baked.
    let slots: Vec<(u32, u32)> = (0..64)
        .map(|place| (place / 2 + 1, place / 2 + 1))
        .collect();
    let wanted: Vec<u32> = (0..64)
        .map(|place| if place % 2 == 0 { place / 2 + 1 } else { 0 })
        .collect();
    assert_eq!(plan(&racks(&slots)), wanted);
}
