//! Hindsight against plans: 'for every m at once, as many of the first m racks as any plan
//! can'. Every plan is tried on small days, on others a matching; and the racks baked are
//! the only ones that are best for every m.

mod common;

use std::collections::BTreeSet;

use common::hindsight::{as_plan, baked, drawn_list, every_list, every_window, plan, racks};
use model::draw::Draw;
use model::hindsight::plans::{
    baked_by_m, every_plan_of, most_by_matching, most_by_trying, most_of,
};
use model::hindsight::{can_all_be_baked, chosen, samples, Window};
use model::limits::LAST_IN_HINDSIGHT;
use model::plans::Plan;

/// The places of the racks that a plan bakes.
fn places(plan: &Plan) -> BTreeSet<usize> {
    let tickets = plan.iter().flatten();
    tickets.map(|&ticket| ticket as usize - 1).collect()
}

/// The plan of a small list is the best of all plans for every m, and every plan that is
/// bakes the same racks. Tells whether a rack is left out.
fn is_best_of_all(windows: &[Window]) -> bool {
    let slots = plan(windows);
    let ours = as_plan(windows, &slots);
    let plans = every_plan_of(windows);
    let most = most_of(&plans, windows.len());
    assert_eq!(baked_by_m(&ours, windows.len()), most, "{windows:?}");
    for other in &plans {
        if baked_by_m(other, windows.len()) == most {
            assert_eq!(places(other), places(&ours), "{windows:?}");
        }
    }
    baked(&slots).len() < windows.len()
}

#[test]
fn every_plan_of_every_small_list() {
    // Every list of up to four racks for four slots, and of up to five for three.
    let mut left_out = 0;
    for (racks, slots) in [(4, 4), (5, 3)] {
        let lists = every_list(racks, &every_window(slots));
        assert_eq!(lists.len(), [11_111, 9_331][racks - 4]);
        left_out += lists.iter().filter(|list| is_best_of_all(list)).count();
    }
    assert!(left_out > 5_000, "{left_out}");
}

#[test]
fn every_plan_of_drawn_lists() {
    let mut draw = Draw::new(202);
    let mut left_out = 0;
    for _ in 0..600 {
        let (many, slots) = (draw.index(7), draw.between(1, 6));
        let windows = samples::early(&mut draw, many, slots);
        left_out += usize::from(is_best_of_all(&windows));
    }
    assert!(left_out > 100, "{left_out}");
}

#[test]
fn a_matching_on_lists_of_every_size() {
    let mut draw = Draw::new(203);
    let (mut full, mut left_out) = (0, 0);
    for number in 0..500 {
        let windows = drawn_list(&mut draw, number);
        let slots = plan(&windows);
        let ours = as_plan(&windows, &slots);
        let most = most_by_matching(&windows);
        assert_eq!(baked_by_m(&ours, windows.len()), most, "{windows:?}");
        full += usize::from(windows.len() == 64);
        left_out += usize::from(baked(&slots).len() < windows.len());
    }
    assert!(full > 20 && left_out > 200, "{full} {left_out}");
}

#[test]
fn both_ways_to_find_the_most_say_the_same() {
    let mut draw = Draw::new(204);
    for _ in 0..500 {
        let (many, slots) = (draw.index(6), draw.between(1, 6));
        let windows = samples::early(&mut draw, many, slots);
        assert_eq!(most_by_trying(&windows), most_by_matching(&windows));
    }
    let windows = racks(&[(1, 1), (1, 2), (1, 2), (3, 3)]);
    assert_eq!(most_by_trying(&windows), [0, 1, 2, 2, 3]);
    assert_eq!(most_by_trying(&[]), [0]);
}

#[test]
fn racks_can_all_be_baked_where_a_plan_bakes_all() {
    for list in every_list(4, &every_window(4)) {
        let most = most_by_matching(&list);
        assert_eq!(can_all_be_baked(&list), most[list.len()] == list.len());
    }
    let mut draw = Draw::new(205);
    let (mut can, mut cannot) = (0, 0);
    for number in 0..600 {
        let mut list = drawn_list(&mut draw, number);
        if draw.one_in(2) {
            // The racks chosen, and now and then one more.
            let mut places = chosen(&list);
            places.extend((0..list.len()).find(|_| draw.one_in(20)));
            list = places.iter().map(|&place| list[place]).collect();
        }
        let most = most_by_matching(&list)[list.len()];
        assert_eq!(can_all_be_baked(&list), most == list.len(), "{list:?}");
        can += usize::from(most == list.len());
        cannot += usize::from(most < list.len());
    }
    assert!(can > 150 && cannot > 150, "{can} {cannot}");
}

#[test]
fn the_racks_chosen_are_those_baked() {
    let mut draw = Draw::new(206);
    for number in 0..500 {
        let windows = drawn_list(&mut draw, number);
        assert_eq!(baked(&plan(&windows)), chosen(&windows));
    }
}

#[test]
fn a_rack_more_at_the_end_leaves_out_no_other() {
    let mut draw = Draw::new(207);
    for number in 0..500 {
        let windows = drawn_list(&mut draw, number);
        let all = baked(&plan(&windows));
        for cut in [windows.len() / 2, windows.len().saturating_sub(1)] {
            let mut of_first = all.clone();
            of_first.retain(|&place| place < cut);
            assert_eq!(baked(&plan(&windows[..cut])), of_first);
        }
    }
}

/// Whether a slot's rack is the one that the laying out takes: of those chosen whose
/// first slot has come and that have no earlier slot, none has an earlier last slot, and
/// of those with the same none stands earlier. A slot is free only if none has come.
fn is_laid_out(windows: &[Window], slots: &[u32], slot: u32) -> bool {
    let chosen = baked(slots).into_iter();
    let waiting = chosen.filter(|&place| windows[place].first <= slot && slot <= slots[place]);
    let order = |place: usize| (windows[place].last, place);
    let waiting: Vec<usize> = waiting.collect();
    match slots.iter().position(|&taken| taken == slot) {
        None => waiting.is_empty(),
        Some(ours) => waiting.iter().all(|&other| order(ours) <= order(other)),
    }
}

#[test]
fn every_slot_has_the_rack_that_the_laying_out_takes() {
    let mut draw = Draw::new(208);
    let (mut taken, mut free) = (0, 0);
    for number in 0..1_000 {
        let windows = drawn_list(&mut draw, number);
        let slots = plan(&windows);
        for slot in 1..=LAST_IN_HINDSIGHT {
            assert!(is_laid_out(&windows, &slots, slot), "{windows:?} {slots:?}");
            let has_rack = slots.contains(&slot);
            taken += usize::from(has_rack);
            free += usize::from(!has_rack);
        }
    }
    assert!(taken > 10_000 && free > 10_000, "{taken} {free}");
}
