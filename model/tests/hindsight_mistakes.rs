//! Mistaken plans, and what the generated lists show of them.

mod common;

use common::hindsight::plan;
use model::hindsight::program::read;
use model::hindsight::{can_all_be_baked, check, chosen, Window};
use model::inputs::{self, Kind};
use model::limits::LAST_IN_HINDSIGHT;

/// A mistaken plan: the slot numbers of a list.
type Mistake = fn(&[Window]) -> Vec<u32>;

/// An order in which the laying out takes racks: the least comes first.
type Order = fn(usize, Window) -> (u32, usize);

/// These racks laid out slot by slot, of those whose first slot has come the least in
/// this order; past its last slot none is laid.
fn laid_out(windows: &[Window], places: &[usize], order: Order) -> Vec<u32> {
    let mut slots = vec![0; windows.len()];
    for slot in 1..=LAST_IN_HINDSIGHT {
        let waiting = places.iter().copied().filter(|&place| {
            let Window { first, last } = windows[place];
            slots[place] == 0 && first <= slot && slot <= last
        });
        if let Some(next) = waiting.min_by_key(|&place| order(place, windows[place])) {
            slots[next] = slot;
        }
    }
    slots
}

fn right_order(place: usize, window: Window) -> (u32, usize) {
    (window.last, place)
}

/// Greatest last slot first.
fn greatest_last_first(windows: &[Window]) -> Vec<u32> {
    let order: Order = |place, window| (LAST_IN_HINDSIGHT - window.last, place);
    laid_out(windows, &chosen(windows), order)
}

/// On ties the one later in the list.
fn later_on_ties(windows: &[Window]) -> Vec<u32> {
    let order: Order = |place, window| (window.last, usize::MAX - place);
    laid_out(windows, &chosen(windows), order)
}

/// Earlier in the list, whatever the last slots are.
fn list_order(windows: &[Window]) -> Vec<u32> {
    laid_out(windows, &chosen(windows), |place, _| (0, place))
}

/// On ties the one whose first slot came earlier.
fn first_come_on_ties(windows: &[Window]) -> Vec<u32> {
    let order: Order = |_, window| (window.last, window.first as usize);
    laid_out(windows, &chosen(windows), order)
}

/// All racks laid out, with no choosing: as many are baked, but not the best ones.
fn none_chosen(windows: &[Window]) -> Vec<u32> {
    let all: Vec<usize> = (0..windows.len()).collect();
    laid_out(windows, &all, right_order)
}

/// The racks chosen from the worst on.
fn worst_first(windows: &[Window]) -> Vec<u32> {
    let turned: Vec<Window> = windows.iter().rev().copied().collect();
    let last = windows.len().saturating_sub(1);
    let places: Vec<usize> = chosen(&turned).iter().map(|place| last - place).collect();
    laid_out(windows, &places, right_order)
}

/// No rack chosen after the first that cannot be.
fn stops_at_the_first_left_out(windows: &[Window]) -> Vec<u32> {
    let mut many = windows.len();
    while !can_all_be_baked(&windows[..many]) {
        many -= 1;
    }
    let places: Vec<usize> = (0..many).collect();
    laid_out(windows, &places, right_order)
}

/// Each rack in the first slot that is free, and none ever moves.
fn holders_never_move(windows: &[Window]) -> Vec<u32> {
    let slots = without_moving(windows, |free| free.first().copied());
    laid_out_again(windows, &slots)
}

/// Each rack in the last slot that is free, and none ever moves.
fn last_slots_and_none_moves(windows: &[Window]) -> Vec<u32> {
    let slots = without_moving(windows, |free| free.last().copied());
    laid_out_again(windows, &slots)
}

/// Each rack in its first slot or nowhere.
fn first_slot_only(windows: &[Window]) -> Vec<u32> {
    let mut slots = Vec::new();
    for window in windows {
        let free = !slots.contains(&window.first);
        slots.push(if free { window.first } else { 0 });
    }
    laid_out_again(windows, &slots)
}

/// The racks in list order, each in one of the free slots of its window, if there is one.
fn without_moving<C>(windows: &[Window], choose: C) -> Vec<u32>
where
    C: Fn(&[u32]) -> Option<u32>,
{
    let mut slots = Vec::new();
    for window in windows {
        let free = (window.first..=window.last).filter(|slot| !slots.contains(slot));
        let free: Vec<u32> = free.collect();
        slots.push(choose(&free).unwrap_or(0));
    }
    slots
}

/// The racks that have a slot, laid out.
fn laid_out_again(windows: &[Window], slots: &[u32]) -> Vec<u32> {
    let places: Vec<usize> = (0..slots.len())
        .filter(|&place| slots[place] != 0)
        .collect();
    laid_out(windows, &places, right_order)
}

/// A holder moves to a free slot only; it asks no other to move in turn.
fn one_holder_moves(windows: &[Window]) -> Vec<u32> {
    laid_out_again(windows, &by_moving(windows, 1))
}

/// The racks are not laid out: each keeps the slot that the moving has given it.
fn not_laid_out(windows: &[Window]) -> Vec<u32> {
    by_moving(windows, usize::MAX)
}

/// At most six holders move for a rack.
fn six_holders_move(windows: &[Window]) -> Vec<u32> {
    laid_out_again(windows, &by_moving(windows, 6))
}

/// The racks in list order, each asking holders to move; at most so many in turn.
fn by_moving(windows: &[Window], most: usize) -> Vec<u32> {
    let mut slots = vec![0; windows.len()];
    for place in 0..windows.len() {
        let mut asked = Vec::new();
        seek(windows, &mut slots, place, most, &mut asked);
    }
    slots
}

fn seek(
    windows: &[Window],
    slots: &mut [u32],
    place: usize,
    most: usize,
    asked: &mut Vec<u32>,
) -> bool {
    for slot in windows[place].first..=windows[place].last {
        if asked.contains(&slot) {
            continue;
        }
        let free = match slots.iter().position(|&taken| taken == slot) {
            None => true,
            Some(holder) => {
                asked.push(slot);
                most > 0 && seek(windows, slots, holder, most - 1, asked)
            }
        };
        if free {
            slots[place] = slot;
            return true;
        }
    }
    false
}

/// The day's last slot not used.
fn without_slot_64(windows: &[Window]) -> Vec<u32> {
    let mut cut = windows.to_vec();
    for window in &mut cut {
        window.last = window.last.min(LAST_IN_HINDSIGHT - 1);
    }
    let whole: Vec<usize> = (0..cut.len())
        .filter(|&place| cut[place].first <= cut[place].last)
        .collect();
    let kept: Vec<Window> = whole.iter().map(|&place| cut[place]).collect();
    let mut slots = vec![0; windows.len()];
    for (&place, slot) in whole.iter().zip(plan(&kept)) {
        slots[place] = slot;
    }
    slots
}

/// The last rack of a full list left out.
fn only_63_racks(windows: &[Window]) -> Vec<u32> {
    let mut slots = plan(&windows[..windows.len().min(63)]);
    slots.resize(windows.len(), 0);
    slots
}

const MISTAKES: &[(&str, Mistake)] = &[
    ("greatest last first", greatest_last_first),
    ("later on ties", later_on_ties),
    ("list order", list_order),
    ("first come on ties", first_come_on_ties),
    ("none chosen", none_chosen),
    ("worst first", worst_first),
    ("stops at the first left out", stops_at_the_first_left_out),
    ("holders never move", holders_never_move),
    ("last slots and none moves", last_slots_and_none_moves),
    ("first slot only", first_slot_only),
    ("one holder moves", one_holder_moves),
    ("six holders move", six_holders_move),
    ("not laid out", not_laid_out),
    ("without slot 64", without_slot_64),
    ("only 63 racks", only_63_racks),
];

/// The racks of an input, if no line of it and no row refuses them.
fn racks(input: &[u8]) -> Option<Vec<Window>> {
    let input = input.strip_suffix(b"\n").unwrap_or(input);
    let lines = input.split(|&byte| byte == b'\n');
    let windows: Vec<Window> = lines.map(|line| read(line).ok()).collect::<Option<_>>()?;
    check(&windows).ok()?;
    Some(windows)
}

/// On how many of so many lists of a kind each mistake shows.
fn shown(kind: Kind, seeds: u64) -> Vec<usize> {
    let mut shown = vec![0; MISTAKES.len()];
    for seed in 0..seeds {
        if let Some(windows) = racks(&kind.input(seed, None)) {
            let right = plan(&windows);
            for (count, (_, mistake)) in shown.iter_mut().zip(MISTAKES) {
                *count += usize::from(mistake(&windows) != right);
            }
        }
    }
    shown
}

fn kind(name: &str) -> Kind {
    inputs::find(name).expect("a kind")
}

#[test]
fn mistakes_show_on_lists() {
    for (name, seeds, least) in [
        ("list-exact", 100, 2),
        ("list-many", 100, 2),
        ("list-few", 500, 2),
    ] {
        let shown = shown(kind(name), seeds);
        for (count, (mistake, _)) in shown.iter().zip(MISTAKES) {
            // Few racks are no full list, and fewer than six others can move.
            let few = ["only 63 racks", "six holders move"].contains(mistake);
            let wanted = *count > least || (name == "list-few" && few);
            assert!(wanted, "{name} {mistake}: {count} of {shown:?}");
        }
    }
}

#[test]
fn tight_lists_show_nearly_every_mistake() {
    let shown = shown(kind("list-tight"), 100);
    for (count, (mistake, _)) in shown.iter().zip(MISTAKES) {
        let bounds = ["without slot 64", "only 63 racks"].contains(mistake);
        assert!(*count > 10 || bounds, "{mistake}: {count} of {shown:?}");
    }
}

#[test]
fn chained_lists_show_how_many_holders_move() {
    let shown = shown(kind("list-chained"), 100);
    for (count, (mistake, _)) in shown.iter().zip(MISTAKES) {
        if mistake.contains("move") {
            assert!(*count > 10, "{mistake}: {count} of {shown:?}");
        }
    }
}

#[test]
fn the_right_moving_gives_the_right_racks() {
    // Without the mistakes the ways above are right.
    for name in ["list-exact", "list-tight", "list-chained"] {
        for seed in 0..60 {
            let windows = racks(&kind(name).input(seed, None)).expect("a good list");
            let moved = by_moving(&windows, usize::MAX);
            assert_eq!(laid_out_again(&windows, &moved), plan(&windows));
            let laid = laid_out(&windows, &chosen(&windows), right_order);
            assert_eq!(laid, plan(&windows));
        }
    }
}
