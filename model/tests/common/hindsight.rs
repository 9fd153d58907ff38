//! Lists and days for hindsight, and what is made of them.

use model::draw::Draw;
use model::hindsight::plans::{book, plan_of};
use model::hindsight::{self, samples, Window};
use model::inputs::{self, Kind};
use model::limits::MOST_IN_HINDSIGHT;
use model::plans::{is_plan, Plan};

/// Racks given as (first slot, last slot).
pub fn racks(slots: &[(u32, u32)]) -> Vec<Window> {
    let windows = slots.iter();
    windows
        .map(|&(first, last)| Window { first, last })
        .collect()
}

/// The slot numbers of the plan for a list that is not refused.
pub fn plan(windows: &[Window]) -> Vec<u32> {
    hindsight::plan(windows).expect("the list is not refused")
}

/// The plan that slot numbers make of a list. It must be one: each rack has a slot of its
/// own window, and none has that of another.
pub fn as_plan(windows: &[Window], slots: &[u32]) -> Plan {
    let plan = plan_of(slots).expect("no slot has two racks");
    assert!(is_plan(&book(windows), &plan), "{windows:?} {slots:?}");
    plan
}

/// The places of the racks that are not left out.
pub fn baked(slots: &[u32]) -> Vec<usize> {
    let places = 0..slots.len();
    places.filter(|&place| slots[place] != 0).collect()
}

/// A list of any length that is not refused, the shapes in turn; most are long.
pub fn drawn_list(draw: &mut Draw, number: usize) -> Vec<Window> {
    let most = MOST_IN_HINDSIGHT;
    let (any, about_most) = (draw.index(most + 1), most - draw.index(5));
    let many = draw.pick(&[any, any, about_most]);
    match samples::SHAPES.get(number % (samples::SHAPES.len() + 1)) {
        Some(shape) => shape(draw, many),
        None => samples::windows(draw, many),
    }
}

/// Every window of a day of so many slots.
pub fn every_window(slots: u32) -> Vec<Window> {
    let from = |first| (first..=slots).map(move |last| Window { first, last });
    (1..=slots).flat_map(from).collect()
}

/// Every list of at most so many of these windows.
pub fn every_list(most: usize, windows: &[Window]) -> Vec<Vec<Window>> {
    let mut lists = vec![Vec::new()];
    let mut last = lists.clone();
    for _ in 0..most {
        let longer = last.iter().flat_map(|list: &Vec<Window>| {
            let with = |window: &Window| [&list[..], &[*window]].concat();
            windows.iter().map(with)
        });
        last = longer.collect();
        lists.extend_from_slice(&last);
    }
    lists
}

/// What the program `hindsight` prints, as text.
pub fn printed(input: &[u8]) -> String {
    let output = hindsight::program::run_bytes(input);
    String::from_utf8(output).expect("the program prints text only")
}

/// What the program `hindsight-day` prints, as text.
pub fn printed_day(input: &[u8]) -> String {
    let output = hindsight::day::run_bytes(input);
    String::from_utf8(output).expect("the program prints text only")
}

/// The days to be seen in hindsight: those made for it, and short ones of the board's
/// other kinds; each with its name.
pub fn days(seeds: u64) -> impl Iterator<Item = (String, Vec<u8>)> {
    let made = inputs::HINDSIGHT_DAYS.into_iter();
    let made = made.map(|kind| (kind, [None, None, Some(8), Some(30)]));
    let others = inputs::KINDS.into_iter().filter(|kind| kind.name != "end");
    let others = others.map(|kind| (kind, [Some(1), Some(3), Some(8), Some(20)]));
    made.chain(others)
        .flat_map(move |(kind, sizes)| days_of(kind, sizes, seeds))
}

fn days_of(
    kind: Kind,
    sizes: [Option<u32>; 4],
    seeds: u64,
) -> impl Iterator<Item = (String, Vec<u8>)> {
    (0..seeds).map(move |seed| {
        let size = sizes[seed as usize % sizes.len()];
        (format!("{} {seed}", kind.name), kind.input(seed, size))
    })
}
