//! The generated lists and days for hindsight: fixed, and with all that they should have.

mod common;

use std::collections::{BTreeMap, BTreeSet};

use common::hindsight::{printed, printed_day};
use common::lines_of;
use model::day::{Day, Done};
use model::hindsight::day::Record;
use model::hindsight::program::read;
use model::hindsight::Window;
use model::inputs::{self, Kind};
use model::lines::next_line;

fn kind(name: &str) -> Kind {
    inputs::find(name).expect("a kind")
}

/// The number of the refusal that an output is, 0 for none.
fn number(output: &str) -> u32 {
    match output.strip_prefix("R,") {
        Some(rest) => rest
            .trim_end()
            .rsplit(',')
            .next()
            .unwrap_or("")
            .parse()
            .expect("a number"),
        None => 0,
    }
}

/// How many inputs of a kind get each number, 0 for none.
fn numbers(kind: Kind, seeds: u64, printed: fn(&[u8]) -> String) -> BTreeMap<u32, usize> {
    let mut seen = BTreeMap::new();
    for seed in 0..seeds {
        let number = number(&printed(&kind.input(seed, None)));
        *seen.entry(number).or_default() += 1;
    }
    seen
}

/// The numbers that lists of a kind get, 0 for none.
fn of_lists(name: &str, seeds: u64) -> Vec<u32> {
    numbers(kind(name), seeds, printed).into_keys().collect()
}

/// The numbers that days of a kind get, 0 for none.
fn of_days(name: &str, seeds: u64) -> Vec<u32> {
    numbers(kind(name), seeds, printed_day)
        .into_keys()
        .collect()
}

#[test]
fn the_same_seed_gives_the_same_bytes() {
    let kinds = inputs::LISTS.into_iter().chain(inputs::HINDSIGHT_DAYS);
    for kind in kinds {
        assert_eq!(kind.input(3, None), kind.input(3, None));
        let inputs: BTreeSet<Vec<u8>> = (0..40).map(|seed| kind.input(seed, None)).collect();
        assert!(inputs.len() > 25, "{} {}", kind.name, inputs.len());
    }
}

#[test]
fn every_name_stands_for_one_kind() {
    let names: BTreeSet<&str> = inputs::every_kind().map(|kind| kind.name).collect();
    assert_eq!(names.len(), inputs::every_kind().count());
    for kind in inputs::every_kind() {
        assert_eq!(
            inputs::find(kind.name).map(|found| found.about),
            Some(kind.about)
        );
    }
}

#[test]
fn good_lists_are_not_refused() {
    for name in [
        "list-few",
        "list-many",
        "list-exact",
        "list-tight",
        "list-one-slot",
        "list-wide",
        "list-alike",
        "list-nested",
        "list-chained",
    ] {
        assert_eq!(of_lists(name, 60), [0], "{name}");
    }
}

#[test]
fn spoilt_lists_get_every_number() {
    assert_eq!(of_lists("list-too-many", 200), [11, 13, 14, 18]);
    assert_eq!(of_lists("list-outside", 100), [0, 19]);
    assert_eq!(of_lists("list-fields", 200), [0, 14, 19]);
    // An empty line at the end is none where its end is missing.
    assert_eq!(of_lists("list-counts", 400), [0, 13]);
    assert_eq!(of_lists("list-rows", 300), [11, 13, 14, 18, 19]);
    assert_eq!(of_lists("list-damaged", 200), [0, 13, 14, 19]);
    assert_eq!(of_lists("list-overlong", 200), [11, 13, 14]);
    assert_eq!(of_lists("list-tiny", 200), [0, 13, 14, 19]);
}

/// Number of racks in each good list of a kind.
fn lengths(name: &str, seeds: u64) -> BTreeSet<usize> {
    let outputs = (0..seeds).map(|seed| printed(&kind(name).input(seed, None)));
    outputs.map(|output| output.lines().count() - 1).collect()
}

#[test]
fn lists_are_as_long_as_they_should_be() {
    assert_eq!(lengths("list-few", 200), (0..=6).collect());
    assert_eq!(lengths("list-many", 100), (60..=64).collect());
    assert_eq!(lengths("list-exact", 40), BTreeSet::from([64]));
    for size in [0, 1, 3, 20] {
        let output = printed(&kind("list-exact").input(5, Some(size)));
        assert_eq!(output.lines().count(), size as usize + 1);
    }
    let lines = |seed| {
        let input = kind("list-too-many").input(seed, None);
        input
            .split(|&byte| byte == b'\n')
            .filter(|line| !line.is_empty())
            .count()
    };
    let lengths: BTreeSet<usize> = (0..200).map(lines).collect();
    assert!(
        [65, 66, 67, 70, 130]
            .iter()
            .all(|long| lengths.contains(long)),
        "{lengths:?}"
    );
}

/// The racks of the lists of a kind, but those on wrong lines.
fn racks_of(name: &str, seeds: u64) -> Vec<Window> {
    let lines = lines_of(kind(name), seeds).into_iter();
    lines.filter_map(|line| read(&line).ok()).collect()
}

#[test]
fn slots_at_the_bounds_and_past_them() {
    let racks = racks_of("list-outside", 200);
    for (first, last) in [
        (1, 1),
        (64, 64),
        (1, 64),
        (0, 0),
        (65, 65),
        (64, 65),
        (0, 65),
        (64, 1),
    ] {
        assert!(racks.contains(&Window { first, last }), "{first} {last}");
    }
    assert!(racks
        .iter()
        .any(|rack| rack.first == rack.last + 1 && rack.first <= 64));
    assert!(racks.iter().any(|rack| rack.last == u32::MAX));
}

#[test]
fn fields_of_every_sort() {
    let lines = lines_of(kind("list-fields"), 400);
    let mut fields: BTreeSet<&[u8]> = BTreeSet::new();
    for line in &lines {
        fields.extend(line.split(|&byte| byte == b','));
    }
    for field in [
        "",
        "x",
        "a",
        "+1",
        "-1",
        " 1",
        "1 ",
        "1\r",
        "\r",
        "\0",
        "\u{e9}",
        "4294967295",
        "4294967296",
        "9999999999",
        "0000000001",
        "00000000001",
        "0000000064",
        "0000000065",
        "0",
    ] {
        assert!(fields.contains(field.as_bytes()), "{field:?}");
    }
}

#[test]
fn lines_about_as_long_as_allowed() {
    for name in ["list-overlong", "list-rows", "list-too-many"] {
        let lines = lines_of(kind(name), 400);
        let lengths: BTreeSet<usize> = lines.iter().map(Vec::len).collect();
        assert!(
            [39, 40, 41].iter().all(|length| lengths.contains(length)),
            "{name}"
        );
        assert!(lengths.range(1_000..).next().is_some(), "{name}");
        // Two fields of digits alone are among them.
        let digits = |line: &&Vec<u8>| line.iter().all(|byte| b"0123456789,".contains(byte));
        let two = lines.iter().filter(digits).filter(|line| line.len() > 38);
        let two = two.filter(|line| line.iter().filter(|&&byte| byte == b',').count() == 1);
        let lengths: BTreeSet<usize> = two.map(Vec::len).collect();
        assert!(
            [39, 40, 41].iter().all(|length| lengths.contains(length)),
            "{name}"
        );
    }
}

#[test]
fn stray_bytes_in_damaged_lists() {
    let lines = lines_of(kind("list-damaged"), 400);
    for stray in [b'\r', b'\0', b' ', b'+', b'-', b'A', 0x80, 0xff] {
        assert!(lines.iter().any(|line| line.contains(&stray)), "{stray}");
    }
}

#[test]
fn ends_of_lists() {
    for kind in inputs::LISTS {
        let inputs: Vec<Vec<u8>> = (0..60).map(|seed| kind.input(seed, None)).collect();
        let ended = inputs.iter().filter(|input| input.ends_with(b"\n")).count();
        assert!((5..=55).contains(&ended), "{} {ended}", kind.name);
    }
    let inputs = || (0..200).map(|seed| kind("list-tiny").input(seed, None));
    assert!(inputs().any(|input| input.is_empty()));
    assert!(inputs().any(|input| input == b"\n"));
    assert!(inputs().any(|input| input.ends_with(b"\n\n")));
    assert!(inputs().any(|input| input.starts_with(b"\n") && input.len() > 4));
    let few = (0..200).filter(|&seed| kind("list-few").input(seed, None).is_empty());
    assert!(few.count() > 2);
}

#[test]
fn days_get_the_numbers_that_they_should() {
    for name in [
        "hindsight-plain",
        "hindsight-withdrawn",
        "hindsight-crowded",
    ] {
        assert_eq!(of_days(name, 100), [0], "{name}");
    }
    assert_eq!(of_days("hindsight-bounds", 200), [0, 18, 19]);
    assert_eq!(of_days("hindsight-too-long", 100), [0, 19]);
    assert_eq!(of_days("hindsight-damaged", 100), [0]);
    let seen = numbers(kind("hindsight-too-many"), 100, printed_day);
    assert!(seen[&18] > 90, "{seen:?}");
    for seed in 0..60 {
        let input = kind("hindsight-none").input(seed, None);
        assert_eq!(printed_day(&input), "S,0,0,0\n");
    }
}

/// What days have.
#[derive(Debug, Default)]
struct Had {
    depths: BTreeSet<u32>,
    blanks: usize,
    refused: usize,
    promised: usize,
    withdrawn: usize,
    late: usize,
    not_baked: usize,
}

impl Had {
    /// Takes in a day.
    fn take(&mut self, mut input: &[u8]) {
        let record = Record::of(input).expect("memory can be read");
        self.depths.extend(record.depth);
        let late = |racks: &[_]| racks.len() > record.list().len();
        self.late += usize::from(late(&record.racks));
        let mut racks = record.racks.iter();
        self.not_baked += usize::from(racks.any(|rack| rack.baked == 0));
        let mut day = Day::default();
        while let Some(line) = next_line(&mut input).expect("memory can be read") {
            match day.take(&line) {
                Ok(Done::Admitted { .. }) => self.blanks += usize::from(line.ends_with(b",")),
                Ok(Done::Promised { .. }) => self.promised += 1,
                Ok(Done::Withdrawn { .. }) => self.withdrawn += 1,
                Ok(_) => {}
                Err(_) => self.refused += 1,
            }
        }
    }
}

#[test]
fn days_have_all_that_they_should() {
    for kind in inputs::HINDSIGHT_DAYS {
        if kind.name == "hindsight-none" {
            continue;
        }
        let mut had = Had::default();
        (0..60).for_each(|seed| had.take(&kind.input(seed, None)));
        assert_eq!(had.depths.len(), 4, "{} {had:?}", kind.name);
        let counts = [had.blanks, had.refused, had.late, had.not_baked];
        assert!(
            counts.iter().all(|&many| many > 10),
            "{} {had:?}",
            kind.name
        );
        assert_eq!(had.withdrawn == 0, kind.name == "hindsight-plain");
        let asks = [
            "hindsight-plain",
            "hindsight-withdrawn",
            "hindsight-damaged",
        ];
        assert_eq!(had.promised > 0, asks.contains(&kind.name));
    }
}

#[test]
fn hindsight_often_bakes_other_racks_than_the_board() {
    for (name, least) in [("hindsight-crowded", 20), ("hindsight-withdrawn", 20)] {
        let mut other = 0;
        for seed in 0..100 {
            let input = kind(name).input(seed, None);
            let record = Record::of(&input[..]).expect("memory can be read");
            let entries = record.entries().expect("the list is not refused");
            let mut entries = entries.iter();
            other += usize::from(entries.any(|entry| (entry.slot > 0) != (entry.rack.baked > 0)));
        }
        assert!(other > least, "{name} {other}");
    }
}
