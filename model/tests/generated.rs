//! The generated inputs: fixed, answered line by line, and covering the refusals.

use std::collections::BTreeSet;

use model::day::Day;
use model::inputs::{self, Kind};
use model::limits::{LONGEST_LAXITY, MOST_HELD};
use model::lines::{read, Request};
use model::program::run_bytes;
use model::refusal::Refusal;

fn kind(name: &str) -> Kind {
    inputs::find(name).expect("a kind")
}

/// Number of lines: ends of line, and one more where bytes follow the last.
fn lines(input: &[u8]) -> usize {
    let ends = input.iter().filter(|&&byte| byte == b'\n').count();
    let more = !input.is_empty() && !input.ends_with(b"\n");
    ends + usize::from(more)
}

/// The printed lines that answer a line of the input.
fn answers(output: &str) -> impl Iterator<Item = &str> {
    let more = |line: &&str| !line.starts_with('G') && !line.starts_with('T');
    output.lines().filter(more)
}

/// The numbers of the refusals in an output.
fn refusals(output: &str) -> BTreeSet<u32> {
    let refused = output.lines().filter(|line| line.starts_with("R,"));
    let last = refused.filter_map(|line| line.rsplit(',').next());
    last.filter_map(|number| number.parse().ok()).collect()
}

fn text(input: &[u8]) -> String {
    String::from_utf8(run_bytes(input)).expect("text")
}

#[test]
fn every_line_is_answered_once() {
    for kind in inputs::KINDS {
        if kind.name == "end" {
            continue;
        }
        for seed in 0..60 {
            let input = kind.input(seed, None);
            let output = text(&input);
            assert_eq!(
                answers(&output).count(),
                lines(&input),
                "{} {seed}",
                kind.name
            );
        }
    }
}

#[test]
fn the_same_seed_gives_the_same_bytes() {
    for kind in inputs::KINDS {
        let size = Some(20);
        assert_eq!(kind.input(3, size), kind.input(3, size));
        if kind.name != "tiny" {
            assert_ne!(kind.input(3, size), kind.input(4, size));
        }
    }
}

#[test]
fn refusals_are_all_there() {
    for seed in 0..50 {
        let seen = refusals(&text(&kind("refusals").input(seed, None)));
        let wanted = BTreeSet::from([1, 4, 5, 6, 7, 11, 12, 13, 14, 15, 17]);
        assert_eq!(seen, wanted, "{seed}");
    }
}

/// The waits that are let through on the days of a kind, and those that get 5.
fn waits(name: &str, seeds: u64) -> (BTreeSet<u32>, BTreeSet<u32>) {
    let (mut let_through, mut refused) = (BTreeSet::new(), BTreeSet::new());
    for seed in 0..seeds {
        let mut day = Day::default();
        for line in kind(name).input(seed, None).split(|&byte| byte == b'\n') {
            let answer = day.take(line);
            if let Ok(Request::Admit { laxity, .. }) = read(line) {
                match answer {
                    Ok(_) => let_through.insert(laxity),
                    Err(Refusal::Laxity) => refused.insert(laxity),
                    Err(_) => continue,
                };
            }
        }
    }
    (let_through, refused)
}

#[test]
fn every_wait_up_to_the_longest_is_let_through() {
    let up_to_longest: BTreeSet<u32> = (1..=LONGEST_LAXITY).collect();
    for kind in inputs::KINDS {
        let seeds = match kind.name {
            // The days of these have short waits only, or a million lines.
            "ties" | "tickets" | "overlong" | "tiny" | "end" => continue,
            "long" => 1,
            _ => 40,
        };
        assert_eq!(waits(kind.name, seeds).0, up_to_longest, "{}", kind.name);
    }
}

#[test]
fn waits_too_long_by_one_slot_or_more_are_refused() {
    let longest = LONGEST_LAXITY;
    let (_, refused) = waits("refusals", 100);
    let wrong = (longest + 1..=2 * longest).chain([0, u32::MAX]);
    assert_eq!(refused, wrong.collect());
    let (_, refused) = waits("mixed", 100);
    assert!(refused.contains(&(longest + 1)), "{refused:?}");
    let longer = refused.range(longest + 2..=2 * longest);
    assert!(longer.count() > 5, "{refused:?}");
}

#[test]
fn the_books_end_is_refused() {
    let output = text(&kind("end").input(1, None));
    let seen = refusals(&output);
    // Waits too long by one slot are among those asked for.
    assert!(seen.contains(&3) && seen.contains(&5));
    assert!(output.contains("\nB,1000000,"));
    assert!(!output.contains("\nB,1000001,"));
}

#[test]
fn good_days_are_hardly_refused() {
    for name in ["ordinary", "given-up", "ties", "long", "shortfall"] {
        for seed in 0..20 {
            let seen = refusals(&text(&kind(name).input(seed, None)));
            assert_eq!(seen, BTreeSet::new(), "{name} {seed}");
        }
    }
}

/// The racks given up by each closing of an output, as ticket and grade.
fn given_up(output: &str) -> Vec<Vec<(u32, u32)>> {
    let mut closings = Vec::new();
    for line in output.lines() {
        if line.starts_with("B,") {
            closings.push(Vec::new());
        }
        if let Some(rest) = line.strip_prefix("G,") {
            let words = rest.split(',').map(|word| word.parse().expect("a number"));
            let figures: Vec<u32> = words.collect();
            let closing = closings.last_mut().expect("a B line before");
            closing.push((figures[1], figures[2]));
        }
    }
    closings
}

#[test]
fn racks_given_up_stand_by_grade_and_then_by_ticket() {
    for kind in inputs::KINDS.iter().filter(|kind| kind.name != "end") {
        for seed in 0..20 {
            for racks in given_up(&text(&kind.input(seed, None))) {
                for pair in racks.windows(2) {
                    let [(ticket, grade), (next, next_grade)] = [pair[0], pair[1]];
                    let rises = grade < next_grade || (grade == next_grade && ticket < next);
                    assert!(rises, "{} {seed}: {pair:?}", kind.name);
                }
            }
        }
    }
}

/// Whether some rack stands before one of a lower ticket.
fn tickets_fall(racks: &[(u32, u32)]) -> bool {
    racks.windows(2).any(|pair| pair[0].0 > pair[1].0)
}

#[test]
fn many_racks_of_mixed_grades_are_given_up_at_every_depth() {
    for (name, many) in [
        ("given-up", MOST_HELD * 3 / 5),
        ("pages", MOST_HELD - 1),
        ("overfull", 6),
    ] {
        // Grades of a closing: one at depth 0, then up to two, four and eight.
        let mut seen = BTreeSet::new();
        for seed in 0..60 {
            for racks in given_up(&text(&kind(name).input(seed, None))) {
                let grades: BTreeSet<u32> = racks.iter().map(|rack| rack.1).collect();
                if racks.len() >= many && (grades.len() == 1 || tickets_fall(&racks)) {
                    seen.insert(grades.len());
                }
            }
        }
        let wanted = [1, 2, 4].iter().all(|grades| seen.contains(grades));
        assert!(
            wanted && seen.range(5..).next().is_some(),
            "{name} {seen:?}"
        );
    }
}

#[test]
fn short_days_give_up_racks_of_several_grades() {
    for (slots, wanted) in [(1, 50), (3, 100), (4, 100), (20, 200)] {
        let closings =
            (0..300).flat_map(|seed| given_up(&text(&kind("given-up").input(seed, Some(slots)))));
        let fall = closings.filter(|racks| tickets_fall(racks)).count();
        assert!(fall > wanted, "{slots} slots: {fall}");
    }
}

/// The depths at which a rack with a blank grade is admitted.
fn depths_with_blanks(input: &[u8]) -> BTreeSet<u32> {
    let output = text(input);
    let mut answers = answers(&output);
    let (mut depth, mut seen): (Option<u32>, _) = (None, BTreeSet::new());
    for line in input.split(|&byte| byte == b'\n') {
        let answer = answers.next().unwrap_or("");
        if let Some(opened) = answer.strip_prefix("D,") {
            depth = opened.parse().ok();
        }
        if line.ends_with(b",") && answer.starts_with("A,") {
            seen.extend(depth);
        }
    }
    seen
}

#[test]
fn blank_grades_are_admitted_at_every_depth() {
    for kind in inputs::KINDS {
        let wanted = match kind.name {
            "overlong" | "end" => continue,
            "long" => BTreeSet::from([3]),
            "tiny" => BTreeSet::from([1, 2]),
            _ => BTreeSet::from([0, 1, 2, 3]),
        };
        let mut seen = BTreeSet::new();
        for seed in 0..60 {
            seen.extend(depths_with_blanks(&kind.input(seed, None)));
        }
        assert_eq!(seen, wanted, "{}", kind.name);
    }
}

#[test]
fn tickets_come_to_the_greatest_and_are_refused_there() {
    let mut seen = BTreeSet::new();
    for seed in 0..20 {
        seen.extend(refusals(&text(&kind("tickets").input(seed, None))));
    }
    assert_eq!(seen, BTreeSet::from([4, 14]));
}
