//! The questions that the generated days have, above all those of the kind `promise`.

mod common;

use std::collections::BTreeSet;

use common::spread::Spread;
use common::{each_question, lines_of};
use model::board::Board;
use model::day::Day;
use model::inputs::{self, Kind};
use model::limits::{LAST_SLOT, LONGEST_LAXITY, MOST_HELD};
use model::lines::next_line;
use model::refusal::Refusal;
use model::rule::excess;

fn kind(name: &str) -> Kind {
    inputs::find(name).expect("a kind")
}

/// The kinds whose days have questions and few lines.
fn asking() -> impl Iterator<Item = Kind> {
    let kinds = inputs::KINDS.into_iter();
    kinds.filter(|kind| !["end", "long"].contains(&kind.name))
}

/// Hands on each board that is asked on the days of a kind, with the wait promised.
fn each_asked<E: FnMut(&Board, u32)>(kind: Kind, seeds: u64, size: Option<u32>, mut each: E) {
    for seed in 0..seeds {
        each_question(&kind.input(seed, size), |question, _| {
            each(question.board(), question.wait);
        });
    }
}

/// The answers on the days of a kind.
fn answers(name: &str, seeds: u64, size: Option<u32>) -> Spread {
    let mut seen = Spread::default();
    each_asked(kind(name), seeds, size, |board, wait| {
        seen.count(wait, board.jobs(), board.slot);
    });
    seen
}

#[test]
fn every_answer_is_given_and_0_for_both_reasons() {
    let seen = answers("promise", 40, None);
    // Of some 7,000 questions.
    assert!(seen.rarest(LONGEST_LAXITY) > 25, "{seen:?}");
    assert!(seen.of(0) > 500 && seen.of(1) > 500, "{seen:?}");
}

#[test]
fn short_days_have_many_answers() {
    for (slots, longest, many) in [(1, 8, 5), (3, 15, 2), (4, 15, 3), (20, LONGEST_LAXITY, 50)] {
        let seen = answers("promise", 300, Some(slots));
        let rarest = (0..=longest).map(|wait| seen.of(wait)).min();
        assert!(rarest > Some(many), "{slots} slots: {seen:?}");
    }
    assert!(answers("promise", 300, Some(10)).sold_out > 100);
}

#[test]
fn other_days_have_short_promises_and_long_ones() {
    for name in [
        "ordinary",
        "ties",
        "mixed",
        "refusals",
        "given-up",
        "shortfall",
    ] {
        let seen = answers(name, 40, None);
        for wait in [0, 1, 2] {
            assert!(seen.of(wait) > 20, "{name} {seen:?}");
        }
        let longer = (8..=LONGEST_LAXITY).map(|wait| seen.of(wait));
        let longer: usize = longer.sum();
        assert!(longer > 20, "{name} {seen:?}");
    }
}

/// The waits that are full on a board: their excess is zero.
fn full_waits(board: &Board) -> Vec<i64> {
    let is_full = |wait: &i64| excess(board.jobs(), board.slot, *wait) == 0;
    let waits = 1..=i64::from(LONGEST_LAXITY);
    waits.filter(is_full).collect()
}

#[test]
fn after_a_full_wait_comes_room_and_another_full_wait() {
    let (mut seen, mut in_a_row) = (0, 0);
    each_asked(kind("promise"), 40, None, |board, wait| {
        let full = full_waits(board);
        if wait > 1 {
            let gap = full.windows(2).any(|pair| pair[1] > pair[0] + 1);
            seen += usize::from(gap);
            in_a_row += usize::from(!gap);
        }
    });
    assert!(seen > 500 && in_a_row > 500, "{seen} {in_a_row}");
}

#[test]
fn empty_boards_and_full_ones_are_asked() {
    for kind in asking() {
        let (mut empty, mut held, mut full, mut lost) = (0, 0, 0, 0);
        each_asked(kind, 40, None, |board, wait| {
            empty += usize::from(board.count == 0);
            held += usize::from(board.count > 0);
            full += usize::from(wait > 1);
            lost += usize::from(wait == 0);
        });
        let seen = [empty, held, full, lost];
        assert!(seen.iter().all(|&many| many > 1), "{} {seen:?}", kind.name);
    }
    let mut all_places = 0;
    each_asked(kind("pages"), 30, None, |board, _| {
        all_places += usize::from(board.held() == MOST_HELD);
    });
    assert!(all_places > 5, "{all_places}");
}

/// The refusals that questions get on a day.
fn refused(mut input: &[u8]) -> Vec<Refusal> {
    let mut day = Day::default();
    let mut refusals = Vec::new();
    while let Some(line) = next_line(&mut input).expect("memory can be read") {
        let answer = day.take(&line);
        if line == b"Q" {
            refusals.extend(answer.err());
        }
    }
    refusals
}

#[test]
fn questions_come_before_a_board_is_open_too() {
    for kind in asking() {
        let days = (0..40).map(|seed| refused(&kind.input(seed, None)));
        let refusals: Vec<Refusal> = days.flatten().collect();
        assert!(refusals.iter().all(|&refusal| refusal == Refusal::NotNow));
        let early = ["refusals", "damaged", "overlong", "tiny", "mixed", "pages"];
        assert_eq!(!refusals.is_empty(), early.contains(&kind.name));
    }
}

#[test]
fn questions_come_at_the_books_end_and_past_it() {
    let input = kind("end").input(1, None);
    assert_eq!(refused(&input), [Refusal::BookEnded; 6]);
    let (mut waiting, mut past_end, mut last_slot) = (0, 0, 0);
    each_question(&input, |question, _| {
        let board = question.board();
        let mut jobs = board.jobs().iter();
        waiting += usize::from(jobs.any(|job| job.deadline > LAST_SLOT));
        // The further rack itself may wait past the end.
        past_end += usize::from(board.slot + question.wait > LAST_SLOT + 1);
        last_slot += usize::from(board.slot == LAST_SLOT);
    });
    assert!(waiting > 20 && past_end > 1, "{waiting} {past_end}");
    assert_eq!(last_slot, 2);
}

#[test]
fn spoilt_questions() {
    let forms: [&[u8]; 7] = [b"Q,", b"Q,1", b"Q,x", b"QQ", b" Q", b"Q ", b"q"];
    for name in ["refusals", "mixed", "pages"] {
        let lines = lines_of(kind(name), 100);
        for form in forms {
            assert!(lines.contains(form), "{name} {form:?}");
        }
    }
    let lines = lines_of(kind("damaged"), 100);
    for form in [b"Q," as &[u8], b",Q", b"QQ", b"q"] {
        assert!(lines.contains(form), "{form:?}");
    }
    let long = |line: &Vec<u8>| line.len() > 40 && line.starts_with(b"Q");
    for name in ["refusals", "overlong", "mixed"] {
        assert!(lines_of(kind(name), 20).iter().any(long), "{name}");
    }
}

#[test]
fn questions_stand_everywhere() {
    // The letters of the lines before a question; a question begins and ends a day.
    let (mut before, mut first, mut last) = (BTreeSet::new(), 0, 0);
    for kind in asking() {
        for seed in 0..20 {
            let input = kind.input(seed, None);
            let lines: Vec<&[u8]> = input.split(|&byte| byte == b'\n').collect();
            let pairs = lines.windows(2).filter(|pair| pair[1] == b"Q");
            before.extend(pairs.filter_map(|pair| pair[0].first().copied()));
            first += usize::from(input.starts_with(b"Q\n"));
            last += usize::from(input.ends_with(b"\nQ"));
        }
    }
    assert!(b"DABQ".iter().all(|letter| before.contains(letter)));
    assert!(first > 0 && last > 0, "{first} {last}");
}

#[test]
fn long_days_have_no_questions() {
    assert!(!lines_of(kind("long"), 2).contains(&b"Q"[..]));
}
