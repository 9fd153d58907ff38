//! Withdrawals on days: what is printed, what the tally and the T lines have, and what
//! stays as it is.

mod common;

use common::paper::{closing, page};
use common::withdrawals::{each_withdrawal, Withdrawal};
use common::{answers, printed};
use model::board::Board;
use model::day::{Day, Done};
use model::inputs;
use model::printing;
use model::program::run_bytes;
use model::refusal::Refusal;
use model::sheet::sheet;
use model::tally::{Tally, ADMITTED, BAKED, EXPIRED, WITHDRAWN};

/// A day on which racks of both grades are withdrawn, with refusals for every reason.
const DAY: &str = "W,1
D,1
W,1
A,1,3,0
A,2,3,1
A,3,1,1
A,4,1,
A,5,4,1
A,6,4,0
W,2
B
W,3
W,4
W,0
W,00005
W,5
A,5,3,1
W,7
A,7,1,1
W,7
W,0000000001
W,
W
W,2,
W,x
w,2
W,42949672950
W,4294967296
W,4294967295
B
W,2
B
";

const PRINTED: &str = "R,1,15
D,1
R,3,17
A,1,3
A,2,3
A,3,1
A,4,1
A,5,4
A,6,4
R,10,17
B,1,1,0,2,2
G,1,3,1
G,1,4,1
R,12,17
R,13,17
R,14,17
W,5
R,16,17
R,17,4
R,18,17
A,7,2
R,20,17
R,21,17
R,22,14
R,23,13
R,24,13
R,25,14
R,26,12
R,27,14
R,28,14
R,29,17
B,2,7,1,0,0
W,2
B,3,6,0,0,0
T,0,2,2,0,0
T,1,5,1,2,2
";

#[test]
fn a_day_line_by_line() {
    assert_eq!(printed(DAY), PRINTED);
}

#[test]
fn printed_without_leading_zeros() {
    let start = "D,0\nA,7,9,0\nA,70,9,0\nB\n";
    for line in ["W,70", "W,070", "W,00000070", "W,0000000070"] {
        let seen = answers(&format!("{start}{line}\n"));
        assert_eq!(seen[4], "W,70");
    }
    // Eleven digits are too many, whatever they are.
    let seen = answers(&format!("{start}W,00000000070\n"));
    assert_eq!(seen[4], "R,5,14");
    let greatest = "D,3\nA,4294967294,9,\nA,4294967295,9,\nB\nW,4294967295\nW,4294967295\n";
    assert_eq!(answers(greatest)[4..], ["W,4294967295", "R,6,17"]);
}

/// The kinds with few lines, and the days of a kind that are tried.
fn days() -> impl Iterator<Item = (String, Vec<u8>)> {
    let kinds = inputs::KINDS.into_iter();
    let kinds = kinds.filter(|kind| !["end", "long"].contains(&kind.name));
    kinds.flat_map(|kind| {
        (0..20).map(move |seed| (format!("{} {seed}", kind.name), kind.input(seed, None)))
    })
}

/// The grade of the rack that is to be withdrawn.
fn grade(withdrawal: &Withdrawal) -> u32 {
    let mut jobs = withdrawal.board().jobs().iter();
    let job = jobs.find(|job| job.ticket == withdrawal.ticket);
    job.expect("on the board").grade
}

/// The board is without the rack, and slot and highest ticket go on as they were.
fn is_taken_off(before: &Board, ticket: u32, after: &Board) {
    let mut left = before.jobs().to_vec();
    left.retain(|job| job.ticket != ticket);
    let highest = before.highest_ticket;
    let wanted = Board::holding(before.depth, before.slot, highest, &left);
    assert_eq!(*after, wanted);
    assert_eq!(after.count + 1, before.count);
}

#[test]
fn every_withdrawal_of_every_kind_of_day() {
    let (mut let_through, mut refused) = (0, 0);
    for (day, input) in days() {
        each_withdrawal(&input, |withdrawal| {
            let (before, after) = (&withdrawal.before, &withdrawal.after);
            let ticket = withdrawal.ticket;
            if let Ok(done) = &withdrawal.answer {
                assert_eq!(*done, Done::Withdrawn { ticket });
                assert_eq!(printing::done(done), [format!("W,{ticket}")], "{day}");
                let left = after.board.as_ref().expect("a board");
                is_taken_off(withdrawal.board(), ticket, left);
                let mut tally = before.tally.clone();
                assert_eq!(tally.record(WITHDRAWN, grade(withdrawal)), Ok(()));
                assert_eq!(after.tally, tally);
                let_through += 1;
            } else {
                assert_eq!(after.board, before.board);
                assert_eq!(after.tally, before.tally);
                refused += 1;
            }
        });
    }
    assert!(
        let_through > 5_000 && refused > 2_000,
        "{let_through} {refused}"
    );
}

/// The figures of the T lines in an output.
fn totals(output: &str) -> Vec<[u32; 5]> {
    let lines = output.lines().filter_map(|line| line.strip_prefix("T,"));
    let figures = |line: &str| -> Vec<u32> {
        let figures = line.split(',').map(|figure| figure.parse());
        figures.map(|figure| figure.expect("a number")).collect()
    };
    lines
        .map(|line| figures(line).try_into().expect("five figures"))
        .collect()
}

#[test]
fn t_lines_have_the_withdrawals_of_each_grade() {
    let mut all = [0; 8];
    for (day, input) in days() {
        let mut withdrawn = [0; 8];
        each_withdrawal(&input, |withdrawal| {
            if withdrawal.is_let_through() {
                withdrawn[grade(withdrawal) as usize] += 1;
            }
        });
        let output = String::from_utf8(run_bytes(&input)).expect("text");
        for [grade, .., sixth] in totals(&output) {
            assert_eq!(sixth, withdrawn[grade as usize], "{day}");
            all[grade as usize] += sixth;
        }
    }
    assert!(all.iter().all(|&withdrawn| withdrawn > 100), "{all:?}");
}

#[test]
fn the_order_of_a_t_line() {
    let mut tally = Tally::default();
    for (times, kind) in [(9, ADMITTED), (4, BAKED), (2, EXPIRED), (3, WITHDRAWN)] {
        for _ in 0..times {
            tally.record(kind, 1).expect("room");
        }
    }
    assert_eq!([ADMITTED, BAKED, EXPIRED, WITHDRAWN], [0, 1, 2, 3]);
    let day = Day {
        board: Some(Board::holding(1, 1, 0, &[])),
        tally,
    };
    assert_eq!(printing::totals(&day), ["T,0,0,0,0,0", "T,1,9,4,2,3"]);
}

/// The input with a line that gets 12 for each withdrawal that gets 17.
fn without_refused(input: &[u8]) -> Vec<u8> {
    let mut day = Day::default();
    let mut bytes = Vec::new();
    for line in input.split_inclusive(|&byte| byte == b'\n') {
        let text = line.strip_suffix(b"\n").unwrap_or(line);
        match day.take(text) {
            Err(Refusal::NotWaiting) => bytes.extend_from_slice(b"x\n"),
            _ => bytes.extend_from_slice(line),
        }
    }
    bytes
}

/// What the program prints, line by line, with number 12 wherever 17 is given.
fn with_12_for_17(input: &[u8]) -> (Vec<String>, usize) {
    let output = String::from_utf8(run_bytes(input)).expect("text");
    let mut changed = 0;
    let mut lines = Vec::new();
    for line in output.lines() {
        match line.strip_suffix(",17") {
            Some(start) if start.starts_with("R,") => {
                lines.push(format!("{start},12"));
                changed += 1;
            }
            _ => lines.push(line.to_string()),
        }
    }
    (lines, changed)
}

#[test]
fn refused_withdrawals_leave_no_trace() {
    let mut refused = 0;
    for (day, input) in days() {
        let (lines, many) = with_12_for_17(&input);
        assert_eq!(
            (lines, 0),
            with_12_for_17(&without_refused(&input)),
            "{day}"
        );
        refused += many;
    }
    assert!(refused > 2_000, "{refused}");
}

#[test]
fn the_sheet_prints_nothing_for_a_withdrawal() {
    assert_eq!(sheet(b"D,0\nW,1\nA,1,9,0\nW,1\n"), b"");
    let lines = [[1, 1, 0, 2], [2, 7, 1, 0], [3, 6, 0, 0]].map(closing);
    let wanted = page(&lines, "                 3     2");
    assert_eq!(sheet(DAY.as_bytes()), wanted.as_bytes());
    // Withdrawals after the last closing.
    let more = format!("{DAY}A,8,9,0\nA,9,9,0\nW,8\nW,6\n");
    assert_eq!(sheet(more.as_bytes()), wanted.as_bytes());
}
