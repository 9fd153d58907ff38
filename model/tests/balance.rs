//! The tally's balance: admitted = baked + given up + withdrawn + racks on the board.

use model::day::Day;
use model::draw::Draw;
use model::inputs;
use model::program::run;
use model::samples::{self, Crowd};
use model::tally::{ADMITTED, BAKED, EXPIRED, WITHDRAWN};

/// Whether the balance holds for each of the eight grades.
fn balanced(day: &Day) -> bool {
    (0..8).all(|grade| {
        let jobs = day.board.as_ref().map_or(&[][..], |board| board.jobs());
        let held = jobs.iter().filter(|job| job.grade == grade).count() as u32;
        let count = |kind| day.tally.count(kind, grade);
        count(ADMITTED) == count(BAKED) + count(EXPIRED) + count(WITHDRAWN) + held
    })
}

#[test]
fn balance_after_every_kind_of_input() {
    for kind in inputs::KINDS {
        let seeds = if kind.name == "end" { 1 } else { 40 };
        for seed in 0..seeds {
            let input = kind.input(seed, None);
            let day = run(&input[..], &mut Vec::new()).expect("memory");
            assert!(balanced(&day), "{} {seed}", kind.name);
        }
    }
}

#[test]
fn balance_after_every_line() {
    let mut draw = Draw::new(31);
    for _ in 0..200 {
        let depth = draw.between(0, 3);
        let mut day = Day::default();
        day.take(format!("D,{depth}").as_bytes()).expect("opens");
        let crowd = Crowd::drawn(&mut draw, 80);
        for call in samples::calls(&mut draw, depth, 0, crowd) {
            let line = match call {
                model::list::Call::Close { .. } => "B".to_string(),
                model::list::Call::Withdraw { ticket } => format!("W,{ticket}"),
                model::list::Call::Admit {
                    ticket,
                    laxity,
                    grade,
                } => format!("A,{ticket},{laxity},{grade}"),
            };
            let _ = day.take(line.as_bytes());
            assert!(balanced(&day));
        }
    }
}
