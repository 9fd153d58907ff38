//! Single calls: closing boards of several sizes and shapes, admitting on a nearly full one, withdrawing from a full one, asking what can be
//! promised.

use crate::convert;
use crate::timed::Timed;
use benchmark::single;
use model::board::{Board, Job};
use model::calls::{self, Closed, Expired};
use model::draw::Draw;
use model::limits::{LONGEST_LAXITY, MOST_HELD, MOST_PER_SLOT};
use model::samples;
use model::soundness::is_sound;
use oven::{Slot, Wait};
use std::hint::black_box;
use std::time::{Duration, Instant};

/// Calls are timed together for about so long, on each side alike: then starting anew and being interrupted cost a slow side no more than a fast one.
const BATCH: Duration = Duration::from_millis(2);
/// In each round every side of a call has one batch, so that a slow spell of the machine meets all of them.
const ROUNDS: u32 = 5;
/// In each pass every call has its rounds.
pub const PASSES: u32 = 20;

/// Racks on a full board.
const FULL: u32 = MOST_HELD as u32;

/// How many racks a board holds, and which shapes it has at each of these sizes.
pub const SIZES: [u32; 4] = [FULL / 8, FULL / 4, FULL / 2, FULL];
pub const SHAPES: [Shape; 3] = [Shape::Spread, Shape::OneGrade, Shape::OneWait];

/// How waits and grades lie on a board. Where there is one wait, this slot is the last of every rack.
#[derive(Clone, Copy)]
pub enum Shape {
    Spread,
    OneGrade,
    OneWait,
    AdmittedWithLongest,
}

impl Shape {
    /// The longest wait is named, since boards with another one are not the same.
    pub fn name(self) -> String {
        match self {
            Shape::Spread => format!("waits to {LONGEST_LAXITY} and grades spread"),
            Shape::OneGrade => format!("waits to {LONGEST_LAXITY} spread, one grade"),
            Shape::OneWait => "one wait, grades spread".into(),
            Shape::AdmittedWithLongest => {
                format!("each admitted with wait {LONGEST_LAXITY}, grades spread")
            }
        }
    }
}

/// What the closing of a board of so many racks is called.
pub fn closing_name(held: u32, shape: Shape) -> String {
    format!("closing, {held} racks, {}", shape.name())
}

/// A sound board of depth 3 in slot 100 that holds so many racks, eight of each slot that has any but the last, which may have fewer.
fn board(held: u32, shape: Shape) -> Board {
    let (slot, mut draw) = (100, Draw::new(7));
    let eight = MOST_PER_SLOT as u32;
    let first = slot + 1 - (held + eight - 1) / eight;
    let jobs: Vec<Job> = (0..held)
        .map(|i| {
            let admitted = first + i / eight;
            let latest = admitted + LONGEST_LAXITY - 1;
            let deadline = match shape {
                Shape::OneWait => slot,
                Shape::AdmittedWithLongest => latest,
                _ => draw.between(slot, latest),
            };
            let grade = match shape {
                Shape::OneGrade => 5,
                _ => draw.between(0, 7),
            };
            Job {
                ticket: i + 1,
                admitted,
                deadline,
                grade,
            }
        })
        .collect();
    Board::holding(3, slot, held, &jobs)
}

/// Takes a result, so that the compiler cannot leave out what made it.
fn keep<T>(result: T) {
    let _ = black_box(result);
}

/// How many calls make a batch.
fn repeats(call: &mut dyn FnMut()) -> u32 {
    let (began, mut calls) = (Instant::now(), 0);
    while began.elapsed() < BATCH {
        call();
        calls += 1;
    }
    calls
}

/// The time of a call, from so many together.
fn batch(call: &mut dyn FnMut(), repeats: u32) -> Duration {
    let began = Instant::now();
    (0..repeats).for_each(|_| call());
    began.elapsed() / repeats
}

/// The least time of each side over all rounds.
fn least(sides: &mut [&mut dyn FnMut()]) -> Vec<Duration> {
    let repeats: Vec<u32> = sides.iter_mut().map(|call| repeats(call)).collect();
    let mut best = vec![Duration::MAX; sides.len()];
    for _ in 0..ROUNDS {
        for ((call, repeats), least) in sides.iter_mut().zip(&repeats).zip(&mut best) {
            *least = (*least).min(batch(call, *repeats));
        }
    }
    best
}

fn close_by_sorting(board: &mut Board) -> Closed {
    let find = |jobs: &[Job], slot, depth| single::job_to_bake(jobs, slot, depth);
    calls::close_by(board, MOST_HELD, find).expect("a sound board")
}

fn close_by_model(board: &mut Board) -> Closed {
    calls::close(board, MOST_HELD).expect("a sound board")
}

/// A list to lend in three parts, for as many racks as a board holds, with nothing in it.
fn cleared() -> ([u32; MOST_HELD], [u8; MOST_HELD], [Slot; MOST_HELD]) {
    ([0; MOST_HELD], [0; MOST_HELD], [Slot(0); MOST_HELD])
}

/// All sides close the board, bake the same rack, give up as many and have the same shortfall. Tells whether our side's lists are the model's, in its
/// order.
fn check(board: &Board) -> bool {
    let (mut tickets, mut grades, mut slots) = cleared();
    let given = convert::board(board);
    let ours = oven::calls::close(given, &mut tickets, &mut grades, &mut slots);
    let model = close_by_model(&mut board.clone());
    assert_eq!(model, close_by_sorting(&mut board.clone()));
    assert_eq!((0, model.ticket), (ours.refusal, ours.ticket));
    assert_eq!(model.expired.len(), ours.given_up as usize);
    assert_eq!(model.shortfall, ours.shortfall);
    let listed = (0..model.expired.len()).map(|i| Expired {
        ticket: tickets[i],
        grade: grades[i].into(),
        admitted: slots[i].0,
    });
    listed.eq(model.expired.iter().copied())
}

/// Closes a board; the lent lists are cleared once, before all calls.
fn closing(held: u32, shape: Shape) -> Timed {
    let board = board(held, shape);
    let same_lists = check(&board);
    let given = convert::board(&board);
    let (mut tickets, mut grades, mut slots) = cleared();
    let times = least(&mut [
        &mut || {
            keep(oven::calls::close(
                black_box(given),
                &mut tickets,
                &mut grades,
                &mut slots,
            ))
        },
        &mut || keep(close_by_model(&mut black_box(board.clone()))),
        &mut || keep(close_by_sorting(&mut black_box(board.clone()))),
    ]);
    Timed {
        name: closing_name(held, shape),
        same_lists,
        times,
    }
}

/// Admits one rack more on a board. Admitting has no search, so there is nothing to sort.
fn admitting() -> Timed {
    let board = board(FULL - 1, Shape::Spread);
    let given = convert::board(&board);
    assert_eq!(0, oven::calls::admit(given, FULL, Wait(9), 4).refusal);
    assert_eq!(Ok(108), calls::admit(&mut board.clone(), FULL, 9, 4));
    let times = least(&mut [
        &mut || keep(oven::calls::admit(black_box(given), FULL, Wait(9), 4)),
        &mut || keep(calls::admit(&mut black_box(board.clone()), FULL, 9, 4)),
    ]);
    Timed {
        name: format!("admitting on {} racks, {}", FULL - 1, Shape::Spread.name()),
        same_lists: true,
        times,
    }
}

/// Withdraws a rack from the midst of a full board. There is nothing to sort here either.
fn withdrawing() -> Timed {
    let board = board(FULL, Shape::Spread);
    let (given, ticket) = (convert::board(&board), FULL / 2);
    let ours = oven::calls::withdraw(given, ticket);
    let grade = calls::withdraw(&mut board.clone(), ticket);
    assert_eq!((0, grade), (ours.refusal, Ok(ours.grade.into())));
    let times = least(&mut [
        &mut || keep(oven::calls::withdraw(black_box(given), ticket)),
        &mut || keep(calls::withdraw(&mut black_box(board.clone()), ticket)),
    ]);
    Timed {
        name: format!("withdrawing from {FULL} racks, {}", Shape::Spread.name()),
        same_lists: true,
        times,
    }
}

/// Asks what can be promised on a board of this kind. Sorting checks soundness as the model does, and sorts a copy of the racks.
fn promising(left: &str, board: Board) -> Timed {
    let given = convert::board(&board);
    let by_sorting = |board: &Board| {
        assert!(is_sound(board));
        single::least_wait(board.jobs(), board.slot)
    };
    let wait = oven::calls::promise(given).wait.0;
    assert_eq!(Ok(wait), calls::promise(&board));
    assert_eq!(wait, by_sorting(&board));
    let times = least(&mut [
        &mut || keep(oven::calls::promise(black_box(given))),
        &mut || keep(calls::promise(black_box(&board))),
        &mut || keep(by_sorting(black_box(&board))),
    ]);
    Timed {
        name: format!("promising on {} racks, {left}", board.held()),
        same_lists: true,
        times,
    }
}

/// Opens a board, which does little else than to hand one over.
fn opening() -> Timed {
    Timed {
        name: "opening: a board made and handed over".into(),
        same_lists: true,
        times: least(&mut [&mut || keep(oven::calls::open(black_box(3)))]),
    }
}

/// Asks whether a full board is sound, which is a part of every closing and admitting.
fn soundness() -> Timed {
    let given = convert::board(&board(FULL, Shape::Spread));
    assert!(oven::calls::sound(given));
    Timed {
        name: format!("soundness of {FULL} racks"),
        same_lists: true,
        times: least(&mut [&mut || keep(oven::calls::sound(black_box(given)))]),
    }
}

/// Times every call: ours, the model's and the sorting one's, as far as there is one. First come the closings, shape by shape and size by size.
pub fn pass() -> Vec<Timed> {
    let mut all = Vec::new();
    for shape in SHAPES {
        all.extend(SIZES.iter().map(|&held| closing(held, shape)));
    }
    all.push(closing(FULL, Shape::AdmittedWithLongest));
    all.extend([admitting(), opening(), soundness()]);
    let filled = samples::filled_board(&mut Draw::new(7), 100, LONGEST_LAXITY - 1, 0);
    all.push(promising(&format!("wait {LONGEST_LAXITY} left"), filled));
    all.push(promising("none left", board(FULL, Shape::Spread)));
    all.push(withdrawing());
    all
}
