//! Days handed to the calls, without text: the same arrivals, drawn before the clock starts, to our calls and to the two boards written for speed. All
//! keep a tally. Ours go over the C boundary and check each time that the board is sound, which the others do not.

use crate::days::{day, Arrival, Day};
use crate::tables::{head, of, row, time};
use benchmark::board::{Board, Entry};
use benchmark::counter::Counter;
use benchmark::day;
use benchmark::sorter::Sorter;
use model::limits::{LONGEST_LAXITY, MOST_HELD};
use model::tally::{ADMITTED, BAKED, EXPIRED};
use oven::{calls, Slot, Tally, Wait};
use std::time::{Duration, Instant};

const DAYS: [Day; 2] = [day(1_000_000, 8, 1, 5), day(200_000, 8, LONGEST_LAXITY, 5)];

const DEPTH: u32 = 3;

/// Slots that are timed together. A spell of other work on the machine spoils so many in one round, and not in the next.
const TOGETHER: usize = 100;

/// What a side made of a day: the ticket baked in each slot, how many racks it gave up, and what its tally has of each kind, by grade.
#[derive(Default, PartialEq, Eq)]
struct Outcome {
    baked: Vec<u32>,
    given_up: u32,
    tally: Vec<[u32; 3]>,
}

/// Hands a day over slot by slot, and hands back the time of each so many.
fn each_slot(day: &Day, arrivals: &[Arrival], mut slot: impl FnMut(&[Arrival])) -> Vec<Duration> {
    let racks = day.racks as usize;
    let mut times = Vec::with_capacity(day.slots as usize / TOGETHER + 1);
    for together in arrivals.chunks(racks * TOGETHER) {
        let began = Instant::now();
        together.chunks(racks).for_each(&mut slot);
        times.push(began.elapsed());
    }
    times
}

/// A side takes a day's arrivals, and hands back what it made of them and its times.
type Side = fn(&Day, &[Arrival]) -> (Outcome, Vec<Duration>);

/// Our calls, then sorting, then counts.
const SIDES: [Side; 3] = [ours, fast::<Sorter>, fast::<Counter>];

/// Hands each day to all sides, and prints what they took.
pub fn run() {
    head(&[
        "handed to the calls, without text",
        "ours",
        "a slot",
        "sorting",
        "counts",
        "of sorting",
        "of counts",
    ]);
    for day in &DAYS {
        let best = least(day);
        let [ours, sorting, counts] = [0, 1, 2].map(|side| Some(&best[side]));
        row(&[
            day.name(),
            time(ours),
            time(Some(&(best[0] / day.slots))),
            time(sorting),
            time(counts),
            of(ours, sorting),
            of(ours, counts),
        ]);
    }
}

/// The least time of each side, which take turns: of each so many slots the least counts, and these are added up. All bake the same racks, give up as
/// many and have the same tally.
fn least(day: &Day) -> [Duration; 3] {
    let arrivals: Vec<Arrival> = day.arrivals().collect();
    let mut best: [Vec<Duration>; 3] = Default::default();
    for _ in 0..day.rounds {
        let mut outcomes = Vec::new();
        for (side, best) in SIDES.iter().zip(&mut best) {
            let (outcome, times) = side(day, &arrivals);
            outcomes.push(outcome);
            best.resize(times.len(), Duration::MAX);
            let pairs = best.iter_mut().zip(times);
            pairs.for_each(|(least, time)| *least = time.min(*least));
        }
        let same = outcomes.iter().all(|outcome| *outcome == outcomes[0]);
        assert!(same, "{}: not all bake the same", day.name());
    }
    best.map(|times| times.iter().sum())
}

/// Our library's calls.
fn ours(day: &Day, arrivals: &[Arrival]) -> (Outcome, Vec<Duration>) {
    let mut outcome = Outcome::default();
    let (mut board, mut tally) = (calls::open(DEPTH).board, Tally::new());
    let (mut tickets, mut grades) = ([0; MOST_HELD], [0; MOST_HELD]);
    let mut slots = [Slot(0); MOST_HELD];
    let mut note = |kind, grade: u8| assert_eq!(0, calls::note(&mut tally, kind, grade.into()));
    let mut ticket = 0;
    let times = each_slot(day, arrivals, |arrivals| {
        for &Arrival { wait, grade } in arrivals {
            ticket += 1;
            let admitted = calls::admit(board, ticket, Wait(wait.into()), grade.into());
            assert_eq!(0, admitted.refusal);
            board = admitted.board;
            note(ADMITTED, grade);
        }
        let closed = calls::close(board, &mut tickets, &mut grades, &mut slots);
        assert_eq!(0, closed.refusal);
        board = closed.board;
        outcome.baked.push(closed.ticket);
        if closed.ticket != 0 {
            note(BAKED, closed.grade);
        }
        let listed = &grades[..closed.given_up as usize];
        listed.iter().for_each(|&grade| note(EXPIRED, grade));
        outcome.given_up += closed.given_up;
    });
    outcome.tally = (0..Tally::GRADES)
        .map(|grade| [0, 1, 2].map(|kind| tally.counts[kind * Tally::GRADES + grade]))
        .collect();
    (outcome, times)
}

/// A board written for speed.
fn fast<B: Board>(day: &Day, arrivals: &[Arrival]) -> (Outcome, Vec<Duration>) {
    let mut outcome = Outcome::default();
    let mut board = day::Day::<B>::open(DEPTH).expect("a depth");
    let mut list = [Entry::default(); MOST_HELD];
    let mut ticket = 0;
    let times = each_slot(day, arrivals, |arrivals| {
        for &Arrival { wait, grade } in arrivals {
            ticket += 1;
            assert!(board.admit(ticket, wait.into(), grade.into()).is_ok());
        }
        let closed = board.close(&mut list).expect("a slot");
        outcome.baked.push(closed.ticket);
        outcome.given_up += closed.given_up as u32;
    });
    let tally = board.tally().iter();
    outcome.tally = tally
        .map(|count| [count.admitted, count.baked, count.given_up])
        .collect();
    (outcome, times)
}
