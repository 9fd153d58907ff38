//! What several tests share.

// Each test file uses its own part of this.
#![allow(dead_code)]

pub mod boards;
pub mod crowds;
pub mod hindsight;
pub mod paper;
pub mod spread;
pub mod trials;
pub mod withdrawals;

use std::collections::BTreeSet;

use model::board::{open, Board, Job};
use model::book::Book;
use model::calls::{admit, close, Closed};
use model::day::{Day, Done};
use model::inputs::Kind;
use model::limits::{LONGEST_LAXITY, MOST_HELD};
use model::lines::next_line;
use model::list::{play_with, Answer, Call};
use model::plans::most_baked;
use model::printing;
use model::promise::further;
use model::rule::{excess, laxity, tight_laxity};

/// A way to name the rack to bake from racks, slot and depth.
pub type Pick = fn(&[Job], u32, u32) -> Option<Job>;

/// What the program prints, as text.
pub fn printed(input: &str) -> String {
    let output = model::program::run_bytes(input.as_bytes());
    String::from_utf8(output).expect("the program prints text only")
}

/// The lines of the days of a kind.
pub fn lines_of(kind: Kind, seeds: u64) -> BTreeSet<Vec<u8>> {
    let mut lines = BTreeSet::new();
    for seed in 0..seeds {
        let input = kind.input(seed, None);
        lines.extend(input.split(|&byte| byte == b'\n').map(|line| line.to_vec()));
    }
    lines
}

/// The printed lines but the T lines.
pub fn answers(input: &str) -> Vec<String> {
    let output = printed(input);
    let lines = output.lines().filter(|line| !line.starts_with('T'));
    lines.map(|line| line.to_string()).collect()
}

/// The figures of a B line: slot, ticket, grade, number given up, shortfall.
pub fn figures(line: &str) -> [u32; 5] {
    let figures = line.strip_prefix("B,").expect("a B line").split(',');
    let figures = figures.map(|figure| figure.parse().expect("a number"));
    let figures: Vec<u32> = figures.collect();
    figures.try_into().expect("five figures")
}

/// The figures of the B lines in an output.
pub fn closed_slots(output: &str) -> Vec<[u32; 5]> {
    let lines = output.lines().filter(|line| line.starts_with("B,"));
    lines.map(figures).collect()
}

/// A board in slot 1 with racks given as (wait, grade), tickets from 1 in that order.
pub fn worked(depth: u32, racks: &[(u32, u32)]) -> Board {
    let (mut board, answer) = open(depth);
    assert_eq!(answer, Ok(()));
    for (place, &(wait, grade)) in racks.iter().enumerate() {
        let ticket = place as u32 + 1;
        assert_eq!(admit(&mut board, ticket, wait, grade), Ok(wait));
    }
    board
}

/// The answers of closings one after the other, by this pick: ticket, grade and
/// the tickets given up.
pub fn closings(board: &mut Board, many: usize, pick: Pick) -> Vec<(u32, u32, Vec<u32>)> {
    let calls = vec![Call::Close { lent: MOST_HELD }; many];
    let mut seen = Vec::new();
    for answer in play_with(board, &calls, pick) {
        match answer {
            Answer::Closed(closed) => seen.push(short(&closed)),
            other => panic!("a closing was expected, not {other:?}"),
        }
    }
    seen
}

fn short(closed: &Closed) -> (u32, u32, Vec<u32>) {
    let given_up = closed.expired.iter().map(|job| job.ticket).collect();
    (closed.ticket, closed.grade, given_up)
}

/// The smallest excess of these racks; none where there are no racks.
pub fn smallest_excess(jobs: &[Job], slot: u32) -> Option<i64> {
    let tight = tight_laxity(jobs, slot)?;
    Some(excess(jobs, slot, tight))
}

/// A closing: the racks before it, its slot, its answer, the racks after it.
#[derive(Debug)]
pub struct Closing {
    pub jobs: Vec<Job>,
    pub slot: u32,
    pub closed: Closed,
    pub left: Vec<Job>,
}

impl Closing {
    /// The closing of a board that is sound and in a slot of the book.
    pub fn of(board: &Board) -> Closing {
        let mut after = board.clone();
        let closed = close(&mut after, MOST_HELD).expect("the board can be closed");
        Closing {
            jobs: board.jobs().to_vec(),
            slot: board.slot,
            closed,
            left: after.jobs().to_vec(),
        }
    }
}

/// Follows a day and hands on each closing, with the B line printed for it.
pub fn each_closing<E: FnMut(&Closing, &str)>(mut input: &[u8], mut each: E) {
    let mut day = Day::default();
    while let Some(line) = next_line(&mut input).expect("memory can be read") {
        let jobs = jobs_on(&day);
        let done = match day.take(&line) {
            Ok(done) => done,
            Err(_) => continue,
        };
        let printed = printing::done(&done).remove(0);
        if let Done::Closed { slot, closed } = done {
            let left = jobs_on(&day);
            let closing = Closing {
                jobs,
                slot,
                closed,
                left,
            };
            each(&closing, &printed);
        }
    }
}

/// The racks on the day's board, if one is open.
fn jobs_on(day: &Day) -> Vec<Job> {
    let board = day.board.as_ref();
    board.map_or(Vec::new(), |board| board.jobs().to_vec())
}

/// A question that was answered: the day before it, the wait promised, the day after it.
#[derive(Debug)]
pub struct Question {
    pub before: Day,
    pub wait: u32,
    pub after: Day,
}

impl Question {
    /// The board that it was asked of.
    pub fn board(&self) -> &Board {
        let board = self.before.board.as_ref();
        board.expect("row 15 has passed")
    }
}

/// Follows a day and hands on each question that is answered, with the lines printed
/// for it.
pub fn each_question<E: FnMut(&Question, &[String])>(mut input: &[u8], mut each: E) {
    let mut day = Day::default();
    while let Some(line) = next_line(&mut input).expect("memory can be read") {
        if line != b"Q" {
            let _ = day.take(&line);
            continue;
        }
        let before = day.clone();
        if let Ok(done) = day.take(&line) {
            let wait = match done {
                Done::Promised { wait } => wait,
                _ => panic!("no answer to a question: {done:?}"),
            };
            let after = day.clone();
            let question = Question {
                before,
                wait,
                after,
            };
            each(&question, &printing::done(&done));
        }
    }
}

/// The slots in which some rack may be baked, from this slot on.
pub fn slots_ahead(jobs: &[Job], slot: u32) -> u32 {
    let longest = jobs.iter().map(|job| laxity(job, slot) as u32).max();
    longest.unwrap_or(0)
}

/// The sets of these racks that any plan from this slot on bakes, for where there are
/// too many plans to try one by one. A set is a number; bit i of it is rack i.
pub fn sets_baked(jobs: &[Job], slot: u32) -> BTreeSet<u32> {
    let mut sets = BTreeSet::from([0]);
    for slot in slot..slot + slots_ahead(jobs, slot) {
        for set in sets.clone() {
            for (place, job) in jobs.iter().enumerate() {
                if set >> place & 1 == 0 && slot <= job.deadline {
                    sets.insert(set | 1 << place);
                }
            }
        }
    }
    sets
}

/// A book of these racks that begins with this slot, for the plans from it on.
pub fn book_from(jobs: &[Job], slot: u32) -> Book {
    Book::begin_with(0, slot, 0, jobs)
}

/// The least number of these racks that any plan from this slot on gives up, by
/// matching. No rack waits past the longest wait, so no later slot is of use.
pub fn least_by_matching(jobs: &[Job], slot: u32) -> u32 {
    let most = most_baked(&book_from(jobs, slot), LONGEST_LAXITY as usize);
    (jobs.len() - most) as u32
}

/// These racks and a further one of this wait.
pub fn with_further(wait: u32, jobs: &[Job], slot: u32) -> Vec<Job> {
    [jobs, &[further(wait, slot)]].concat()
}

/// Whether some plan from this slot on bakes a further rack of this wait and every one
/// of these, by matching.
pub fn promised_by_matching(wait: u32, jobs: &[Job], slot: u32) -> bool {
    least_by_matching(&with_further(wait, jobs, slot), slot) == 0
}

/// The least wait that can be promised, by matching; 0 where there is none.
pub fn promise_by_matching(jobs: &[Job], slot: u32) -> u32 {
    let mut waits = 1..=LONGEST_LAXITY;
    let promised = waits.find(|&wait| promised_by_matching(wait, jobs, slot));
    promised.unwrap_or(0)
}
