//! The promise on days: what is printed for each question, that nothing else changes,
//! and mistakes that the generated boards and days must show.

mod common;

use std::ops::Range;

use common::boards::slot_to_sell_out;
use common::{each_question, promise_by_matching, with_further, Question};
use model::board::{Board, Job};
use model::calls::promise;
use model::draw::Draw;
use model::inputs;
use model::limits::{LAST_SLOT, LONGEST_LAXITY, MOST_PER_SLOT};
use model::program::run_bytes;
use model::promise::{least_wait, least_wait_up_to, plan_with};
use model::rule::{excess, group, laxity};
use model::samples;
use model::sheet::sheet;
use model::shortfall::{laid_out, least_given_up};

/// The Q line has the matching's wait, and board and tally stay as they are.
fn is_right(question: &Question, printed: &[String]) {
    let board = question.board();
    let wait = promise_by_matching(board.jobs(), board.slot);
    assert_eq!(printed, [format!("Q,{wait}")]);
    assert_eq!(question.before.board, question.after.board);
    assert_eq!(question.before.tally, question.after.tally);
}

#[test]
fn every_question_of_every_kind_of_day() {
    let mut questions = 0;
    for kind in inputs::KINDS {
        let seeds = if kind.name == "end" { 1 } else { 8 };
        for seed in 0..seeds {
            each_question(&kind.input(seed, None), |question, printed| {
                is_right(question, printed);
                questions += 1;
            });
        }
    }
    assert!(questions > 6_000, "{questions}");
}

/// The input with a line that gets 12 for each question.
fn without_questions(input: &[u8]) -> Vec<u8> {
    let mut bytes = Vec::new();
    for line in input.split_inclusive(|&byte| byte == b'\n') {
        match line {
            b"Q\n" => bytes.extend_from_slice(b"x\n"),
            b"Q" => bytes.push(b'x'),
            _ => bytes.extend_from_slice(line),
        }
    }
    bytes
}

/// What the board's program prints, line by line.
fn printed(input: &[u8]) -> Vec<String> {
    let output = String::from_utf8(run_bytes(input)).expect("text");
    output.lines().map(|line| line.to_string()).collect()
}

/// Whether the first of two lines answers a question, and the second is number 12 for
/// the line that stands in its place.
fn answer_and_refusal(line: &str, other: &str) -> bool {
    let answer = line.starts_with("Q,") || line.ends_with(",15");
    answer && other.starts_with("R,") && other.ends_with(",12")
}

#[test]
fn all_other_lines_are_answered_as_without_questions() {
    let mut questions = 0;
    for kind in inputs::KINDS {
        if ["end", "long"].contains(&kind.name) {
            continue;
        }
        for seed in 0..10 {
            let input = kind.input(seed, None);
            let without = without_questions(&input);
            // A question leaves no trace on the sheet.
            assert_eq!(sheet(&input), sheet(&without), "{} {seed}", kind.name);
            let (lines, others) = (printed(&input), printed(&without));
            assert_eq!(lines.len(), others.len());
            for (line, other) in lines.iter().zip(&others) {
                if line != other {
                    assert!(answer_and_refusal(line, other), "{line} {other}");
                    questions += 1;
                }
            }
        }
    }
    assert!(questions > 5_000, "{questions}");
}

/// A mistaken promise of a board.
type Mistake = fn(&Board) -> u32;

/// A mistake with its name.
type Named = (&'static str, Mistake);

/// The least wait of which something is true; 0 where there is none.
fn least<T: Fn(u32) -> bool>(true_of: T) -> u32 {
    (1..=LONGEST_LAXITY)
        .find(|&wait| true_of(wait))
        .unwrap_or(0)
}

/// How many racks are due by this wait.
fn due_by(board: &Board, wait: u32) -> u32 {
    let jobs = board.jobs().iter();
    let due = jobs.filter(|job| laxity(job, board.slot) <= i64::from(wait));
    due.count() as u32
}

/// Whether no rack is lost.
fn all_fit(board: &Board) -> bool {
    least_given_up(board.jobs(), board.slot) == 0
}

/// The promise beside some of the racks only.
fn beside<K: Fn(&Job) -> bool>(board: &Board, keep: K) -> u32 {
    let jobs = board.jobs().iter().copied();
    let kept: Vec<Job> = jobs.filter(|job| keep(job)).collect();
    least_wait(&kept, board.slot)
}

/// The first wait that has room itself; later waits are not looked at.
fn room_at_itself(board: &Board) -> u32 {
    least(|wait| due_by(board, wait) < wait)
}

/// The wait after the first full one.
fn after_the_first_full(board: &Board) -> u32 {
    if !all_fit(board) {
        return 0;
    }
    match least(|wait| due_by(board, wait) == wait) {
        LONGEST_LAXITY => 0,
        full => full + 1,
    }
}

/// The slot after all racks, laid out one behind the other.
fn after_all_racks(board: &Board) -> u32 {
    let next = board.count + 1;
    if all_fit(board) && next <= LONGEST_LAXITY {
        next
    } else {
        0
    }
}

/// As nothing is lost, anything can be promised.
fn one_as_none_is_lost(board: &Board) -> u32 {
    u32::from(all_fit(board))
}

/// Sold out as soon as one wait is full.
fn sold_out_at_a_full_wait(board: &Board) -> u32 {
    let (jobs, slot) = (board.jobs(), board.slot);
    let mut waits = 1..=i64::from(LONGEST_LAXITY);
    u32::from(waits.all(|wait| excess(jobs, slot, wait) > 0))
}

/// The racks that are lost left out.
fn beside_those_not_lost(board: &Board) -> u32 {
    least_wait(&laid_out(board.jobs(), board.slot), board.slot)
}

/// The present slot not counted.
fn from_the_next_slot(board: &Board) -> u32 {
    least_wait(board.jobs(), board.slot + 1)
}

/// The further rack tried against this slot's racks only.
fn beside_this_slots_racks(board: &Board) -> u32 {
    beside(board, |job| job.admitted == board.slot)
}

/// The further rack tried against the racks of earlier slots only.
fn beside_earlier_slots_racks(board: &Board) -> u32 {
    beside(board, |job| job.admitted < board.slot)
}

/// The further rack tried against those of the best grade only.
fn beside_the_best_grade(board: &Board) -> u32 {
    let bits = vec![0; board.depth as usize];
    least_wait(&group(board.jobs(), board.depth, &bits), board.slot)
}

/// Only waits tried that some rack has.
fn of_the_racks_waits(board: &Board) -> u32 {
    let (jobs, slot) = (board.jobs(), board.slot);
    let has = |wait: u32| jobs.iter().any(|job| laxity(job, slot) == i64::from(wait));
    least(|wait| has(wait) && plan_with(wait, jobs, slot).is_some())
}

/// The last full wait, and not the one after it.
fn last_full_wait(board: &Board) -> u32 {
    least_wait(board.jobs(), board.slot).saturating_sub(1)
}

/// Row 7 taken in: the further rack is not the ninth of its slot.
fn with_row_7(board: &Board) -> u32 {
    let jobs = board.jobs().iter();
    let now = jobs.filter(|job| job.admitted == board.slot).count();
    if now >= MOST_PER_SLOT {
        return 0;
    }
    least_wait(board.jobs(), board.slot)
}

/// The longest wait left out.
fn without_the_longest(board: &Board) -> u32 {
    least_wait_up_to(LONGEST_LAXITY - 1, board.jobs(), board.slot)
}

/// A wait too many.
fn past_the_longest(board: &Board) -> u32 {
    least_wait_up_to(LONGEST_LAXITY + 1, board.jobs(), board.slot)
}

/// 1 where the day is sold out, though no rack is lost.
fn one_for_sold_out(board: &Board) -> u32 {
    match least_wait(board.jobs(), board.slot) {
        0 if all_fit(board) => 1,
        wait => wait,
    }
}

/// The slots past the book's end not counted.
fn within_the_book(board: &Board) -> u32 {
    least(|wait| {
        let all = with_further(wait, board.jobs(), board.slot);
        let cut = all.iter().map(|job| Job {
            deadline: job.deadline.min(LAST_SLOT),
            ..*job
        });
        least_given_up(&cut.collect::<Vec<_>>(), board.slot) == 0
    })
}

/// The further rack within the book, whatever the others have.
fn due_within_the_book(board: &Board) -> u32 {
    let left = LAST_SLOT - board.slot + 1;
    least_wait_up_to(left.min(LONGEST_LAXITY), board.jobs(), board.slot)
}

/// The racks left out that may wait past the book's end.
fn beside_those_within_the_book(board: &Board) -> u32 {
    beside(board, |job| job.deadline <= LAST_SLOT)
}

/// The mistakes that show on small boards far from the book's end.
const MISTAKES: &[Named] = &[
    ("room at itself", room_at_itself),
    ("after the first full", after_the_first_full),
    ("after all racks", after_all_racks),
    ("one as none is lost", one_as_none_is_lost),
    ("sold out at a full wait", sold_out_at_a_full_wait),
    ("beside those not lost", beside_those_not_lost),
    ("from the next slot", from_the_next_slot),
    ("beside this slot's racks", beside_this_slots_racks),
    ("beside earlier slots' racks", beside_earlier_slots_racks),
    ("beside the best grade", beside_the_best_grade),
    ("of the racks' waits", of_the_racks_waits),
    ("last full wait", last_full_wait),
];

/// The mistakes that show only where eight racks come in a slot or as many are there as
/// fill all slots of the longest wait but one.
const OF_MANY_RACKS: &[Named] = &[
    ("with row 7", with_row_7),
    ("without the longest", without_the_longest),
    ("past the longest", past_the_longest),
    ("one for sold out", one_for_sold_out),
];

/// The mistakes that show only near the book's end.
const AT_THE_END: &[Named] = &[
    ("within the book", within_the_book),
    ("due within the book", due_within_the_book),
    ("beside those within the book", beside_those_within_the_book),
];

/// On how many of these boards each of some mistakes shows.
fn shown(boards: &[Board], mistakes: &[Named]) -> Vec<(&'static str, usize)> {
    let promised = boards
        .iter()
        .map(|board| promise(board).expect("a sound board"));
    let promised: Vec<u32> = promised.collect();
    let on_how_many = |mistake: Mistake| {
        let pairs = boards.iter().zip(&promised);
        pairs
            .filter(|(board, &wait)| mistake(board) != wait)
            .count()
    };
    let mistakes = mistakes.iter();
    mistakes
        .map(|&(name, mistake)| (name, on_how_many(mistake)))
        .collect()
}

/// Each of some mistakes shows on more than so many of these boards.
fn all_show(name: &str, boards: &[Board], mistakes: &[Named], least: usize) {
    let shown = shown(boards, mistakes);
    let all = shown.iter().all(|(_, boards)| *boards > least);
    assert!(all, "{name}: {shown:?}");
}

/// The boards that are asked on the days of a kind.
fn asked(kind: &str, seeds: Range<u64>) -> Vec<Board> {
    let kind = inputs::find(kind).expect("a kind");
    let mut boards = Vec::new();
    for seed in seeds {
        each_question(&kind.input(seed, None), |question, _| {
            boards.push(question.board().clone());
        });
    }
    boards
}

#[test]
fn mistakes_show_on_drawn_boards() {
    let mut draw = Draw::new(121);
    let boards = (0..1_000).map(|_| samples::board(&mut draw, 7));
    let boards: Vec<Board> = boards.collect();
    all_show("drawn boards", &boards, MISTAKES, 20);
    all_show("drawn boards", &boards, AT_THE_END, 10);
}

#[test]
fn mistakes_show_on_a_few_boards() {
    // As the program `cases` draws them, but for those in their last slot.
    let mut draw = Draw::new(1);
    let mut boards = Vec::new();
    for _ in 0..50 {
        boards.push(samples::board(&mut draw, 7));
        let (slot, wait) = (samples::slot(&mut draw), draw.between(0, 6));
        boards.push(samples::filled_board(
            &mut draw,
            slot,
            wait,
            7 - wait as usize,
        ));
    }
    all_show("a few boards", &boards, MISTAKES, 5);
    all_show("a few boards", &boards, AT_THE_END, 2);
}

#[test]
fn mistakes_show_on_boards_of_many_racks() {
    let mut draw = Draw::new(122);
    let mut boards = Vec::new();
    for _ in 0..1_000 {
        let slot = slot_to_sell_out(&mut draw);
        let wait = draw.between(0, LONGEST_LAXITY);
        let later = LONGEST_LAXITY as usize;
        boards.push(samples::filled_board(&mut draw, slot, wait, later));
    }
    all_show("filled boards", &boards, OF_MANY_RACKS, 10);
    all_show("filled boards", &boards, AT_THE_END, 100);
}

#[test]
fn mistakes_show_on_days() {
    for kind in ["ordinary", "given-up", "ties", "mixed", "shortfall"] {
        all_show(kind, &asked(kind, 0..20), MISTAKES, 10);
    }
    let boards = asked("promise", 0..20);
    all_show("promise", &boards, MISTAKES, 200);
    all_show("promise", &boards, OF_MANY_RACKS, 30);
}

#[test]
fn mistakes_show_at_the_books_end() {
    all_show("end", &asked("end", 1..2), AT_THE_END, 2);
}
