//! The withdrawals that the generated days have, above all those of the kind
//! `withdrawals`, and mistakes that they must show.

mod common;

use std::collections::{BTreeMap, BTreeSet};

use common::lines_of;
use common::withdrawals::{each_withdrawal, gets_another_baked, Withdrawal};
use model::board::{Board, Job};
use model::calls::withdraw;
use model::day::{Day, Done};
use model::inputs::{self, Kind};
use model::limits::LAST_SLOT;
use model::lines::{next_line, read, Request};
use model::refusal::Refusal;

fn kind(name: &str) -> Kind {
    inputs::find(name).expect("a kind")
}

/// The kinds whose days have withdrawals and few lines.
fn withdrawing() -> impl Iterator<Item = Kind> {
    let kinds = inputs::KINDS.into_iter();
    kinds.filter(|kind| !["end", "long"].contains(&kind.name))
}

/// Hands on each withdrawal of the days of a kind.
fn each_of_days<E: FnMut(&Withdrawal)>(kind: Kind, seeds: u64, mut each: E) {
    for seed in 0..seeds {
        each_withdrawal(&kind.input(seed, None), &mut each);
    }
}

/// How many withdrawals of the days of a kind are let through, and how many refused.
fn answers(kind: Kind, seeds: u64) -> (usize, BTreeMap<Refusal, usize>) {
    let (mut let_through, mut refused) = (0, BTreeMap::new());
    each_of_days(kind, seeds, |withdrawal| match withdrawal.answer {
        Ok(_) => let_through += 1,
        Err(refusal) => *refused.entry(refusal).or_default() += 1,
    });
    (let_through, refused)
}

/// Why a withdrawal gets 17.
#[derive(Clone, Copy, Debug, PartialEq, Eq, PartialOrd, Ord)]
enum Reason {
    Zero,
    NeverAdmitted,
    ThisSlot,
    Baked,
    GivenUp,
    WithdrawnBefore,
}

/// What became of each ticket of a day.
#[derive(Default)]
struct Tickets {
    day: Day,
    became: BTreeMap<u32, Reason>,
}

impl Tickets {
    /// Takes a line, and tells why it gets 17 if it does.
    fn take(&mut self, line: &[u8]) -> Option<Reason> {
        match self.day.take(line) {
            Ok(Done::Admitted { ticket, .. }) => {
                self.became.insert(ticket, Reason::ThisSlot);
            }
            Ok(Done::Closed { closed, .. }) => {
                self.became.insert(closed.ticket, Reason::Baked);
                for job in &closed.expired {
                    self.became.insert(job.ticket, Reason::GivenUp);
                }
            }
            Ok(Done::Withdrawn { ticket }) => {
                self.became.insert(ticket, Reason::WithdrawnBefore);
            }
            Err(Refusal::NotWaiting) => return Some(self.reason(line)),
            _ => {}
        }
        None
    }

    fn reason(&self, line: &[u8]) -> Reason {
        match read(line) {
            Ok(Request::Withdraw { ticket: 0 }) => Reason::Zero,
            Ok(Request::Withdraw { ticket }) => {
                let reason = self.became.get(&ticket).copied();
                reason.unwrap_or(Reason::NeverAdmitted)
            }
            other => panic!("17 for {other:?}"),
        }
    }
}

/// How many withdrawals of a day get 17 for each reason, and how many admittings of
/// a withdrawn ticket get 4.
fn reasons(mut input: &[u8]) -> (BTreeMap<Reason, usize>, usize) {
    let mut tickets = Tickets::default();
    let (mut reasons, mut again) = (BTreeMap::new(), 0);
    while let Some(line) = next_line(&mut input).expect("memory can be read") {
        if let Ok(Request::Admit { ticket, .. }) = read(&line) {
            let reason = tickets.became.get(&ticket);
            again += usize::from(reason == Some(&Reason::WithdrawnBefore));
        }
        if let Some(reason) = tickets.take(&line) {
            *reasons.entry(reason).or_default() += 1;
        }
    }
    (reasons, again)
}

/// `reasons` of the days of a kind.
fn reasons_of_days(name: &str, seeds: u64, size: Option<u32>) -> (BTreeMap<Reason, usize>, usize) {
    let (mut all, mut all_again) = (BTreeMap::new(), 0);
    for seed in 0..seeds {
        let (reasons, again) = reasons(&kind(name).input(seed, size));
        for (reason, many) in reasons {
            *all.entry(reason).or_default() += many;
        }
        all_again += again;
    }
    (all, all_again)
}

#[test]
fn most_are_let_through_and_some_refused() {
    let (let_through, refused) = answers(kind("withdrawals"), 40);
    let seventeen = refused[&Refusal::NotWaiting];
    assert_eq!(refused.len(), 1);
    // Of 4,000 slots.
    assert!(let_through > 4_000, "{let_through}");
    assert!(
        let_through > 2 * seventeen && seventeen > 1_000,
        "{seventeen}"
    );
}

#[test]
fn seventeen_for_each_of_the_reasons() {
    for (name, seeds, size, rarest) in [
        ("withdrawals", 40, None, 100),
        ("withdrawals", 300, Some(6), 20),
        ("mixed", 40, None, 30),
        ("refusals", 60, None, 40),
    ] {
        let (reasons, again) = reasons_of_days(name, seeds, size);
        assert_eq!(reasons.len(), 6, "{name} {reasons:?}");
        let all = reasons.values().all(|&many| many > rarest);
        assert!(all, "{name} {reasons:?}");
        // An admitting of a withdrawn ticket.
        assert!(again > rarest, "{name} {again}");
    }
}

#[test]
fn each_kind_has_withdrawals_that_are_let_through() {
    for kind in withdrawing() {
        let seeds = if kind.name == "tiny" { 400 } else { 40 };
        let (let_through, refused) = answers(kind, seeds);
        let least = match kind.name {
            "tiny" => 5,
            "pages" | "overlong" => 30,
            _ => 100,
        };
        assert!(let_through > least, "{} {let_through}", kind.name);
        let wrong = [
            "refusals",
            "damaged",
            "overlong",
            "tiny",
            "mixed",
            "pages",
            "withdrawals",
        ];
        assert_eq!(
            !refused.is_empty(),
            wrong.contains(&kind.name),
            "{}",
            kind.name
        );
    }
    assert_eq!(answers(kind("long"), 2), (0, BTreeMap::new()));
}

#[test]
fn withdrawals_come_before_a_board_is_open_too() {
    for name in ["refusals", "overlong", "tiny", "mixed", "pages"] {
        let (_, refused) = answers(kind(name), 100);
        assert!(refused.contains_key(&Refusal::NotNow), "{name} {refused:?}");
    }
}

#[test]
fn withdrawals_come_at_the_books_end_and_past_it() {
    for seed in 0..2 {
        let (mut let_through, mut last_slots, mut ended) = (0, 0, [0; 2]);
        each_withdrawal(&kind("end").input(seed, None), |withdrawal| {
            let board = withdrawal.board();
            let held = |job: &Job| job.ticket == withdrawal.ticket;
            let is_held = board.jobs().iter().any(held);
            match withdrawal.answer {
                Ok(_) => {
                    let_through += 1;
                    last_slots += usize::from(board.slot + 3 > LAST_SLOT);
                }
                Err(Refusal::BookEnded) => ended[usize::from(is_held)] += 1,
                Err(refusal) => assert_eq!(refusal, Refusal::NotWaiting),
            }
        });
        assert!(let_through > 10, "{seed} {let_through}");
        // Past the end for a ticket that is not on the board, and for one that is.
        assert!(ended[0] > 0 && ended[0] + ended[1] >= 3, "{seed} {ended:?}");
        assert!(last_slots + ended[1] > 0, "{seed} {last_slots} {ended:?}");
    }
}

/// On how many withdrawals of the days of a kind that are let through another rack gets
/// baked, and on how many none does, if nothing more arrives.
fn others_baked(name: &str, seeds: u64) -> (usize, usize) {
    let (mut another, mut none) = (0, 0);
    each_of_days(kind(name), seeds, |withdrawal| {
        if withdrawal.is_let_through() {
            let gets = gets_another_baked(withdrawal.board(), withdrawal.ticket);
            another += usize::from(gets);
            none += usize::from(!gets);
        }
    });
    (another, none)
}

#[test]
fn taking_a_rack_off_often_gets_another_one_baked() {
    for (name, least) in [
        ("withdrawals", 500),
        ("ordinary", 60),
        ("overfull", 300),
        ("given-up", 100),
        ("ties", 100),
        ("mixed", 300),
        ("shortfall", 100),
        ("promise", 20),
    ] {
        let (another, none) = others_baked(name, 20);
        assert!(another > least && none > 20, "{name} {another} {none}");
    }
}

#[test]
fn spoilt_withdrawals() {
    let forms: [&[u8]; 16] = [
        b"W",
        b"W,",
        b"W,x",
        b"W,-1",
        b"W, 1",
        b"W,1 ",
        b"W,4294967296",
        b"W,00000000001",
        b"W,1,2",
        b"W,,",
        b"WW",
        b" W",
        b"W ",
        b"w",
        b"w,1",
        b"W,0",
    ];
    for name in ["refusals", "mixed", "pages"] {
        let lines = lines_of(kind(name), 200);
        for form in forms {
            let text = String::from_utf8_lossy(form);
            assert!(lines.contains(form), "{name} {text:?}");
        }
    }
    let starts: [&[u8]; 3] = [b",W,", b"w,", b"W,,"];
    let lines = lines_of(kind("damaged"), 200);
    for start in starts {
        let text = String::from_utf8_lossy(start);
        assert!(lines.iter().any(|line| line.starts_with(start)), "{text:?}");
    }
    let long = |line: &Vec<u8>| line.len() > 40 && line.starts_with(b"W,");
    for name in ["refusals", "overlong", "mixed"] {
        assert!(lines_of(kind(name), 20).iter().any(long), "{name}");
    }
}

#[test]
fn leading_zeros_are_let_through() {
    for name in ["withdrawals", "ordinary", "mixed", "shortfall", "promise"] {
        let mut seen = 0;
        for seed in 0..20 {
            let mut day = Day::default();
            for line in kind(name).input(seed, None).split(|&byte| byte == b'\n') {
                let is_let_through = day.take(line).is_ok();
                seen += usize::from(is_let_through && line.starts_with(b"W,0"));
            }
        }
        assert!(seen > 5, "{name} {seen}");
    }
}

#[test]
fn withdrawals_stand_everywhere() {
    // The letters of the lines before a withdrawal; one of them ends a day.
    let (mut before, mut last) = (BTreeSet::new(), 0);
    for kind in withdrawing() {
        for seed in 0..20 {
            let input = kind.input(seed, None);
            let lines: Vec<&[u8]> = input.split(|&byte| byte == b'\n').collect();
            let pairs = lines.windows(2).filter(|pair| pair[1].starts_with(b"W,"));
            before.extend(pairs.filter_map(|pair| pair[0].first().copied()));
            let end = lines.iter().rev().find(|line| !line.is_empty());
            last += usize::from(end.map_or(false, |line| line.starts_with(b"W,")));
        }
    }
    assert!(b"DABQW".iter().all(|letter| before.contains(letter)));
    assert!(last > 0, "{last}");
}

/// A mistaken withdrawal: its answer, and the board after it.
type Mistake = fn(&Board, u32) -> (Result<u32, Refusal>, Board);

/// The right answer and the right board.
fn right(board: &Board, ticket: u32) -> (Result<u32, Refusal>, Board) {
    let mut after = board.clone();
    (withdraw(&mut after, ticket), after)
}

/// The rack with this ticket, wherever it was admitted.
fn find(board: &Board, ticket: u32) -> Option<Job> {
    board
        .jobs()
        .iter()
        .copied()
        .find(|job| job.ticket == ticket)
}

/// Takes off racks of this slot too.
fn this_slots_too(board: &Board, ticket: u32) -> (Result<u32, Refusal>, Board) {
    let mut left = board.jobs().to_vec();
    left.retain(|job| job.ticket != ticket);
    let mut after = board.clone();
    after.put(&left);
    let grade = find(board, ticket).map(|job| job.grade);
    (grade.ok_or(Refusal::NotWaiting), after)
}

/// Refuses the racks of the slot before as well.
fn not_the_slot_before(board: &Board, ticket: u32) -> (Result<u32, Refusal>, Board) {
    match find(board, ticket) {
        Some(job) if job.admitted + 1 == board.slot => (Err(Refusal::NotWaiting), board.clone()),
        _ => right(board, ticket),
    }
}

/// Refuses a rack in its last slot.
fn not_the_last_slot(board: &Board, ticket: u32) -> (Result<u32, Refusal>, Board) {
    match find(board, ticket) {
        Some(job) if job.deadline == board.slot => (Err(Refusal::NotWaiting), board.clone()),
        _ => right(board, ticket),
    }
}

/// Lets the highest ticket fall with the last rack.
fn highest_falls(board: &Board, ticket: u32) -> (Result<u32, Refusal>, Board) {
    let (answer, mut after) = right(board, ticket);
    if answer.is_ok() && ticket == board.highest_ticket {
        after.highest_ticket = after.jobs().last().map_or(0, |job| job.ticket);
    }
    (answer, after)
}

/// Puts the last rack into the place of the one taken off.
fn last_into_its_place(board: &Board, ticket: u32) -> (Result<u32, Refusal>, Board) {
    let (answer, mut after) = right(board, ticket);
    if answer.is_ok() {
        let mut left = board.jobs().to_vec();
        let place = left.iter().position(|job| job.ticket == ticket);
        left.swap_remove(place.expect("on the board"));
        after.put(&left);
    }
    (answer, after)
}

/// Leaves the last rack in the place past the count.
fn place_not_cleared(board: &Board, ticket: u32) -> (Result<u32, Refusal>, Board) {
    let (answer, mut after) = right(board, ticket);
    if answer.is_ok() {
        let last = board.held() - 1;
        after.places[last] = board.places[last];
    }
    (answer, after)
}

/// Tells the grade of the rack that comes after it.
fn next_ones_grade(board: &Board, ticket: u32) -> (Result<u32, Refusal>, Board) {
    let (answer, after) = right(board, ticket);
    let mut jobs = board.jobs().iter();
    let next = jobs.find(|job| job.ticket > ticket);
    (
        answer.map(|grade| next.map_or(grade, |job| job.grade)),
        after,
    )
}

/// Looks among the places past the count too.
fn unused_places_too(board: &Board, ticket: u32) -> (Result<u32, Refusal>, Board) {
    if ticket == 0 && !board.unused().is_empty() {
        return (Ok(0), board.clone());
    }
    right(board, ticket)
}

/// Takes off the first rack whose ticket is not below.
fn ticket_or_above(board: &Board, ticket: u32) -> (Result<u32, Refusal>, Board) {
    let mut jobs = board.jobs().iter();
    let next = jobs.find(|job| job.ticket >= ticket);
    right(board, next.map_or(ticket, |job| job.ticket))
}

/// Bakes it: the slot moves on.
fn slot_moves_on(board: &Board, ticket: u32) -> (Result<u32, Refusal>, Board) {
    let (answer, mut after) = right(board, ticket);
    after.slot += u32::from(answer.is_ok());
    (answer, after)
}

const MISTAKES: &[(&str, Mistake)] = &[
    ("this slot's too", this_slots_too),
    ("not the slot before", not_the_slot_before),
    ("not the last slot", not_the_last_slot),
    ("highest falls", highest_falls),
    ("last into its place", last_into_its_place),
    ("place not cleared", place_not_cleared),
    ("next one's grade", next_ones_grade),
    ("unused places too", unused_places_too),
    ("ticket or above", ticket_or_above),
    ("slot moves on", slot_moves_on),
];

#[test]
fn mistakes_show_on_days() {
    for (name, least) in [("withdrawals", 50), ("mixed", 20), ("refusals", 10)] {
        let mut shown = vec![0; MISTAKES.len()];
        each_of_days(kind(name), 20, |withdrawal| {
            if withdrawal.answer == Err(Refusal::NotNow) {
                return;
            }
            let (board, ticket) = (withdrawal.board(), withdrawal.ticket);
            let right = right(board, ticket);
            for (count, (_, mistake)) in shown.iter_mut().zip(MISTAKES) {
                *count += usize::from(mistake(board, ticket) != right);
            }
        });
        assert!(shown.iter().all(|&many| many > least), "{name} {shown:?}");
    }
}
