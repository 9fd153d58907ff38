//! Withdrawals against plans: 'the optimum is counted afresh after a withdrawal: from
//! that slot on, with the racks left on the board as first arrivals for the board, every
//! plan and every rival'.

mod common;

use common::trials::{Stretch, Trial};
use model::board::Board;
use model::book::Book;
use model::draw::Draw;
use model::limits::{LAST_SLOT, MOST_HELD};
use model::list::{play, Answer, Call};
use model::plans::{
    baked, is_plan, is_unbeaten, most_baked, most_baked_by_trying, most_by_slot, plans_of,
};
use model::refusal::Refusal;
use model::rule::job_to_bake;
use model::tally::{Tally, ADMITTED, BAKED, EXPIRED, WITHDRAWN};

const CLOSE: Call = Call::Close { lent: MOST_HELD };

fn admit(ticket: u32, laxity: u32, grade: u32) -> Call {
    Call::Admit {
        ticket,
        laxity,
        grade,
    }
}

fn withdraw(ticket: u32) -> Call {
    Call::Withdraw { ticket }
}

/// A list of calls for a board of this depth in slot 1.
fn trial(depth: u32, calls: &[Call]) -> Trial {
    Trial {
        depth,
        slot: 1,
        highest: 0,
        calls: calls.to_vec(),
    }
}

/// The boards at the start of each stretch, as our board plays the list.
fn boards_at_starts(trial: &Trial) -> Vec<Board> {
    let mut board = trial.board();
    let mut starts = vec![board.clone()];
    for call in &trial.calls {
        let answer = play(&mut board, &[*call]).remove(0);
        if matches!(answer, Answer::Withdrawn(_)) {
            starts.push(board.clone());
        }
    }
    starts
}

#[test]
fn each_stretch_begins_with_the_racks_left_on_the_board() {
    let mut draw = Draw::new(141);
    let (mut later, mut with_racks) = (0, 0);
    for _ in 0..3_000 {
        let trial = Trial::drawn(&mut draw, 60);
        let stretches = trial.stretches();
        let boards: Vec<Board> = stretches.iter().map(Stretch::board).collect();
        assert_eq!(boards, boards_at_starts(&trial));
        let books: Vec<Book> = stretches.into_iter().map(|stretch| stretch.book).collect();
        assert_eq!(books, trial.books());
        later += books.len() - 1;
        let many = |book: &&Book| book.first_arrivals.len() > 3;
        with_racks += books.iter().filter(many).count();
    }
    assert!(later > 3_000 && with_racks > 1_000, "{later} {with_racks}");
}

#[test]
fn each_stretch_goes_on_as_the_whole_list_does() {
    let mut draw = Draw::new(142);
    for _ in 0..3_000 {
        let trial = Trial::drawn(&mut draw, 60);
        let plans = plans_of(&trial.answers());
        let alone = trial.stretches();
        let alone: Vec<_> = alone.iter().map(|s| s.plan(job_to_bake)).collect();
        assert_eq!(plans, alone);
    }
}

/// How many stretches were tried, how many of them after a withdrawal, and how many of
/// those where not all racks can be baked in the slots closed.
#[derive(Debug, Default)]
struct Seen {
    stretches: usize,
    later: usize,
    overfull: usize,
}

impl Seen {
    fn count(&mut self, book: &Book, is_later: bool) {
        let closed = book.closed();
        let many = book.jobs.len() > most_baked(book, closed) && closed > 1;
        self.stretches += 1;
        self.later += usize::from(is_later);
        self.overfull += usize::from(is_later && many && !book.first_arrivals.is_empty());
    }
}

#[test]
fn no_plan_of_a_stretch_bakes_more_in_its_first_slots() {
    let mut draw = Draw::new(143);
    let mut seen = Seen::default();
    while seen.overfull < 500 {
        let trial = Trial::drawn(&mut draw, 20);
        let (books, plans) = (trial.books(), plans_of(&trial.answers()));
        assert_eq!(books.len(), plans.len());
        for (number, (book, plan)) in books.iter().zip(&plans).enumerate() {
            assert_eq!(plan.len(), book.closed());
            assert!(is_plan(book, plan), "{trial:?}");
            if book.closed() > 4 || book.jobs.len() > 6 {
                continue;
            }
            for k in 0..=book.closed() {
                let most = most_baked_by_trying(book, k);
                assert_eq!(baked(plan, k), most, "{trial:?}");
                assert_eq!(most_baked(book, k), most);
            }
            seen.count(book, number > 0);
        }
    }
    assert!(seen.later > 3_000 && seen.stretches > 8_000, "{seen:?}");
}

#[test]
fn nor_on_longer_lists_by_matching() {
    let mut draw = Draw::new(144);
    let mut seen = Seen::default();
    for _ in 0..3_000 {
        let trial = Trial::drawn(&mut draw, 80);
        let (books, plans) = (trial.books(), plans_of(&trial.answers()));
        for (number, (book, plan)) in books.iter().zip(&plans).enumerate() {
            assert!(is_unbeaten(book, plan), "{trial:?}");
            seen.count(book, number > 0);
        }
    }
    assert!(seen.later > 3_000 && seen.overfull > 1_000, "{seen:?}");
}

#[test]
fn nor_whatever_racks_a_book_begins_with() {
    let mut draw = Draw::new(148);
    let mut seen = Seen::default();
    for _ in 0..3_000 {
        let stretch = Stretch::drawn(&mut draw, 12, 40);
        let (book, plan) = (&stretch.book, stretch.plan(job_to_bake));
        assert!(is_plan(book, &plan));
        assert!(is_unbeaten(book, &plan), "{stretch:?}");
        seen.count(book, true);
    }
    assert!(seen.overfull > 1_000, "{seen:?}");
}

/// The whole list's book if withdrawals did not begin a new one: every rack that was
/// admitted, but for those withdrawn, and all slots from the first one on.
fn counted_from_the_beginning(trial: &Trial) -> Book {
    let books = trial.books();
    let mut all = Book::begin(trial.depth, trial.slot, trial.highest);
    for book in &books {
        let is_known = |ticket| all.jobs.iter().any(|job| job.ticket == ticket);
        let entered = book.jobs.iter().filter(|job| !is_known(job.ticket));
        let entered: Vec<_> = entered.copied().collect();
        all.jobs.extend(entered);
        all.slot = book.slot;
    }
    let answered = trial.calls.iter().zip(trial.answers());
    for (call, answer) in answered {
        if let (Call::Withdraw { ticket }, Answer::Withdrawn(_)) = (*call, answer) {
            all.jobs.retain(|job| job.ticket != ticket);
        }
    }
    all
}

/// Whether some plan, counted from the day's beginning, bakes more than our board.
fn is_beaten_from_the_beginning(trial: &Trial) -> bool {
    let plan = plans_of(&trial.answers()).concat();
    !is_unbeaten(&counted_from_the_beginning(trial), &plan)
}

#[test]
fn counted_from_the_beginning_a_plan_bakes_more() {
    // Board 4: the 2/0 is baked and the 1/1 given up, as the 2/1 has no other slot. Then
    // the 2/1 is withdrawn, and slot 2 bakes nothing.
    let calls = [admit(1, 1, 1), admit(2, 2, 1), admit(3, 2, 0), CLOSE];
    let trial = trial(1, &[&calls[..], &[withdraw(2), CLOSE]].concat());
    let plans = plans_of(&trial.answers());
    assert_eq!(plans, [vec![Some(3)], vec![None]]);
    // Counted from slot 1 a plan bakes both others.
    let all = counted_from_the_beginning(&trial);
    let tickets: Vec<u32> = all.jobs.iter().map(|job| job.ticket).collect();
    assert_eq!(tickets, [1, 3]);
    assert!(is_plan(&all, &vec![Some(1), Some(3)]));
    assert_eq!((most_baked(&all, 2), baked(&plans.concat(), 2)), (2, 1));
    assert!(is_beaten_from_the_beginning(&trial));
    // Counted afresh no plan bakes more: one rack in slot 1, and none is left then.
    let most: Vec<_> = trial.books().iter().map(most_by_slot).collect();
    assert_eq!(most, [[0, 1], [0, 0]]);
}

#[test]
fn and_a_withdrawn_rack_could_have_been_baked_before() {
    let calls = [admit(1, 2, 0), admit(2, 2, 0), CLOSE, withdraw(2), CLOSE];
    let trial = trial(0, &calls);
    let plans = plans_of(&trial.answers());
    assert_eq!(plans, [vec![Some(1)], vec![None]]);
    // With the withdrawn rack left in, a plan bakes it first and then the other.
    let book = trial.books().remove(0);
    assert!(is_plan(&book, &vec![Some(2), Some(1)]));
    assert_eq!((most_baked(&book, 2), baked(&plans.concat(), 2)), (2, 1));
}

#[test]
fn drawn_lists_are_beaten_too_if_not_counted_afresh() {
    let mut draw = Draw::new(145);
    let (mut lists, mut beaten) = (0, 0);
    for _ in 0..10_000 {
        let trial = Trial::drawn(&mut draw, 40);
        let several = trial.books().len() > 1;
        let is_beaten = is_beaten_from_the_beginning(&trial);
        assert!(several || !is_beaten);
        lists += usize::from(several);
        beaten += usize::from(is_beaten);
    }
    assert!(lists > 3_000 && beaten > 20, "{lists} {beaten}");
}

/// What row 17 says of a ticket in the book after these calls.
fn in_book(calls: &[Call], ticket: u32) -> Result<(), Refusal> {
    let mut book = trial(1, calls).books().pop().expect("a book");
    book.take(&withdraw(ticket)).map(|_| ())
}

#[test]
fn row_17_is_read_on_the_books_racks_in_date_and_not_yet_baked() {
    let calls = [
        admit(1, 1, 1),
        admit(2, 1, 0),
        admit(3, 5, 1),
        admit(4, 5, 1),
    ];
    for ticket in 0..=5 {
        // No rack of this slot can be withdrawn, and no other is in the book.
        assert_eq!(in_book(&calls, ticket), Err(Refusal::NotWaiting));
    }
    let closed = [&calls[..], &[CLOSE]].concat();
    // The rule bakes ticket 2, and ticket 1 is out of date.
    for (ticket, in_it) in [(0, false), (1, false), (2, false), (3, true), (4, true)] {
        let wanted = if in_it {
            Ok(())
        } else {
            Err(Refusal::NotWaiting)
        };
        assert_eq!(in_book(&closed, ticket), wanted, "{ticket}");
    }
    let withdrawn = [&closed[..], &[withdraw(3)]].concat();
    assert_eq!(in_book(&withdrawn, 3), Err(Refusal::NotWaiting));
    assert_eq!(in_book(&withdrawn, 4), Ok(()));
    // A refused closing bakes nothing in the book either.
    let too_short = Call::Close {
        lent: MOST_HELD - 1,
    };
    let refused = [&calls[..], &[too_short]].concat();
    assert_eq!(in_book(&refused, 4), Err(Refusal::NotWaiting));
}

#[test]
fn a_refused_withdrawal_changes_nothing_in_the_book() {
    let mut draw = Draw::new(146);
    for _ in 0..2_000 {
        let trial = Trial::drawn(&mut draw, 40);
        let answered = trial.calls.iter().zip(trial.answers());
        let mut let_through = Vec::new();
        for (call, answer) in answered {
            if !matches!(answer, Answer::Refused(_)) {
                let_through.push(*call);
            }
        }
        let books = trial.books();
        let without = Trial {
            calls: let_through,
            ..trial
        };
        assert_eq!(without.books(), books);
    }
}

#[test]
fn row_7_counts_only_racks_admitted_in_that_slot_itself() {
    let eight = |first: u32| (first..first + 8).map(|ticket| admit(ticket, 9, 0));
    let mut calls: Vec<Call> = eight(1).collect();
    calls.extend([CLOSE, withdraw(2)]);
    // Six racks are first arrivals now; none of them was admitted in slot 2.
    calls.extend(eight(9));
    calls.extend([admit(17, 9, 0), withdraw(3)]);
    // All eight of this slot are first arrivals too, and count as before.
    calls.extend([admit(17, 9, 0), CLOSE, admit(17, 9, 0)]);
    let trial = trial(0, &calls);
    let refusals = trial.answers();
    let refusals = refusals.iter().enumerate();
    let refused: Vec<usize> = refusals
        .filter(|(_, answer)| **answer == Answer::Refused(Refusal::SlotFull))
        .map(|(place, _)| place)
        .collect();
    assert_eq!(refused, [18, 20]);
    let first: Vec<usize> = trial
        .books()
        .iter()
        .map(|b| b.first_arrivals.len())
        .collect();
    assert_eq!(first, [0, 6, 13]);
    let entered: Vec<usize> = trial.books().iter().map(|b| b.jobs.len()).collect();
    assert_eq!(entered, [8, 14, 14]);
}

#[test]
fn slot_and_highest_ticket_go_on_as_they_were() {
    let calls = [
        admit(5, 9, 0),
        admit(9, 9, 0),
        CLOSE,
        withdraw(9),
        admit(9, 9, 0),
        admit(10, 9, 0),
        CLOSE,
        withdraw(10),
    ];
    let books = trial(0, &calls).books();
    let begun: Vec<(u32, u32)> = books
        .iter()
        .map(|book| (book.first_slot, book.first_highest))
        .collect();
    // Ticket 5 is baked in slot 1, ticket 10 in slot 2: it cannot be withdrawn.
    assert_eq!(begun, [(1, 0), (2, 9)]);
    assert_eq!((books[1].slot, books[1].highest_ticket), (3, 10));
}

#[test]
fn two_withdrawals_in_one_slot_have_a_stretch_without_slots_between_them() {
    let mut calls: Vec<Call> = (1..=5).map(|ticket| admit(ticket, 3, 0)).collect();
    calls.extend([CLOSE, withdraw(3), withdraw(5), CLOSE, CLOSE]);
    let books = trial(0, &calls).books();
    let most: Vec<Vec<usize>> = books.iter().map(most_by_slot).collect();
    assert_eq!(most, [vec![0, 1], vec![0], vec![0, 1, 2]]);
    let tickets = |book: &Book| -> Vec<u32> {
        let jobs = book.first_arrivals.iter();
        jobs.map(|job| job.ticket).collect()
    };
    let first: Vec<Vec<u32>> = books.iter().map(tickets).collect();
    assert_eq!(first, [vec![], vec![2, 4, 5], vec![2, 4]]);
}

#[test]
fn no_stretch_begins_past_the_books_end() {
    let mut calls = vec![admit(1, 9, 0), admit(2, 9, 0), admit(3, 9, 0)];
    calls.extend([CLOSE, withdraw(2), CLOSE, withdraw(3), CLOSE]);
    for (slot, stretches) in [(LAST_SLOT - 1, 2), (LAST_SLOT, 1)] {
        let trial = Trial {
            slot,
            ..trial(0, &calls)
        };
        assert_eq!(trial.books().len(), stretches);
        let last = trial.answers().pop();
        assert_eq!(last, Some(Answer::Refused(Refusal::BookEnded)));
    }
}

/// Takes the events of a call into the tally.
fn record(tally: &mut Tally, call: &Call, answer: &Answer) {
    let mut take = |kind, grade| tally.record(kind, grade).expect("room");
    match (call, answer) {
        (Call::Admit { grade, .. }, Answer::Admitted(_)) => take(ADMITTED, *grade),
        (_, Answer::Withdrawn(grade)) => take(WITHDRAWN, *grade),
        (_, Answer::Closed(closed)) => {
            if closed.ticket != 0 {
                take(BAKED, closed.grade);
            }
            for job in &closed.expired {
                take(EXPIRED, job.grade);
            }
        }
        _ => {}
    }
}

#[test]
fn the_balance_has_the_withdrawn_on_its_right_hand_side() {
    let mut draw = Draw::new(147);
    let mut withdrawn = 0;
    for _ in 0..2_000 {
        let trial = Trial::drawn(&mut draw, 60);
        let mut board = trial.board();
        let mut tally = Tally::default();
        for call in &trial.calls {
            let answer = play(&mut board, &[*call]).remove(0);
            record(&mut tally, call, &answer);
            for grade in 0..8 {
                let held = board.jobs().iter().filter(|job| job.grade == grade);
                let right = [BAKED, EXPIRED, WITHDRAWN].map(|kind| tally.count(kind, grade));
                let right = right.iter().sum::<u32>() + held.count() as u32;
                assert_eq!(tally.count(ADMITTED, grade), right);
            }
        }
        withdrawn += (0..8).map(|g| tally.count(WITHDRAWN, g)).sum::<u32>();
    }
    assert!(withdrawn > 2_000, "{withdrawn}");
}
