//! Day books, plans, and that the board bakes as many racks as any plan.

mod common;

use std::collections::BTreeSet;

use common::trials::Trial;
use model::book::Book;
use model::draw::Draw;
use model::limits::{LONGEST_LAXITY, MOST_HELD};
use model::list::{play, Answer, Call};
use model::plans::{
    baked, every_plan, is_plan, is_unbeaten, most_baked, most_baked_by_trying, plan_of, plans_of,
};
use model::refusal::Refusal;
use model::rule::job_to_bake;
use model::samples;
use model::soundness::is_sound;

#[test]
fn board_and_book_agree_on_every_call() {
    let mut draw = Draw::new(11);
    for _ in 0..3_000 {
        let trial = Trial::drawn(&mut draw, 60);
        let mut board = trial.board();
        let mut book = Book::begin(trial.depth, trial.slot, trial.highest);
        for call in &trial.calls {
            let answer = play(&mut board, &[*call]).remove(0);
            match book.take(call) {
                Ok(Some(next)) => {
                    assert!(matches!(answer, Answer::Withdrawn(_)));
                    book = next;
                }
                Ok(None) => assert!(matches!(answer, Answer::Admitted(_) | Answer::Closed(_))),
                Err(refusal) => assert_eq!(answer, Answer::Refused(refusal)),
            }
            let ours = (board.slot, board.highest_ticket);
            assert_eq!(ours, (book.slot, book.highest_ticket));
            assert_eq!(board.jobs(), book.waiting);
            assert!(is_sound(&board));
        }
    }
}

#[test]
fn drawn_lists_have_the_longest_wait_and_longer_ones() {
    let mut draw = Draw::new(19);
    let (mut let_through, mut refused) = (BTreeSet::new(), BTreeSet::new());
    for _ in 0..3_000 {
        let trial = Trial::drawn(&mut draw, 60);
        for (call, answer) in trial.calls.iter().zip(trial.answers()) {
            if let Call::Admit { laxity, .. } = call {
                match answer {
                    Answer::Admitted(_) => let_through.insert(*laxity),
                    Answer::Refused(Refusal::Laxity) => refused.insert(*laxity),
                    _ => continue,
                };
            }
        }
    }
    let longest = LONGEST_LAXITY;
    assert_eq!(let_through, (1..=longest).collect());
    let wrong = (longest + 1..=2 * longest).chain([0, u32::MAX]);
    assert_eq!(refused, wrong.collect());
}

#[test]
fn the_answers_form_a_plan() {
    let mut draw = Draw::new(12);
    for _ in 0..3_000 {
        let trial = Trial::drawn(&mut draw, 60);
        let (books, plans) = (trial.books(), plans_of(&trial.answers()));
        assert_eq!(books.len(), plans.len());
        for (book, plan) in books.iter().zip(&plans) {
            assert_eq!(plan.len(), book.closed());
            assert!(is_plan(book, plan), "{trial:?}");
        }
    }
}

#[test]
fn no_plan_bakes_more_in_any_first_slots() {
    let mut draw = Draw::new(13);
    let (mut short_books, mut given_up) = (0, 0);
    for _ in 0..20_000 {
        let trial = Trial::drawn(&mut draw, 40);
        let (books, answers) = (trial.books(), trial.answers());
        for (book, plan) in books.iter().zip(&plans_of(&answers)) {
            assert!(is_unbeaten(book, plan), "{trial:?}");
        }
        short_books += usize::from(books.iter().all(|book| book.closed() < 3));
        given_up += usize::from(answers.iter().any(gives_up));
    }
    // The books are neither all trivial nor all roomy.
    assert!(short_books < 10_000, "{short_books}");
    assert!(given_up > 5_000, "{given_up}");
}

fn gives_up(answer: &Answer) -> bool {
    match answer {
        Answer::Closed(closed) => !closed.expired.is_empty(),
        _ => false,
    }
}

#[test]
fn no_plan_bakes_more_on_longer_days() {
    let mut draw = Draw::new(14);
    for _ in 0..300 {
        let trial = Trial::drawn(&mut draw, 400);
        let stretches = trial.stretches();
        assert!(stretches.iter().all(|s| s.is_unbeaten(job_to_bake)));
    }
}

#[test]
fn matching_finds_what_trying_every_plan_finds() {
    let mut draw = Draw::new(15);
    let mut tried = 0;
    while tried < 3_000 {
        for book in Trial::drawn(&mut draw, 12).books() {
            if book.closed() > 4 || book.jobs.len() > 7 {
                continue;
            }
            tried += 1;
            for k in 0..=book.closed() {
                assert_eq!(most_baked(&book, k), most_baked_by_trying(&book, k));
            }
        }
    }
}

#[test]
fn every_plan_is_a_plan_and_the_boards_is_among_them() {
    let mut draw = Draw::new(16);
    let mut tried = 0;
    while tried < 300 {
        for stretch in Trial::drawn(&mut draw, 10).stretches() {
            let book = &stretch.book;
            if book.closed() > 4 {
                continue;
            }
            tried += 1;
            let plans = every_plan(book, book.closed());
            assert!(plans.iter().all(|plan| is_plan(book, plan)));
            assert!(plans.contains(&stretch.plan(job_to_bake)));
        }
    }
}

#[test]
fn what_is_no_plan() {
    let admit = |ticket, laxity| Call::Admit {
        ticket,
        laxity,
        grade: 0,
    };
    let close = Call::Close { lent: MOST_HELD };
    let trial = Trial {
        depth: 0,
        slot: 5,
        highest: 0,
        calls: vec![admit(1, 2), close, admit(2, 1), close, close],
    };
    let book = trial.books().remove(0);
    assert!(is_plan(&book, &vec![]));
    assert!(is_plan(&book, &vec![Some(1), Some(2), None]));
    assert!(is_plan(&book, &vec![None, Some(1)]));
    assert!(!is_plan(&book, &vec![Some(1), Some(1)]), "twice");
    assert!(!is_plan(&book, &vec![Some(2)]), "before it was admitted");
    assert!(!is_plan(&book, &vec![None, None, Some(2)]), "past its last");
    assert!(!is_plan(&book, &vec![Some(3)]), "not in the book");
    assert_eq!(most_baked(&book, 3), 2);
    assert_eq!(baked(&plan_of(&trial.answers()), 3), 2);
}

#[test]
fn refused_calls_leave_no_trace() {
    let mut draw = Draw::new(17);
    for _ in 0..1_000 {
        let trial = Trial::drawn(&mut draw, 60);
        let mut board = trial.board();
        let answers = play(&mut board, &trial.calls);
        let passed = trial.calls.iter().zip(&answers);
        let passed = passed.filter(|(_, answer)| !matches!(answer, Answer::Refused(_)));
        let calls: Vec<Call> = passed.map(|(call, _)| *call).collect();
        let without = Trial { calls, ..trial };
        let mut other = without.board();
        let others = play(&mut other, &without.calls);
        assert_eq!((plans_of(&others), other), (plans_of(&answers), board));
    }
}

#[test]
fn random_boards_close_as_the_rule_says() {
    let mut draw = Draw::new(18);
    for _ in 0..3_000 {
        let before = samples::board(&mut draw, 60);
        let mut after = before.clone();
        let answer = play(&mut after, &[Call::Close { lent: MOST_HELD }]).remove(0);
        let closed = match answer {
            Answer::Closed(closed) => closed,
            other => panic!("{other:?}"),
        };
        let empty = before.count == 0;
        assert_eq!(closed.ticket == 0, empty);
        for job in before.jobs() {
            let baked = job.ticket == closed.ticket;
            let expired = closed
                .expired
                .iter()
                .any(|other| other.ticket == job.ticket);
            let kept = after.jobs().contains(job);
            assert_eq!(expired, !baked && job.deadline == before.slot);
            assert_eq!(kept, !baked && !expired);
        }
        let left = after.held() + closed.expired.len() + usize::from(!empty);
        assert_eq!(left, before.held());
        assert_eq!(after.slot, before.slot + 1);
        assert!(is_sound(&after));
    }
}
