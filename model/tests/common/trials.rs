//! Lists of calls to try the board on, and the stretches that withdrawals make of them.

use super::Pick;
use model::board::{Board, Job};
use model::book::Book;
use model::draw::Draw;
use model::limits::DEEPEST;
use model::list::{play, play_with, Answer, Call};
use model::plans::{is_unbeaten, plan_of, Plan};
use model::samples::{self, Crowd};

/// An empty board's depth, slot and highest ticket, and a list of calls for it.
#[derive(Debug)]
pub struct Trial {
    pub depth: u32,
    pub slot: u32,
    pub highest: u32,
    pub calls: Vec<Call>,
}

impl Trial {
    /// A list of any calls, or one with more racks than can be baked.
    pub fn drawn(draw: &mut Draw, most_calls: u32) -> Trial {
        let depth = draw.between(0, DEEPEST);
        let slot = samples::first_slot(draw);
        let highest = samples::highest_ticket(draw);
        let crowd = match draw.one_in(2) {
            true => Crowd::drawn(draw, most_calls),
            false => Crowd::overfull(draw, most_calls),
        };
        let calls = samples::calls(draw, depth, highest, crowd);
        Trial {
            depth,
            slot,
            highest,
            calls,
        }
    }

    pub fn board(&self) -> Board {
        Board::holding(self.depth, self.slot, self.highest, &[])
    }

    /// The answers of our board.
    pub fn answers(&self) -> Vec<Answer> {
        play(&mut self.board(), &self.calls)
    }

    /// The books of its stretches.
    pub fn books(&self) -> Vec<Book> {
        Book::drawn(self.depth, self.slot, self.highest, &self.calls)
    }

    /// Its stretches. No withdrawal is a call of them: one that is let through stands
    /// between two of them, and one that the book refuses might be let through on the
    /// board of another rule, on which other racks are left.
    pub fn stretches(&self) -> Vec<Stretch> {
        let first = Book::begin(self.depth, self.slot, self.highest);
        let mut stretches = vec![Stretch::begin(first)];
        for call in &self.calls {
            let stretch = stretches.last_mut().expect("there is a first one");
            match (stretch.book.take(call), call) {
                (Ok(Some(next)), _) => stretches.push(Stretch::begin(next)),
                (_, Call::Withdraw { .. }) => {}
                _ => stretch.calls.push(*call),
            }
        }
        stretches
    }
}

/// A stretch of a list of calls, with its book.
#[derive(Debug)]
pub struct Stretch {
    pub book: Book,
    pub calls: Vec<Call>,
}

impl Stretch {
    fn begin(book: Book) -> Stretch {
        let calls = Vec::new();
        Stretch { book, calls }
    }

    /// A stretch that begins with up to so many racks, any that a board may hold.
    pub fn drawn(draw: &mut Draw, most_racks: u32, most_calls: u32) -> Stretch {
        let board = samples::board(draw, most_racks);
        let (depth, highest) = (board.depth, board.highest_ticket);
        let crowd = Crowd::drawn(draw, most_calls);
        let mut calls = samples::calls(draw, depth, highest, crowd);
        calls.retain(|call| !matches!(call, Call::Withdraw { .. }));
        let mut book = Book::begin_with(depth, board.slot, highest, board.jobs());
        for call in &calls {
            // A refused call changes nothing in the book.
            let _ = book.take(call);
        }
        Stretch { book, calls }
    }

    /// The board with which it begins: the book's first arrivals are on it.
    pub fn board(&self) -> Board {
        let book = &self.book;
        let (slot, highest) = (book.first_slot, book.first_highest);
        Board::holding(book.depth, slot, highest, &book.first_arrivals)
    }

    /// The plan that such a board makes which bakes by this pick.
    pub fn plan<P>(&self, pick: P) -> Plan
    where
        P: FnMut(&[Job], u32, u32) -> Option<Job>,
    {
        plan_of(&play_with(&mut self.board(), &self.calls, pick))
    }

    /// Whether no plan of the book bakes more in the first k slots, for every k, than
    /// a board that bakes by this pick.
    pub fn is_unbeaten(&self, pick: Pick) -> bool {
        is_unbeaten(&self.book, &self.plan(pick))
    }
}

/// In how many of so many random lists of calls some plan beats this pick's total.
pub fn beaten(pick: Pick, trials: usize) -> usize {
    let mut draw = Draw::new(77);
    let mut beaten = 0;
    for _ in 0..trials {
        let stretches = Trial::drawn(&mut draw, 24).stretches();
        let unbeaten = stretches.iter().all(|stretch| stretch.is_unbeaten(pick));
        beaten += usize::from(!unbeaten);
    }
    beaten
}
