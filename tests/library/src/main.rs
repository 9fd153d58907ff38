//! The Rust crate's structs, limits and numbers, a line for each, as layout.c prints those of the C header.

use oven::calls::{
    AdmitAnswer, BestDayAnswer, CloseAnswer, CountAnswer, HandOverAnswer, OpenAnswer,
    PromiseAnswer, WithdrawAnswer,
};
use oven::{
    AdmitRefusal, BestDayRefusal, CloseRefusal, CountRefusal, HandOverRefusal, OpenRefusal,
    WithdrawRefusal,
};
use oven::{Board, Entry, Figures, Kind, Page, Place, Racks, Slot, Tally, Wait, Window};
use std::mem::{size_of, size_of_val};

/// Prints a struct's size, and the place and size of each field, by the header's names.
macro_rules! layout {
    ($name:literal, $type:ty, $value:expr, $($field:tt $called:literal),*) => {
        let value: $type = $value;
        println!("{}: {} bytes", $name, size_of::<$type>());
        $({
            let at = &value.$field as *const _ as usize - &value as *const _ as usize;
            println!("{}.{}: at {at}, {} bytes", $name, $called, size_of_val(&value.$field));
        })*
    };
}

fn places() {
    layout!("oven_wait", Wait, Wait(0), 0 "slots");
    layout!("oven_slot", Slot, Slot(0), 0 "number");
    layout!("oven_place", Place, Place::default(), ticket "ticket", admitted "admitted", last "last", grade "grade");
    let board = oven::calls::open(0).board;
    layout!("oven_board", Board, board, depth "depth", slot "slot", highest "highest", count "count", places "places");
    layout!("oven_entry", Entry, Entry::default(), ticket "ticket", grade "grade", admitted "admitted");
    layout!("oven_tally", Tally, Tally::new(), counts "counts");
    layout!("oven_figures", Figures, Figures::default(), slot "slot", ticket "ticket", grade "grade", given_up "given_up");
    layout!("oven_page", Page, Page::new(), count "count", closings "closings");
    layout!("oven_window", Window, Window::default(), first "first", last "last");
    layout!("oven_racks", Racks, Racks::of(&[]), count "count", windows "windows");
}

fn answers() {
    let opened = oven::calls::open(0);
    let admitted = oven::calls::admit(opened.board, 1, Wait(1), 0);
    let closed = oven::calls::close_into(opened.board, &mut []);
    let promised = oven::calls::promise(opened.board);
    let withdrawn = oven::calls::withdraw(opened.board, 1);
    let counted = oven::calls::count(Tally::new(), 0, 0);
    let handed_over = oven::calls::page_hand_over(Page::new(), Figures::default());
    layout!("oven_opened", OpenAnswer, opened, refusal "refusal", board "board");
    layout!("oven_admitted", AdmitAnswer, admitted, refusal "refusal", last "last", board "board");
    layout!("oven_closed", CloseAnswer, closed, refusal "refusal", ticket "ticket", grade "grade", given_up "given_up", shortfall "shortfall", board "board");
    layout!("oven_promised", PromiseAnswer, promised, refusal "refusal", wait "wait");
    layout!("oven_withdrawn", WithdrawAnswer, withdrawn, refusal "refusal", grade "grade", board "board");
    layout!("oven_counted", CountAnswer, counted, refusal "refusal", tally "tally");
    layout!("oven_handed_over", HandOverAnswer, handed_over, refusal "refusal", page "page");
    let planned = oven::calls::best_day(Racks::of(&[]));
    layout!("oven_planned", BestDayAnswer, planned, refusal "refusal", slots "slots");
}

fn numbers() {
    println!("OVEN_LONGEST_WAIT: {}", Board::LONGEST_WAIT.0);
    println!("OVEN_MOST_IN_SLOT: {}", Board::MOST_IN_SLOT);
    println!("OVEN_PLACES: {}", Board::PLACES);
    println!("OVEN_LAST_SLOT: {}", Board::LAST_SLOT.0);
    println!("OVEN_KINDS: {}", Tally::KINDS);
    println!("OVEN_GRADES: {}", Tally::GRADES);
    println!("OVEN_PAGE_SLOTS: {}", Page::SLOTS);
    println!("OVEN_PAGE_LENGTH: {}", Page::LENGTH);
    println!("OVEN_HINDSIGHT_RACKS: {}", Racks::MOST);
    println!("OVEN_HINDSIGHT_SLOTS: {}", Racks::SLOTS);
    let refused = |name, number| println!("OVEN_REFUSED_{name}: {number}");
    refused("DEPTH", OpenRefusal::Depth.number());
    refused("UNSOUND", AdmitRefusal::Unsound.number());
    refused("BOOK_ENDED", AdmitRefusal::BookEnded.number());
    refused("TICKET", AdmitRefusal::Ticket.number());
    refused("WAIT", AdmitRefusal::Wait.number());
    refused("GRADE", AdmitRefusal::Grade.number());
    refused("SLOT_FULL", AdmitRefusal::SlotFull.number());
    refused("LIST_SHORT", CloseRefusal::ListShort.number());
    refused("NO_SUCH_COUNT", CountRefusal::NoSuchCount.number());
    refused("COUNT_FULL", CountRefusal::CountFull.number());
    refused("OFF_SHEET", HandOverRefusal::OffSheet.number());
    refused("NOT_WAITING", WithdrawRefusal::NotWaiting.number());
    refused("TOO_MANY", BestDayRefusal::TooMany.number());
    refused("WINDOW", BestDayRefusal::Window.number());
    println!("OVEN_KIND_ADMITTED: {}", Kind::Admitted as u32);
    println!("OVEN_KIND_BAKED: {}", Kind::Baked as u32);
    println!("OVEN_KIND_GIVEN_UP: {}", Kind::GivenUp as u32);
    println!("OVEN_KIND_WITHDRAWN: {}", Kind::Withdrawn as u32);
}

fn main() {
    places();
    answers();
    numbers();
}
