//! The declarations of library/oven.h, and a safe function for each.
//!
//! All that is unsafe here is that the declarations are those of the archive. The calls are proved for every value of every argument; a
//! pointer leads to as many values as the number after it says, or to one.
#![allow(unsafe_code)]

use crate::calls::{
    AdmitAnswer, BestDayAnswer, CloseAnswer, CountAnswer, HandOverAnswer, OpenAnswer,
    PromiseAnswer, WithdrawAnswer,
};
use crate::{Board, Entry, Figures, Page, Racks, Slot, Tally, Wait};

extern "C" {
    fn oven_open(depth: u32) -> OpenAnswer;
    fn oven_sound(board: Board) -> bool;
    fn oven_admit(board: Board, ticket: u32, wait: Wait, grade: u32) -> AdmitAnswer;
    fn oven_close_into(board: Board, list: *mut Entry, length: usize) -> CloseAnswer;
    fn oven_close(
        board: Board,
        tickets: *mut u32,
        tickets_length: usize,
        grades: *mut u8,
        grades_length: usize,
        slots: *mut Slot,
        slots_length: usize,
    ) -> CloseAnswer;
    fn oven_promise(board: Board) -> PromiseAnswer;
    fn oven_withdraw(board: Board, ticket: u32) -> WithdrawAnswer;
    fn oven_zero() -> Tally;
    fn oven_note(tally: *mut Tally, kind: u32, grade: u32) -> u8;
    fn oven_count(tally: Tally, kind: u32, grade: u32) -> CountAnswer;
    fn oven_page_new() -> Page;
    fn oven_page_hand_over(page: Page, closing: Figures) -> HandOverAnswer;
    fn oven_page_full(page: Page) -> bool;
    fn oven_page_print(page: Page, out: *mut u8, length: usize) -> usize;
    fn oven_best_day(racks: Racks) -> BestDayAnswer;
}

/// A new board of this depth. Refuses with 1.
pub fn open(depth: u32) -> OpenAnswer {
    unsafe { oven_open(depth) }
}

/// Whether a board is sound.
pub fn sound(board: Board) -> bool {
    unsafe { oven_sound(board) }
}

/// Admits a rack. Refuses with 2, 3, 4, 5, 6 or 7.
pub fn admit(board: Board, ticket: u32, wait: Wait, grade: u32) -> AdmitAnswer {
    unsafe { oven_admit(board, ticket, wait, grade) }
}

/// Closes the present slot; the list gets the racks given up. Refuses with 2, 3 or 8.
pub fn close_into(board: Board, list: &mut [Entry]) -> CloseAnswer {
    unsafe { oven_close_into(board, list.as_mut_ptr(), list.len()) }
}

/// Closes the present slot with the list in three parts; it has as many entries as the shortest. Refuses with 2, 3 or 8.
pub fn close(
    board: Board,
    tickets: &mut [u32],
    grades: &mut [u8],
    slots: &mut [Slot],
) -> CloseAnswer {
    let (t, g, s) = (
        tickets.as_mut_ptr(),
        grades.as_mut_ptr(),
        slots.as_mut_ptr(),
    );
    unsafe { oven_close(board, t, tickets.len(), g, grades.len(), s, slots.len()) }
}

/// The least wait that can be promised, 0 for none. Refuses with 2 or 3.
pub fn promise(board: Board) -> PromiseAnswer {
    unsafe { oven_promise(board) }
}

/// Withdraws a rack. Refuses with 2, 3 or 17.
pub fn withdraw(board: Board, ticket: u32) -> WithdrawAnswer {
    unsafe { oven_withdraw(board, ticket) }
}

/// A tally with every count 0.
pub fn zero() -> Tally {
    unsafe { oven_zero() }
}

/// Takes in one event, and gives its number. Refuses with 9 or 10.
pub fn note(tally: &mut Tally, kind: u32, grade: u32) -> u8 {
    unsafe { oven_note(tally, kind, grade) }
}

/// Takes in one event, the tally by value. Refuses with 9 or 10.
pub fn count(tally: Tally, kind: u32, grade: u32) -> CountAnswer {
    unsafe { oven_count(tally, kind, grade) }
}

/// A page without closings.
pub fn page_new() -> Page {
    unsafe { oven_page_new() }
}

/// Hands a closing to the page; on a full one it begins the next page. Refuses with 16.
pub fn page_hand_over(page: Page, closing: Figures) -> HandOverAnswer {
    unsafe { oven_page_hand_over(page, closing) }
}

/// Whether the page is full.
pub fn page_full(page: Page) -> bool {
    unsafe { oven_page_full(page) }
}

/// Prints the page at the start of the bytes, and gives how many of them it wrote: [`Page::LENGTH`], or 0 where they are fewer.
pub fn page_print(page: Page, out: &mut [u8]) -> usize {
    unsafe { oven_page_print(page, out.as_mut_ptr(), out.len()) }
}

/// The best day in hindsight: the slot of each rack. Refuses with 18 or 19.
pub fn best_day(racks: Racks) -> BestDayAnswer {
    unsafe { oven_best_day(racks) }
}
