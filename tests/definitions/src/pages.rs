//! Closings handed to a page, with what the model makes of it.

use crate::antt::list;
use model::limits::{LAST_SLOT, MOST_GIVEN_UP, SLOTS_ON_PAGE};
use model::sheet::{Figures, Page};

/// Closings at and past each limit of number 16, on pages of so many closings.
pub fn cases() -> Vec<String> {
    let pages = [0, 1, SLOTS_ON_PAGE - 1, SLOTS_ON_PAGE].map(page_of);
    let handed = closings();
    pages
        .iter()
        .flat_map(|page| handed.iter().map(|closing| case(page, *closing)))
        .collect()
}

fn closings() -> Vec<Figures> {
    [
        (1, 0, 0, 0),
        (LAST_SLOT, u32::MAX, 7, MOST_GIVEN_UP),
        (LAST_SLOT + 1, 1, 0, 0),
        (1, 1, 8, 0),
        (1, 1, 0, MOST_GIVEN_UP + 1),
    ]
    .map(|(slot, ticket, grade, given_up)| Figures {
        slot,
        ticket,
        grade,
        given_up,
    })
    .to_vec()
}

fn page_of(count: usize) -> Page {
    let mut page = Page::default();
    for slot in 1..=count as u32 {
        page.hand_over(slot, slot * 90_000_000 * (slot % 2), slot % 8, slot * 5);
    }
    page
}

fn case(before: &Page, closing: Figures) -> String {
    let mut after = before.clone();
    let number = after.hand_over(
        closing.slot,
        closing.ticket,
        closing.grade,
        closing.given_up,
    );
    let held: Vec<String> = before.closings().iter().map(figures).collect();
    let left: Vec<String> = after.closings().iter().map(numbers).collect();
    format!(
        "page_right {} {} {number} {} {}",
        list(&held),
        figures(&closing),
        list(&left),
        list(&after.text())
    )
}

fn figures(f: &Figures) -> String {
    format!(
        "(figures {} {} {} {})",
        f.slot, f.ticket, f.grade, f.given_up
    )
}

fn numbers(f: &Figures) -> String {
    list(&[f.slot, f.ticket, f.grade, f.given_up])
}
