//! A page and the closings handed to it; number 16.

mod common;

use common::paper::{page as text, HEADING, PAGE, SPACES};
use model::sheet::{Figures, Page};

/// A page to which so many closings were handed: slots from 1, each with two racks
/// given up.
fn page(closings: u32) -> Page {
    let mut page = Page::default();
    for slot in 1..=closings {
        assert_eq!(page.hand_over(slot, 7, 3, 2), 0);
    }
    page
}

/// The page's text.
fn printed(page: &Page) -> String {
    String::from_utf8(page.text()).expect("text")
}

#[test]
fn a_page_with_no_closing() {
    let seen = printed(&Page::default());
    let lines: Vec<&str> = seen.lines().collect();
    assert_eq!(lines.len(), 50);
    assert_eq!(lines[0], HEADING);
    assert_eq!(lines[1..49], [SPACES; 48]);
    assert_eq!(lines[49], "                 0     0");
    assert_eq!(Page::default().closings(), []);
}

#[test]
fn a_page_has_its_size_whatever_it_holds() {
    for closings in 0..=48 {
        let seen = printed(&page(closings));
        assert_eq!(seen.len(), PAGE);
        assert!(seen.lines().all(|line| line.len() == 24));
        assert_eq!(
            seen.lines().filter(|line| *line == SPACES).count(),
            48 - closings as usize
        );
    }
}

#[test]
fn a_closing_is_kept_as_it_was_handed_over() {
    let mut page = page(2);
    assert_eq!(page.hand_over(0, 0, 0, 0), 0);
    assert_eq!(page.hand_over(1_000_000, u32::MAX, 7, 255), 0);
    let last = Figures {
        slot: 1_000_000,
        ticket: 4_294_967_295,
        grade: 7,
        given_up: 255,
    };
    assert_eq!(page.closings().len(), 4);
    assert_eq!(page.closings()[2], Figures::default());
    assert_eq!(page.closings()[3], last);
    let lines = [
        "      1          7 3   2",
        "      2          7 3   2",
        "      0          0 0   0",
        "1000000 4294967295 7 255",
    ];
    assert_eq!(printed(&page), text(&lines, "                 3   259"));
}

#[test]
fn the_ends_of_the_ranges() {
    let number = |slot, grade, given_up| Page::default().hand_over(slot, 1, grade, given_up);
    assert_eq!(number(1_000_000, 0, 0), 0);
    assert_eq!(number(1_000_001, 0, 0), 16);
    assert_eq!(number(u32::MAX, 0, 0), 16);
    assert_eq!(number(1, 7, 0), 0);
    assert_eq!(number(1, 8, 0), 16);
    assert_eq!(number(1, u32::MAX, 0), 16);
    assert_eq!(number(1, 0, 255), 0);
    assert_eq!(number(1, 0, 256), 16);
    assert_eq!(number(1, 0, u32::MAX), 16);
    assert_eq!(number(1_000_001, 8, 256), 16);
    assert_eq!(number(0, 0, 0), 0);
}

#[test]
fn after_sixteen_the_page_is_as_before() {
    for closings in [0, 1, 47, 48] {
        let before = page(closings);
        for (slot, grade, given_up) in [(1_000_001, 7, 255), (1, 8, 255), (1, 7, 256)] {
            let mut after = before.clone();
            assert_eq!(after.hand_over(slot, 9, grade, given_up), 16);
            assert_eq!(after, before);
            assert_eq!(after.text(), before.text());
        }
    }
}

#[test]
fn the_forty_ninth_closing_stands_alone_on_the_next_page() {
    let mut page = page(48);
    assert!(page.is_full());
    assert_eq!(page.closings().len(), 48);
    assert_eq!(page.closings()[47].slot, 48);
    assert_eq!(page.hand_over(49, 5, 1, 3), 0);
    let lines = ["     49          5 1   3"];
    assert_eq!(printed(&page), text(&lines, "                 1     3"));
    assert_eq!(page.closings().len(), 1);
    assert!(!page.is_full());
}

#[test]
fn the_greatest_totals() {
    let mut page = Page::default();
    for _ in 0..48 {
        assert_eq!(page.hand_over(1_000_000, u32::MAX, 7, 255), 0);
    }
    let lines = ["1000000 4294967295 7 255"; 48];
    assert_eq!(printed(&page), text(&lines, "                48 12240"));
}

#[test]
fn a_slot_with_ticket_0_baked_nothing() {
    let mut page = Page::default();
    for ticket in [0, 1, 0, 2, 0] {
        assert_eq!(page.hand_over(1, ticket, 0, 1), 0);
    }
    assert!(printed(&page).ends_with("                 2     5\n"));
}

#[test]
fn figures_past_the_limits_show_their_last_digits() {
    let figures = |slot, ticket, grade, given_up| Figures {
        slot,
        ticket,
        grade,
        given_up,
    };
    let page = Page::holding(&[
        figures(1_000_001, 5, 8, 256),
        figures(12_345_678, 5, 99, 9_999),
        figures(0, 0, 123, 12_345),
        figures(u32::MAX, u32::MAX, u32::MAX, u32::MAX),
    ]);
    let lines = [
        "1000001          5 8 256",
        "2345678          5999999",
        "      0          0232345",
        "4967295 4294967295957295",
    ];
    assert_eq!(printed(&page), text(&lines, "                 3989895"));
}

#[test]
fn of_more_than_48_closings_a_page_holds_the_first() {
    let closings: Vec<Figures> = (1..=50)
        .map(|slot| Figures {
            slot,
            ..Figures::default()
        })
        .collect();
    let page = Page::holding(&closings);
    assert_eq!(page.closings(), &closings[..48]);
    assert!(page.is_full());
    assert!(!Page::holding(&closings[..47]).is_full());
}
