//! Pages of the sheet, here and there: as the calls leave them, and as a careless caller
//! may have written them.

use crate::convert;
use crate::refusals::{self, number};
use model::draw::Draw;
use model::sheet;
use oven::{Figures, Page, Slot};

/// Slots, tickets, grades and numbers given up about their limits.
const SLOTS: [u32; 6] = [0, 1, 999_999, 1_000_000, 1_000_001, u32::MAX];
const TICKETS: [u32; 4] = [0, 1, 4_294_967_294, u32::MAX];
const GRADES: [u32; 6] = [0, 6, 7, 8, 256, u32::MAX];
const GIVEN_UP: [u32; 7] = [0, 1, 254, 255, 256, 65_536, u32::MAX];
const CLOSINGS: usize = SLOTS.len() * TICKETS.len() * GRADES.len() * GIVEN_UP.len();
/// How many closings a page says that it has.
const COUNTS: [usize; 11] = [0, 1, 2, 46, 47, 48, 49, 50, 256, 1 << 32, usize::MAX];
/// Lengths of a lent buffer.
const LENGTHS: [usize; 8] = [0, 1, 25, 1249, 1250, 1251, 1275, 2500];

/// Each check of the calls on a page without closings, and on pages of each count,
/// with every closing about the limits.
pub fn at_the_limits(draw: &mut Draw) -> Vec<(&'static str, bool)> {
    let mut checks = vec![("new page", new())];
    for count in COUNTS {
        let page = any_page(draw, count);
        let taken = (0..CLOSINGS).all(|number| hands_over(&page, about_limits(number)));
        checks.push(("closings about the limits", taken));
        checks.push(("full page", full(&page)));
        let printed = LENGTHS.iter().all(|&length| prints(draw, &page, length));
        checks.push(("page printed", printed));
    }
    checks
}

/// A page of any count and any closings: a closing handed over, and the page printed.
pub fn any(draw: &mut Draw) -> bool {
    let count = match draw.between(0, 1) {
        0 => draw.pick(&COUNTS),
        _ => draw.index(50),
    };
    let page = any_page(draw, count);
    let closing = any_closing(draw);
    let length = draw.pick(&LENGTHS);
    full(&page) && hands_over(&page, closing) && prints(draw, &page, length)
}

/// Closings handed over one after the other, each to the page that came back.
pub fn run(draw: &mut Draw) -> bool {
    let mut page = Page::new();
    (0..150).all(|_| {
        let closing = any_closing(draw);
        let well = hands_over(&page, closing) && full(&page) && prints(draw, &page, 1250);
        let _ = page.hand_over(closing);
        well
    })
}

/// The closing of this number among all that these figures make.
fn about_limits(number: usize) -> Figures {
    let mut rest = number;
    let mut next = |figures: &[u32]| {
        let figure = figures[rest % figures.len()];
        rest /= figures.len();
        figure
    };
    Figures {
        slot: Slot(next(&SLOTS)),
        ticket: next(&TICKETS),
        grade: next(&GRADES),
        given_up: next(&GIVEN_UP),
    }
}

/// A closing that the sheet often takes.
fn any_closing(draw: &mut Draw) -> Figures {
    match draw.between(0, 7) {
        0 => about_limits(draw.index(CLOSINGS)),
        1 => figures(draw, [u32::MAX; 3]),
        _ => figures(draw, [1_000_000, 7, 255]),
    }
}

/// Figures up to these: slot, grade and number given up. Tickets are long and short.
fn figures(draw: &mut Draw, [slot, grade, given_up]: [u32; 3]) -> Figures {
    Figures {
        slot: Slot(draw.between(0, slot)),
        ticket: u32::MAX >> draw.between(0, 31) & draw.step() as u32,
        grade: draw.between(0, grade),
        given_up: draw.between(0, given_up),
    }
}

/// A page that says it has so many closings, with a closing in every place; on some
/// pages each is one that the sheet takes, on some there are others.
fn any_page(draw: &mut Draw, count: usize) -> Page {
    let tame = draw.one_in(2);
    let mut closings = [Figures::default(); Page::SLOTS];
    for closing in &mut closings {
        *closing = any_closing(draw);
        while tame
            && sheet::Page::default()
                .take(convert::figures(*closing))
                .is_err()
        {
            *closing = any_closing(draw);
        }
    }
    Page { count, closings }
}

/// The page as the model has it: a count above 48 says that all places have a closing.
fn converted(page: &Page) -> sheet::Page {
    let count = page.count.min(Page::SLOTS);
    sheet::Page::holding(&page.closings.map(convert::figures)[..count])
}

fn new() -> bool {
    let page = oven::calls::page_new();
    page == Page::new()
        && page.count == 0
        && page.closings == [Figures::default(); Page::SLOTS]
        && converted(&page) == sheet::Page::default()
}

fn full(page: &Page) -> bool {
    let expected = converted(page).is_full();
    oven::calls::page_full(*page) == expected && page.is_full() == expected
}

/// Hands over a closing, by both layers of the crate. Where it is taken it stands in
/// one place, and every other place is as it was; else the page is as it was.
fn hands_over(page: &Page, closing: Figures) -> bool {
    let mut expected = converted(page);
    let answer = expected.take(convert::figures(closing));
    let mut after = *page;
    if answer.is_ok() {
        after.count = expected.closings().len();
        after.closings[after.count - 1] = closing;
    }
    let handed = oven::calls::page_hand_over(*page, closing);
    let mut ours = *page;
    let done = ours.hand_over(closing).map_err(|r| (r, r.number()));
    handed.refusal == number(&answer)
        && handed.page == after
        && converted(&handed.page) == expected
        && ours == after
        && done == answer.map_err(refusals::handing_over)
}

/// Prints the page, by both layers of the crate, into a buffer of so many bytes; those
/// behind the page keep what they had, and all of them where it has no room.
fn prints(draw: &mut Draw, page: &Page, length: usize) -> bool {
    let text = converted(page).text();
    let before: Vec<u8> = (0..length).map(|_| draw.step() as u8).collect();
    let mut expected = before.clone();
    let printed = if length < text.len() { 0 } else { text.len() };
    expected[..printed].copy_from_slice(&text[..printed]);
    let mut out = before;
    oven::calls::page_print(*page, &mut out) == printed
        && out == expected
        && page.print()[..] == text[..]
}
