//! 'Each figure on a page must equal the closings it was made from.'

mod common;

use common::closed_slots;
use common::paper::{figures, HEADING, LINES, PAGE, SPACES};
use model::inputs;
use model::program::run_bytes;
use model::sheet::sheet;

/// The figures that the sheet shows of the B lines that the board's program prints:
/// all but the shortfall.
fn closings(input: &[u8]) -> Vec<[u32; 4]> {
    let printed = String::from_utf8(run_bytes(input)).expect("text");
    let closings = closed_slots(&printed).into_iter();
    closings
        .map(|[slot, ticket, grade, given_up, _]| [slot, ticket, grade, given_up])
        .collect()
}

/// A page's figures are these closings, and its totals are theirs.
fn is_page_of(text: &str, closings: &[[u32; 4]]) {
    let lines: Vec<&str> = text.lines().collect();
    assert_eq!(lines.len(), LINES);
    assert_eq!(lines[0], HEADING);
    let (slots, filling) = lines[1..LINES - 1].split_at(closings.len());
    for (line, closing) in slots.iter().zip(closings) {
        let columns = [(1, 7), (9, 18), (20, 20), (22, 24)];
        assert_eq!(figures(line, columns), *closing);
    }
    assert!(filling.iter().all(|line| *line == SPACES));
    let baked = closings.iter().filter(|closing| closing[1] > 0).count();
    let given_up = closings.iter().map(|closing| closing[3]).sum();
    let totals = figures(lines[LINES - 1], [(9, 18), (19, 24)]);
    assert_eq!(totals, [baked as u32, given_up]);
}

#[test]
fn every_figure_is_that_of_the_closings() {
    for kind in inputs::KINDS.iter().filter(|kind| kind.name != "end") {
        for seed in 0..20 {
            let input = kind.input(seed, None);
            let text = String::from_utf8(sheet(&input)).expect("text");
            let closings = closings(&input);
            let pages: Vec<&[[u32; 4]]> = closings.chunks(48).collect();
            assert_eq!(text.len(), pages.len() * PAGE, "{} {seed}", kind.name);
            for (number, page) in pages.iter().enumerate() {
                is_page_of(&text[number * PAGE..(number + 1) * PAGE], page);
            }
        }
    }
}
