//! The paper's numbers, written out a second time.

use model::limits;

#[test]
fn limits_are_the_papers() {
    assert_eq!(limits::LONGEST_LAXITY, 24);
    assert_eq!(limits::MOST_PER_SLOT, 8);
    assert_eq!(limits::MOST_HELD, 192);
    assert_eq!(limits::LAST_SLOT, 1_000_000);
    assert_eq!(limits::FULL_COUNT, 8_000_000);
    assert_eq!(limits::LONGEST_LINE, 40);
    assert_eq!(limits::DEEPEST, 3);
    assert_eq!(limits::MOST_GRADES, 8);
    assert_eq!(limits::MOST_DIGITS, 10);
    assert_eq!(limits::SLOTS_ON_PAGE, 48);
    assert_eq!(limits::MOST_GIVEN_UP, 255);
    assert_eq!(limits::MOST_IN_HINDSIGHT, 64);
    assert_eq!(limits::LAST_IN_HINDSIGHT, 64);
}

#[test]
fn a_slots_racks_over_the_longest_wait_fill_the_board() {
    let full = limits::MOST_PER_SLOT * limits::LONGEST_LAXITY as usize;
    assert_eq!(full, limits::MOST_HELD);
    assert_eq!((full, limits::MOST_HELD), (8 * 24, 192));
}

#[test]
fn a_line_of_the_sheet_takes_whatever_a_slot_gives_up() {
    // At most all racks of a full board but the one that is baked.
    let most = limits::MOST_HELD as u32 - 1;
    assert!((0..=limits::MOST_GIVEN_UP).contains(&most));
}
