//! The sheet of a day: its pages written out by hand, and how many there are.

mod common;

use common::crowds::{of_one_last_slot, EIGHT, FIRST_OVERFULL};
use common::paper::{closing, page, totals, HEADING, PAGE, SPACES};
use model::limits::{LONGEST_LAXITY, MOST_HELD};

/// The sheet of an input, as text.
fn sheet(input: &str) -> String {
    String::from_utf8(model::sheet::sheet(input.as_bytes())).expect("text")
}

/// A day of 48 slots in rounds of four: a rack of the worst grade; three racks of
/// which one is baked and two are given up; none; a rack with a blank grade.
fn day_of_48() -> String {
    let mut input = "D,3\n".to_string();
    for round in 0..12 {
        for racks in [&["1,1,7"][..], &["2,1,5", "3,1,2", "4,1,2"], &[], &["5,1,"]] {
            for rack in racks {
                // A round has ten tickets.
                input += &format!("A,{round}{rack}\n");
            }
            input += "B\n";
        }
    }
    input
}

const PAGE_OF_48: [&str; 50] = [
    "   SLOT     TICKET G OUT",
    "      1          1 7   0",
    "      2          3 2   2",
    "      3          0 0   0",
    "      4          5 7   0",
    "      5         11 7   0",
    "      6         13 2   2",
    "      7          0 0   0",
    "      8         15 7   0",
    "      9         21 7   0",
    "     10         23 2   2",
    "     11          0 0   0",
    "     12         25 7   0",
    "     13         31 7   0",
    "     14         33 2   2",
    "     15          0 0   0",
    "     16         35 7   0",
    "     17         41 7   0",
    "     18         43 2   2",
    "     19          0 0   0",
    "     20         45 7   0",
    "     21         51 7   0",
    "     22         53 2   2",
    "     23          0 0   0",
    "     24         55 7   0",
    "     25         61 7   0",
    "     26         63 2   2",
    "     27          0 0   0",
    "     28         65 7   0",
    "     29         71 7   0",
    "     30         73 2   2",
    "     31          0 0   0",
    "     32         75 7   0",
    "     33         81 7   0",
    "     34         83 2   2",
    "     35          0 0   0",
    "     36         85 7   0",
    "     37         91 7   0",
    "     38         93 2   2",
    "     39          0 0   0",
    "     40         95 7   0",
    "     41        101 7   0",
    "     42        103 2   2",
    "     43          0 0   0",
    "     44        105 7   0",
    "     45        111 7   0",
    "     46        113 2   2",
    "     47          0 0   0",
    "     48        115 7   0",
    "                36    24",
];

#[test]
fn a_whole_page() {
    let wanted: String = PAGE_OF_48.iter().map(|line| format!("{line}\n")).collect();
    assert_eq!(sheet(&day_of_48()), wanted);
    assert_eq!(wanted.len(), PAGE);
}

#[test]
fn the_papers_sample() {
    let lines = [
        "      1          3 0   1",
        "      2          2 1   0",
        "      3          0 0   0",
    ];
    let wanted = page(&lines, "                 2     1");
    let input = "D,1\nA,1,1,1\nA,2,2,1\nA,3,2,0\nB\nB\nB";
    assert_eq!(sheet(input), wanted);
    assert_eq!(sheet(&format!("{input}\n")), wanted);
    assert_eq!(wanted.lines().filter(|line| *line == SPACES).count(), 45);
}

/// A day of so many slots in rounds of three: a rack baked and one given up; a
/// rack baked; none. Refused lines stand between.
fn day(slots: u32) -> String {
    let too_long = LONGEST_LAXITY + 1;
    let mut input = "B\nD,4\nD,1\n".to_string();
    for slot in 1..=slots {
        let racks = match slot % 3 {
            1 => format!("A,{slot}1,1,1\nA,{slot}2,1,0\n"),
            2 => format!("A,{slot}1,1,1\n"),
            _ => String::new(),
        };
        input += &format!("A,{slot}0,{too_long},0\n{racks}B,\nD,1\nB\n\nb\n");
    }
    input
}

/// The line of a slot of that day.
fn line(slot: u32) -> String {
    closing(match slot % 3 {
        1 => [slot, slot * 10 + 2, 0, 1],
        2 => [slot, slot * 10 + 1, 1, 0],
        _ => [slot, 0, 0, 0],
    })
}

/// The page of these slots of that day, with its totals.
fn page_of(slots: std::ops::RangeInclusive<u32>, totals: &str) -> String {
    page(&slots.map(line).collect::<Vec<_>>(), totals)
}

#[test]
fn days_of_so_many_closings() {
    let one = "                 1     1";
    let most = "                32    16";
    let first = page_of(1..=48, most);
    let second = page_of(49..=96, most);
    assert_eq!(sheet(&day(0)), "");
    assert_eq!(sheet(&day(1)), page_of(1..=1, one));
    assert_eq!(sheet(&day(47)), page_of(1..=47, most));
    assert_eq!(sheet(&day(48)), first);
    assert_eq!(sheet(&day(49)), first.clone() + &page_of(49..=49, one));
    assert_eq!(sheet(&day(96)), first.clone() + &second);
    let third = page_of(97..=97, one);
    assert_eq!(sheet(&day(97)), first + &second + &third);
}

#[test]
fn a_day_with_no_closed_slot_prints_nothing() {
    let inputs = [
        "",
        "\n",
        "B\nB\nB\n",
        "A,1,1,0\nB\n",
        "D,4\nB\n",
        "D,0\n",
        "D,0\nA,1,1,0\nA,2,1,0\n",
        "D,0\nB,\nb\nB \n",
        "Q\nD,0\nQ\nA,1,1,0\nQ\nQ,\n",
        "W,1\nD,0\nW,1\nA,1,1,0\nW,1\nW\n",
    ];
    for input in inputs {
        assert_eq!(sheet(input), "", "{input:?}");
    }
}

#[test]
fn lines_after_the_last_closing_change_nothing() {
    let wanted = page(&["      1          0 0   0"], "                 0     0");
    assert_eq!(sheet("D,0\nB"), wanted);
    assert_eq!(sheet("D,0\nB\nA,1,1,0\nA,2,1,0\nx\nD,0\n"), wanted);
    assert_eq!(sheet("D,0\nQ\nB\nQ\nA,1,1,0\nQ\n"), wanted);
}

#[test]
fn a_slot_that_gives_up_a_full_board_but_one() {
    // More racks come for the slots before the last one than these can bake; the rest of
    // them goes in the last but one. For the last slot a full board is left.
    let last = FIRST_OVERFULL + LONGEST_LAXITY;
    let (early, full) = (FIRST_OVERFULL * EIGHT, MOST_HELD as u32);
    let rest = early - (last - 1);
    let seen = sheet(&of_one_last_slot(FIRST_OVERFULL));
    let lines: Vec<&str> = seen.lines().collect();
    let line = last as usize;
    assert_eq!(lines[line - 2], closing([last - 2, last - 2, 0, 0]));
    assert_eq!(lines[line - 1], closing([last - 1, last - 1, 0, rest]));
    assert_eq!(lines[line], closing([last, early + 1, 0, full - 1]));
    assert_eq!(lines[line + 1], SPACES);
    assert_eq!(lines[49], totals(last, rest + full - 1));
}

#[test]
fn one_last_slot_for_as_many_racks_as_a_full_board_has() {
    // Each slot before it bakes one of them.
    let last = LONGEST_LAXITY;
    let out = MOST_HELD as u32 - last;
    let seen = sheet(&of_one_last_slot(0));
    let lines: Vec<&str> = seen.lines().collect();
    let line = last as usize;
    assert_eq!(lines[line - 1], closing([last - 1, last - 1, 0, 0]));
    assert_eq!(lines[line], closing([last, last, 0, out]));
    assert_eq!(lines[49], totals(last, out));
}

#[test]
fn the_widest_ticket() {
    let wanted = page(&["      1 4294967295 7   0"], "                 1     0");
    assert_eq!(sheet("D,3\nA,4294967295,1,7\nB\n"), wanted);
}

#[test]
fn the_last_slot_of_the_book() {
    let seen = sheet(&format!("D,0\n{}A,1,1,0\n", "B\n".repeat(1_000_003)));
    // 20,833 pages of 48 slots, and 16 slots.
    assert_eq!(seen.len(), 20_834 * PAGE);
    let last: Vec<&str> = seen[20_833 * PAGE..].lines().collect();
    assert_eq!(last[0], HEADING);
    assert_eq!(last[1], " 999985          0 0   0");
    assert_eq!(last[15], " 999999          0 0   0");
    assert_eq!(last[16], "1000000          0 0   0");
    assert_eq!(last[17..49], [SPACES; 32]);
    assert_eq!(last[49], "                 0     0");
}
