//! The program `hindsight-day` on days worked by hand.

mod common;

use common::hindsight::printed_day;

/// What the program prints for a day, as text.
fn seen(day: &str) -> String {
    printed_day(day.as_bytes())
}

/// So many closings.
fn closings(many: usize) -> String {
    "B\n".repeat(many)
}

/// So many slots with eight racks of wait 1, tickets from 1, all of this grade.
fn eight_a_slot(slots: u32, grade: u32) -> String {
    let mut day = String::new();
    for slot in 0..slots {
        for ticket in 8 * slot + 1..=8 * slot + 8 {
            day += &format!("A,{ticket},1,{grade}\n");
        }
        day += "B\n";
    }
    day
}

#[test]
fn a_day_on_which_the_board_could_not_know() {
    // Slot 1 has 1/1 and 2/0: 'grade 1 is baked first' (01, board 2). In slot 2 another
    // rack of grade 0 comes, due at once, and the later ticket is given up. Hindsight
    // bakes both of grade 0, and then there is no slot for ticket 1.
    let day = "D,1\nA,1,1,1\nA,2,2,0\nB\nA,3,1,0\nB\n";
    let wanted = "H,2,0,1,2,2,1\nH,3,0,2,2,0,2\nH,1,1,1,1,1,0\n";
    let totals = "T,0,2,1,2\nT,1,1,1,0\nS,3,2,2\n";
    assert_eq!(seen(day), format!("{wanted}{totals}"));
}

#[test]
fn a_day_with_a_withdrawal_a_blank_grade_a_refusal_and_a_late_rack() {
    // Ticket 1 has the worst grade of depth 2 and is tight in slot 1, so it is baked.
    // Ticket 2 is withdrawn in slot 2, so it had slot 1 only. Ticket 5 comes in slot 4,
    // which is not closed. Hindsight bakes 3, 4 and 2, and slots 1 to 3 are full.
    let day = "D,2\nA,1,3,\nA,2,5,1\nA,2,1,0\nQ\nB\nA,3,2,0\nA,4,2,0\nW,2\nB\nB\nA,5,1,0\n";
    let wanted = "H,3,0,2,3,2,2\nH,4,0,2,3,3,3\nH,2,1,1,1,0,1\nH,1,3,1,3,1,0\n";
    let totals = "T,0,2,2,2\nT,1,1,0,1\nT,2,0,0,0\nT,3,1,1,0\nS,4,3,3\n";
    assert_eq!(seen(day), format!("{wanted}{totals}"));
}

#[test]
fn a_day_whose_closings_cut_the_windows() {
    // Both racks could wait to slot 24, but one slot is closed.
    let day = "D,0\nA,1,24,0\nA,2,24,0\nB\n";
    assert_eq!(
        seen(day),
        "H,1,0,1,1,1,1\nH,2,0,1,1,0,0\nT,0,2,1,1\nS,2,1,1\n"
    );
    // With a second closing both are baked.
    assert_eq!(
        seen(&format!("{day}B\n")),
        "H,1,0,1,2,1,1\nH,2,0,1,2,2,2\nT,0,2,2,2\nS,2,2,2\n"
    );
}

#[test]
fn a_day_on_which_withdrawals_cost_the_board_a_rack() {
    // Slot 1 bakes ticket 1, due first. Ticket 2, due in slot 2 as well, is withdrawn in
    // slot 2, so nothing is left. In hindsight ticket 2 is baked in slot 1, and ticket 1
    // in slot 2. Ticket 3 is withdrawn in slot 2 too and finds slot 1 taken.
    let day = "D,0\nA,1,2,0\nA,2,2,0\nA,3,9,0\nB\nW,2\nW,3\nB\n";
    let wanted = "H,1,0,1,2,1,2\nH,2,0,1,1,0,1\nH,3,0,1,1,0,0\n";
    assert_eq!(seen(day), format!("{wanted}T,0,3,1,2\nS,3,1,2\n"));
}

#[test]
fn a_rack_can_be_withdrawn_many_slots_later() {
    // Tickets 1 to 3 are due in that order. Ticket 3 is withdrawn in slot 3, so it had
    // slots 1 and 2; hindsight bakes 1 and 2, which stand before it, in all three slots.
    let day = "D,0\nA,1,3,0\nA,2,4,0\nA,3,5,0\nB\nB\nW,3\nB\n";
    let wanted = "H,1,0,1,3,1,2\nH,2,0,1,3,2,3\nH,3,0,1,2,0,1\n";
    assert_eq!(seen(day), format!("{wanted}T,0,3,2,3\nS,3,2,3\n"));
}

#[test]
fn best_grade_first_and_then_by_rising_ticket() {
    let day = "D,3\nA,2,9,7\nA,3,9,\nA,5,9,0\nA,7,9,3\nA,8,9,0\nA,9,9,3\nB\n";
    let output = seen(day);
    let tickets = output.lines().filter(|line| line.starts_with("H,"));
    let tickets: Vec<&str> = tickets
        .map(|line| line.split(',').nth(1).unwrap_or(""))
        .collect();
    assert_eq!(tickets, ["5", "8", "7", "9", "2", "3"]);
    assert!(output.contains("H,3,7,1,1,0,0\n"));
    assert!(output.contains("T,0,2,1,1\nT,1,0,0,0\n"));
    assert!(output.ends_with("T,7,2,0,0\nS,6,1,1\n"));
}

#[test]
fn a_day_without_a_board_or_without_a_rack() {
    for day in ["", "\n", "D,4\n", "B\nA,1,1,0\nQ\nW,1\n", "D,x\nd,0"] {
        assert_eq!(seen(day), "S,0,0,0\n", "{day:?}");
    }
    let totals = "T,0,0,0,0\nT,1,0,0,0\nS,0,0,0\n";
    for day in ["D,1", "D,9\nD,1\nD,2\n", "D,1\nB\nB\n", "D,1\nA,1,9,0\n"] {
        assert_eq!(seen(day), totals, "{day:?}");
    }
    let eighty = format!("D,1\n{}A,1,9,0\n", closings(80));
    assert_eq!(seen(&eighty), totals);
}

#[test]
fn racks_after_the_last_closing_are_not_in_the_list() {
    let day = "D,0\nA,1,1,0\nB\nA,2,1,0\nA,3,9,0";
    assert_eq!(seen(day), "H,1,0,1,1,1,1\nT,0,1,1,1\nS,1,1,1\n");
}

#[test]
fn refused_racks_are_not_there() {
    let day = "D,0\nA,1,25,0\nA,1,0,0\nA,1,1,1\nA,0,1,0\nA,x\nA,1,1,0\nA,1,1,0\nB\nB,\nW,1\n";
    assert_eq!(seen(day), "H,1,0,1,1,1,1\nT,0,1,1,1\nS,1,1,1\n");
    // The ninth of a slot gets 7.
    let nine: String = (1..=9).map(|ticket| format!("A,{ticket},1,0\n")).collect();
    let output = seen(&format!("D,0\n{nine}B\n"));
    assert!(output.ends_with("H,8,0,1,1,0,0\nT,0,8,1,1\nS,8,1,1\n"));
}

#[test]
fn row_19_where_a_window_goes_past_slot_64() {
    // Ticket 1 comes in slot 64 and waits to 66, ticket 2 is baked there as it is due;
    // ticket 3 comes in slot 65.
    let day = |grade, more| {
        let before = format!("D,1\n{}A,1,3,1\nA,2,1,1\nB\n", closings(63));
        format!("{before}{more}A,3,1,{grade}\nB\n")
    };
    // In list order, best first, ticket 3 comes first if it has the better grade.
    assert_eq!(seen(&day(0, "")), "R,68,19\n");
    assert_eq!(seen(&day(1, "")), "R,65,19\n");
    // Withdrawn in slot 65, ticket 1 had slot 64 alone.
    assert_eq!(seen(&day(1, "W,1\n")), "R,69,19\n");
    assert_eq!(seen(&day(0, "W,1\n")), "R,69,19\n");
}

#[test]
fn a_long_day_is_not_refused_where_all_windows_end_by_slot_64() {
    let early = format!("D,0\n{}A,1,2,0\n{}", closings(62), closings(100));
    let wanted = "H,1,0,63,64,63,63\nT,0,1,1,1\nS,1,1,1\n";
    assert_eq!(seen(&early), wanted);
    let later = format!("D,0\n{}A,1,3,0\n{}", closings(62), closings(100));
    assert_eq!(seen(&later), "R,64,19\n");
    // The closings cut it: slot 65 is not closed.
    let cut = format!("D,0\n{}A,1,3,0\n{}", closings(62), closings(2));
    assert_eq!(seen(&cut), wanted);
}

#[test]
fn row_18_is_given_for_the_65th_rack_of_the_day() {
    let full = format!("D,1\n{}", eight_a_slot(8, 1));
    assert!(seen(&full).ends_with("T,0,0,0,0\nT,1,64,8,8\nS,64,8,8\n"));
    // After the last closing a 65th rack is not in the list; with a closing it is.
    let late = format!("{full}A,65,9,0\n");
    assert!(seen(&late).ends_with("S,64,8,8\n"));
    // Lines 2 to 73 are the 64 racks and 8 closings.
    assert_eq!(seen(&format!("{late}B\n")), "R,74,18\n");
    // By grade ticket 65 stands first, but the order is the day's. A refused line counts
    // as a line and not as a rack.
    let more = format!("{full}A,64,9,0\nQ\nA,65,9,0\nA,66,9,0\nB\n");
    assert_eq!(seen(&more), "R,76,18\n");
    // Nor does it matter when a rack is withdrawn.
    let withdrawn = format!("{full}A,70,9,0\nA,71,9,0\nB\nW,71\nB\n");
    assert_eq!(seen(&withdrawn), "R,74,18\n");
}

#[test]
fn row_18_comes_before_19() {
    let long = format!("D,0\n{}{}", closings(60), eight_a_slot(8, 0));
    // Ticket 33 comes in slot 65; 64 racks are not too many.
    assert_eq!(seen(&long), "R,98,19\n");
    let day = format!("{long}A,100,1,0\nB\n");
    assert_eq!(seen(&day), "R,134,18\n");
}
