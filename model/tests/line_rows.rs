//! The rows of the lines, 11 to 15, and how lines and fields are cut.

mod common;

use common::{answers, printed};
use model::limits::LONGEST_LAXITY;
use model::program::run_bytes;

/// The answer to a line on an open board of depth 1 with ticket 5 admitted.
fn on_open_board(line: &str) -> String {
    let seen = answers(&format!("D,1\nA,5,9,0\n{line}\n"));
    assert_eq!(seen[..2], ["D,1", "A,5,9"]);
    seen[2..].join(" ")
}

/// The answer to a line while no board is open.
fn on_none(line: &str) -> String {
    answers(&format!("{line}\n")).join(" ")
}

#[test]
fn only_byte_10_ends_a_line() {
    assert_eq!(on_open_board("B\r"), "R,3,12");
    assert_eq!(on_none("D,1\r"), "R,1,14");
    assert_eq!(on_open_board("A,6,1,\r"), "R,3,14");
    assert_eq!(on_open_board("A,6,1,0\r"), "R,3,14");
    assert_eq!(on_open_board("B\0"), "R,3,12");
    assert_eq!(on_open_board("\0B"), "R,3,12");
    let high = run_bytes(b"D,0\nB\xff\n\xc3\xa9\nA,1,\x80,0\nB\x0b\x0c\n");
    assert_eq!(high, b"D,0\nR,2,12\nR,3,12\nR,4,14\nR,5,12\nT,0,0,0,0,0\n");
}

#[test]
fn stray_bytes_count_towards_the_forty() {
    for stray in ["\r", "\0", " ", "x"] {
        let start = "A,6,1,0";
        let forty = format!("{start}{}", stray.repeat(33));
        assert_eq!(on_open_board(&forty), "R,3,14");
        assert_eq!(on_open_board(&format!("{forty}{stray}")), "R,3,11");
    }
    let mut input = b"D,0\n".to_vec();
    input.extend([0xff; 40]);
    input.push(b'\n');
    input.extend([0xff; 41]);
    assert_eq!(run_bytes(&input), b"D,0\nR,2,12\nR,3,11\nT,0,0,0,0,0\n");
}

#[test]
fn ends_of_input() {
    assert_eq!(printed(""), "");
    assert_eq!(printed("\n"), "R,1,12\n");
    assert_eq!(printed("\n\n"), "R,1,12\nR,2,12\n");
    assert_eq!(printed("D,0"), "D,0\nT,0,0,0,0,0\n");
    assert_eq!(printed("D,0\n"), "D,0\nT,0,0,0,0,0\n");
    assert_eq!(printed("D,0\n\n"), "D,0\nR,2,12\nT,0,0,0,0,0\n");
}

#[test]
fn refusals_count_every_line() {
    let seen = answers("\nB\nD,9\nD,0\n\nA,1,1,0\nA,1,1,0\nB\nx");
    let wanted = [
        "R,1,12",
        "R,2,15",
        "R,3,1",
        "D,0",
        "R,5,12",
        "A,1,1",
        "R,7,4",
        "B,1,1,0,0,0",
        "R,9,12",
    ];
    assert_eq!(seen, wanted);
}

#[test]
fn row_11_comes_first() {
    for start in [
        "", "x", "A", "A,1", "A,1,1,0", "B", "B,", "D,1", ",", "D,9", "Q", "Q,", "W", "W,", "W,5",
    ] {
        let long = format!("{start}{}", " ".repeat(41 - start.len()));
        assert_eq!(on_open_board(&long), "R,3,11");
        assert_eq!(on_none(&long), "R,1,11");
    }
}

#[test]
fn an_overlong_line_is_one_line_and_one_refusal() {
    let long = "A,1,1,0,".repeat(20_000);
    let seen = answers(&format!("D,0\n{long}\n{long}\nB\n{long}"));
    assert_eq!(seen, ["D,0", "R,2,11", "R,3,11", "B,1,0,0,0,0", "R,5,11"]);
}

#[test]
fn row_12_first_field_is_one_capital_letter() {
    let lines = [
        "",
        "a",
        "b",
        "d",
        " A",
        "AA",
        "A ",
        "B ",
        " B",
        "BB",
        "D ",
        "a,6,1,0",
        "AA,6,1,0",
        " A,6,1,0",
        "b,",
        ",",
        ",6,1,0",
        ",,,",
        "C",
        "T,0",
        "q",
        " Q",
        "QQ",
        "Q ",
        "Q\r",
        "q,1",
        "QB",
        "w",
        " W",
        "WW",
        "W ",
        "W\r",
        "w,5",
        " W,5",
        "W ,5",
        "WB",
        "0",
        "\"A\",6,1,0",
        "A;6;1;0",
        "W;5",
    ];
    for line in lines {
        assert_eq!(on_open_board(line), "R,3,12", "{line:?}");
        assert_eq!(on_none(line), "R,1,12", "{line:?}");
    }
}

#[test]
fn row_13_comes_before_row_14() {
    let lines = [
        "A",
        "A,",
        "A,x",
        "A,6",
        "A,6,1",
        "A,6,1,0,",
        "A,6,1,0,0",
        "A,,",
        "A,,,,",
        "B,",
        "B,1",
        "B,x",
        "B,,",
        "D",
        "D,1,",
        "D,,",
        "D,1,1",
        "D,x,x",
        "Q,",
        "Q,1",
        "Q,x",
        "Q,,",
        "Q,1,1,1",
        "W",
        "W,5,",
        "W,,",
        "W,5,1",
        "W,x,x",
        "W,5,9,0",
    ];
    for line in lines {
        assert_eq!(on_open_board(line), "R,3,13", "{line:?}");
        assert_eq!(on_none(line), "R,1,13", "{line:?}");
    }
}

#[test]
fn row_14_fields_are_numbers() {
    let wrong = [
        "x",
        "-1",
        "+1",
        " 1",
        "1 ",
        "1.",
        "0x1",
        "1e1",
        "4294967296",
        "9999999999",
        "00000000001",
        "00000000000",
        "\r",
        "1\r",
        "\0",
        "\"1\"",
        "１",
    ];
    for field in wrong {
        let lines = [
            format!("A,{field},1,0"),
            format!("A,6,{field},0"),
            format!("A,6,1,{field}"),
            format!("D,{field}"),
            format!("W,{field}"),
        ];
        for line in lines {
            assert_eq!(on_open_board(&line), "R,3,14", "{line:?}");
            assert_eq!(on_none(&line), "R,1,14", "{line:?}");
        }
    }
}

#[test]
fn row_14_blank_only_as_grade() {
    assert_eq!(on_none("D,"), "R,1,14");
    assert_eq!(on_none("W,"), "R,1,14");
    assert_eq!(on_open_board("W,"), "R,3,14");
    assert_eq!(on_open_board("W, "), "R,3,14");
    assert_eq!(on_open_board("A,,1,0"), "R,3,14");
    assert_eq!(on_open_board("A,6,,0"), "R,3,14");
    assert_eq!(on_open_board("A,,,"), "R,3,14");
    assert_eq!(on_open_board("A,6,1,"), "A,6,1");
    assert_eq!(on_open_board("A,6,1, "), "R,3,14");
}

#[test]
fn a_blank_grade_is_the_worst_of_the_depth() {
    // One rack without a grade is given up (at depth 0 baked), one is baked.
    let wanted = [
        "D,0\nA,1,1\nA,2,1\nA,3,2\nB,1,1,0,1,1\nG,1,2,0\nB,2,3,0,0,0\nT,0,3,2,1,0\n",
        "D,1\nA,1,1\nA,2,1\nA,3,2\nB,1,2,0,1,1\nG,1,1,1\nB,2,3,1,0,0\nT,0,1,1,0,0\nT,1,2,1,1,0\n",
        "D,2\nA,1,1\nA,2,1\nA,3,2\nB,1,2,0,1,1\nG,1,1,3\nB,2,3,3,0,0\nT,0,1,1,0,0\nT,1,0,0,0,0\nT,2,0,0,0,0\nT,3,2,1,1,0\n",
        "D,3\nA,1,1\nA,2,1\nA,3,2\nB,1,2,0,1,1\nG,1,1,7\nB,2,3,7,0,0\nT,0,1,1,0,0\nT,1,0,0,0,0\nT,2,0,0,0,0\nT,3,0,0,0,0\nT,4,0,0,0,0\nT,5,0,0,0,0\nT,6,0,0,0,0\nT,7,2,1,1,0\n",
    ];
    for (depth, wanted) in wanted.iter().enumerate() {
        let seen = printed(&format!("D,{depth}\nA,1,1,\nA,2,1,0\nA,3,2,\nB\nB\n"));
        assert_eq!(seen, *wanted, "depth {depth}");
    }
}

#[test]
fn a_blank_grade_is_refused_for_the_other_fields_only() {
    assert_eq!(on_open_board("A,5,1,"), "R,3,4");
    let too_long = LONGEST_LAXITY + 1;
    assert_eq!(on_open_board(&format!("A,6,{too_long},")), "R,3,5");
    assert_eq!(on_open_board("A,6,1,2"), "R,3,6");
    assert_eq!(on_none("A,6,1,"), "R,1,15");
}

#[test]
fn leading_zeros_are_allowed() {
    assert_eq!(on_none("D,01"), "D,1");
    assert_eq!(on_none("D,0000000003"), "D,3");
    let longest = LONGEST_LAXITY;
    assert_eq!(
        on_open_board(&format!("A,0000000006,{longest:010},0000000001")),
        format!("A,6,{longest}")
    );
    assert_eq!(on_open_board("A,4294967295,1,0"), "A,4294967295,1");
    assert_eq!(on_open_board("A,6,1,4294967295"), "R,3,6");
    assert_eq!(on_open_board("A,6,4294967295,0"), "R,3,5");
}

#[test]
fn fields_come_before_row_15_and_before_the_call() {
    assert_eq!(on_open_board("A,5,99,x"), "R,3,14");
    assert_eq!(on_open_board("D,x"), "R,3,14");
    assert_eq!(on_open_board("D,9"), "R,3,15");
    assert_eq!(on_open_board("D,1"), "R,3,15");
    assert_eq!(on_none("D,9"), "R,1,1");
    assert_eq!(on_none("A,1,1,x"), "R,1,14");
    assert_eq!(on_none("A,0,99,9"), "R,1,15");
    assert_eq!(on_none("B"), "R,1,15");
    assert_eq!(on_none("Q"), "R,1,15");
    assert_eq!(on_none("W,0"), "R,1,15");
    assert_eq!(on_none("W,5"), "R,1,15");
    assert_eq!(on_none("W,x"), "R,1,14");
    assert_eq!(on_open_board("W,0"), "R,3,17");
    assert_eq!(on_open_board("W,5"), "R,3,17");
}

#[test]
fn a_question_is_one_letter_alone() {
    assert_eq!(on_open_board("Q"), "Q,1");
    assert_eq!(
        answers("D,0\nQ\nA,1,1,0\nQ"),
        ["D,0", "Q,1", "A,1,1", "Q,2"]
    );
    let spaces = " ".repeat(39);
    assert_eq!(on_open_board(&format!("Q{spaces}")), "R,3,12");
    assert_eq!(on_open_board(&format!("Q,{spaces}")), "R,3,11");
    assert_eq!(on_open_board(&format!("Q,{}", &spaces[1..])), "R,3,13");
}

#[test]
fn after_a_refused_opening_no_board_is_open() {
    let seen = printed("D,4\nB\nA,1,1,0\nD,4294967295\nQ\nW,1\n");
    assert_eq!(seen, "R,1,1\nR,2,15\nR,3,15\nR,4,1\nR,5,15\nR,6,15\n");
    assert_eq!(answers("D,4\nD,2\nB\n"), ["R,1,1", "D,2", "B,1,0,0,0,0"]);
}

#[test]
fn tickets_in_lines() {
    assert_eq!(on_open_board("A,0,1,0"), "R,3,4");
    assert_eq!(on_open_board("A,5,1,0"), "R,3,4");
    // A refused admitting does not raise the highest ticket.
    let seen = answers("D,0\nA,9,99,0\nA,9,1,1\nA,8,1,0\nA,8,1,0\n");
    assert_eq!(seen, ["D,0", "R,2,5", "R,3,6", "A,8,1", "R,5,4"]);
}

#[test]
fn racks_left_at_the_end_are_only_admitted() {
    let seen = printed("D,0\nA,1,1,0\nA,2,1,0\nB\nA,3,5,0\nA,4,5,0\n");
    let wanted = "D,0\nA,1,1\nA,2,1\nB,1,1,0,1,1\nG,1,2,0\nA,3,6\nA,4,6\nT,0,4,1,1,0\n";
    assert_eq!(seen, wanted);
}

#[test]
fn totals_run_over_the_grades_of_the_depth() {
    for depth in 0..4 {
        let seen = printed(&format!("D,{depth}\n"));
        let totals = seen.lines().filter(|line| line.starts_with('T'));
        assert_eq!(totals.count(), 1 << depth);
    }
}
