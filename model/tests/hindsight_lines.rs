//! The program `hindsight`: how its lines are cut, their rows and the order of these, and
//! what is printed.

mod common;

use common::hindsight::printed;

/// Two good lines, this one, and another good one.
fn third_of_four(line: &[u8]) -> Vec<u8> {
    [b"1,1\n2,64\n", line, b"\n3,3\n"].concat()
}

/// The answer where this is the third line of four.
fn answer(line: &[u8]) -> String {
    printed(&third_of_four(line))
}

/// The lines that are all good, so many of them.
fn good(many: usize) -> String {
    "1,64\n".repeat(many)
}

#[test]
fn a_list_line_by_line() {
    let input = b"1,3\n1,2\n2,2\n1,1\n4,64\n64,64\n";
    // The first three fill slots 1 to 3, so the fourth is left out.
    let wanted = "H,1,3\nH,2,1\nH,3,2\nH,4,0\nH,5,4\nH,6,64\nS,6,5\n";
    assert_eq!(printed(input), wanted);
}

#[test]
fn leading_zeros_are_allowed_and_not_printed() {
    let input = b"0000000001,02\n01,0000000001\n";
    assert_eq!(printed(input), "H,1,2\nH,2,1\nS,2,2\n");
    assert_eq!(printed(b"00000000001,2\n"), "R,1,14\n");
    assert_eq!(printed(b"0000000064,0000000064\n"), "H,1,64\nS,1,1\n");
}

#[test]
fn ends_of_input() {
    assert_eq!(printed(b""), "S,0,0\n");
    assert_eq!(printed(b"\n"), "R,1,13\n");
    assert_eq!(printed(b"\n\n"), "R,1,13\n");
    assert_eq!(printed(b"1,1"), "H,1,1\nS,1,1\n");
    assert_eq!(printed(b"1,1\n"), "H,1,1\nS,1,1\n");
    assert_eq!(printed(b"1,1\n\n"), "R,2,13\n");
    assert_eq!(printed(b"\n1,1"), "R,1,13\n");
    assert_eq!(printed(b"1,1\n1,"), "R,2,14\n");
    assert_eq!(printed(b"1,1\n1"), "R,2,13\n");
}

#[test]
fn only_byte_10_ends_a_line() {
    assert_eq!(printed(b"1,1\r\n"), "R,1,14\n");
    assert_eq!(printed(b"1,1\r1,1\n"), "R,1,13\n");
    assert_eq!(printed(b"\r\n"), "R,1,13\n");
    assert_eq!(printed(b"1\0,1\n"), "R,1,14\n");
    assert_eq!(printed(b"1,\xff1\n"), "R,1,14\n");
    assert_eq!(printed(b"\xc3\xa9\n"), "R,1,13\n");
}

#[test]
fn row_11_more_than_40_bytes() {
    // Of 40 bytes the fields are read, and each of them is too long or no number.
    let twenty = "0".repeat(19) + "1";
    for (line, number) in [
        (format!("1,{}", "0".repeat(37)), 14),
        (format!("1,{}", "0".repeat(38)), 14),
        (format!("1,{}", "0".repeat(39)), 11),
        (format!("{},1", "0".repeat(38)), 14),
        (format!("{twenty},{}", &twenty[1..]), 14),
        (format!("{twenty},{twenty}"), 11),
        ("7".repeat(40), 13),
        ("7".repeat(41), 11),
        (",".repeat(40), 13),
        (",".repeat(41), 11),
        ("\r".repeat(40), 13),
        ("\r".repeat(41), 11),
        ("x".repeat(100_000), 11),
    ] {
        assert_eq!(answer(line.as_bytes()), format!("R,3,{number}\n"), "{line}");
    }
    assert_eq!(answer(&[0xff; 40]), "R,3,13\n");
    assert_eq!(answer(&[0xff; 41]), "R,3,11\n");
}

#[test]
fn row_13_a_line_has_two_fields() {
    for line in [
        "",
        "1",
        "x",
        "1;1",
        "1 1",
        " ",
        "1,1,",
        "1,1,1",
        ",1,1",
        ",,",
        ",,,",
        "x,y,z",
        "1,1,x",
        "A,1,1,0",
        "4294967296",
        "\r",
        "0",
    ] {
        assert_eq!(answer(line.as_bytes()), "R,3,13\n", "{line:?}");
    }
}

#[test]
fn row_14_fields_are_numbers() {
    for field in [
        "",
        "x",
        "-1",
        "+1",
        " 1",
        "1 ",
        "1.",
        "0x1",
        "1e1",
        "4294967296",
        "9999999999",
        "00000000001",
        "00000000000",
        "\r",
        "1\r",
        "\0",
        "\"1\"",
        "１",
        "é",
        "B",
    ] {
        for line in [
            format!("{field},1"),
            format!("1,{field}"),
            format!("{field},{field}"),
        ] {
            assert_eq!(answer(line.as_bytes()), "R,3,14\n", "{line:?}");
        }
    }
    assert_eq!(answer(b",2"), "R,3,14\n");
    assert_eq!(answer(b"2,"), "R,3,14\n");
    assert_eq!(answer(b","), "R,3,14\n");
}

#[test]
fn numbers_that_are_no_slots_pass_row_14() {
    for line in [
        "0,1",
        "1,0",
        "0,0",
        "1,65",
        "65,65",
        "65,1",
        "2,1",
        "64,63",
        "1,4294967295",
        "4294967295,4294967295",
        "4294967295,1",
        "0000000000,1",
        "1,0000000065",
    ] {
        assert_eq!(answer(line.as_bytes()), "R,3,19\n", "{line:?}");
    }
    for line in ["64,64", "1,64", "0000000001,0000000064"] {
        assert!(answer(line.as_bytes()).ends_with("\nS,4,4\n"), "{line}");
    }
    assert_eq!(answer(b"1,1"), "H,1,1\nH,2,2\nH,3,0\nH,4,3\nS,4,3\n");
}

#[test]
fn within_a_line_11_comes_before_13_and_13_before_14() {
    assert_eq!(answer(&[b'x'; 41]), "R,3,11\n");
    assert_eq!(answer("x,".repeat(21).as_bytes()), "R,3,11\n");
    assert_eq!(answer("x,".repeat(20).as_bytes()), "R,3,13\n");
    assert_eq!(answer(b"x"), "R,3,13\n");
    assert_eq!(answer(b"0,x"), "R,3,14\n");
    assert_eq!(answer(b"x,0"), "R,3,14\n");
}

#[test]
fn the_first_line_that_breaks_11_13_or_14_is_given() {
    let long = "x".repeat(41);
    for (first, number) in [(long.as_str(), 11), ("1", 13), ("1,x", 14)] {
        for second in [long.as_str(), "1", "1,x", "0,0"] {
            let input = format!("1,1\n{first}\n{second}\n");
            assert_eq!(printed(input.as_bytes()), format!("R,2,{number}\n"));
        }
    }
}

#[test]
fn line_rows_of_all_lines_come_before_the_calls() {
    // Line 1 breaks 19, and a later one 11, 13 or 14.
    let long = "x".repeat(41);
    for (later, number) in [(long.as_str(), 11), ("", 13), ("1,x", 14)] {
        let input = format!("0,0\n1,1\n{later}\n2,1\n");
        assert_eq!(printed(input.as_bytes()), format!("R,3,{number}\n"));
    }
    assert_eq!(printed(b"0,0\n1,1\n2,1\n"), "R,1,19\n");
    assert_eq!(printed(b"1,1\n2,1\n0,0\n"), "R,2,19\n");
}

#[test]
fn line_rows_come_before_18_up_to_line_65() {
    let long = "x".repeat(41);
    for (wrong, number) in [(long.as_str(), 11), ("", 13), ("1,x", 14)] {
        for before in [0, 63, 64] {
            let input = format!("{}{wrong}\n{}", good(before), good(100));
            let wanted = format!("R,{},{number}\n", before + 1);
            assert_eq!(printed(input.as_bytes()), wanted);
        }
        // No line after the 65th is read.
        for before in [65, 66, 99] {
            let input = format!("{}{wrong}\n{}", good(before), good(100));
            assert_eq!(printed(input.as_bytes()), "R,65,18\n");
        }
    }
    // The last line is wrong, and its end is missing.
    let input = format!("{}1", good(64));
    assert_eq!(printed(input.as_bytes()), "R,65,13\n");
    let input = format!("{}1", good(65));
    assert_eq!(printed(input.as_bytes()), "R,65,18\n");
}

#[test]
fn more_than_64_lines_give_18_for_line_65() {
    for many in [65, 66, 128, 1_000] {
        assert_eq!(printed(good(many).as_bytes()), "R,65,18\n");
    }
    let lines = good(65);
    assert_eq!(printed(lines.trim_end().as_bytes()), "R,65,18\n");
    assert!(printed(good(64).as_bytes()).ends_with("H,64,64\nS,64,64\n"));
    // An empty line is a line, and row 13 comes before.
    assert_eq!(printed((good(64) + "\n").as_bytes()), "R,65,13\n");
}

#[test]
fn row_18_comes_before_19() {
    for before in [0, 30, 63, 64, 70] {
        let input = format!("{}0,65\n{}", good(before), good(65 - before.min(65)));
        assert_eq!(printed(input.as_bytes()), "R,65,18\n", "{before}");
    }
    let input = format!("{}5,4\n", good(63));
    assert_eq!(printed(input.as_bytes()), "R,64,19\n");
}

#[test]
fn nothing_else_is_printed_when_refused() {
    let wrong: [&[u8]; 5] = [b"", b"1", b"1,x", b"0,1", &[b'x'; 41]];
    for line in wrong {
        let seen = answer(line);
        assert!(seen.starts_with("R,3,") && seen.ends_with('\n'));
        assert_eq!(seen.lines().count(), 1, "{seen}");
    }
}

#[test]
fn every_rack_has_a_line_and_the_last_line_counts_them() {
    let slots: Vec<String> = (1..=64).map(|slot| format!("{slot},{slot}\n")).collect();
    let mut wanted: String = (1..=64).map(|slot| format!("H,{slot},{slot}\n")).collect();
    wanted += "S,64,64\n";
    assert_eq!(printed(slots.concat().as_bytes()), wanted);
    let mut wanted = "H,1,1\n".to_string();
    for line in 2..=64 {
        wanted += &format!("H,{line},0\n");
    }
    wanted += "S,64,1\n";
    assert_eq!(printed("1,1\n".repeat(64).as_bytes()), wanted);
}
