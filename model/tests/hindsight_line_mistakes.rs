//! Mistaken ways to read a list for hindsight, and what the generated lists show of them.

mod common;

use common::hindsight::printed;
use model::hindsight::program::read;
use model::hindsight::{check, Window};
use model::inputs;
use model::refusal::Refusal;

/// A mistaken program: what it prints.
type Mistake = fn(&[u8]) -> String;

/// The lines of an input.
fn lines(input: &[u8]) -> Vec<&[u8]> {
    let lines = input.split_inclusive(|&byte| byte == b'\n');
    let without_end = lines.map(|line| line.strip_suffix(b"\n").unwrap_or(line));
    without_end.collect()
}

/// What the right program prints for these lines.
fn printed_for(lines: &[Vec<u8>]) -> String {
    let ended: Vec<Vec<u8>> = lines
        .iter()
        .map(|line| [line, &b"\n"[..]].concat())
        .collect();
    printed(&ended.concat())
}

/// What the right program prints where each line is put in other words first.
fn with_lines<L: Fn(&[u8]) -> Vec<u8>>(input: &[u8], other: L) -> String {
    let lines: Vec<Vec<u8>> = lines(input).iter().map(|line| other(line)).collect();
    printed_for(&lines)
}

/// The line for a refusal of the line in this place.
fn refused(place: usize, refusal: Refusal) -> String {
    format!("R,{},{}\n", place + 1, refusal.number())
}

/// The first line that a row of its own refuses, and by which, of those that are read.
fn first_refused<R>(input: &[u8], read: R) -> Option<String>
where
    R: Fn(&[u8]) -> Result<Window, Refusal>,
{
    first_of(&lines(input)[..lines(input).len().min(65)], read)
}

/// The first of these lines that a row of its own refuses, and by which.
fn first_of<R>(lines: &[&[u8]], read: R) -> Option<String>
where
    R: Fn(&[u8]) -> Result<Window, Refusal>,
{
    let mut places = lines.iter().enumerate();
    places.find_map(|(place, line)| read(line).err().map(|refusal| refused(place, refusal)))
}

/// A line whose rows are put in another order: these first.
fn rows_first(line: &[u8], first: &[Refusal]) -> Result<Window, Refusal> {
    let fields: Vec<&[u8]> = line.split(|&byte| byte == b',').collect();
    let one = |field: &[u8]| read(&[field, b",1"].concat()).is_err();
    let broken = |refusal: &Refusal| match refusal {
        Refusal::LineLong => line.len() > 40,
        Refusal::FieldCount => fields.len() != 2,
        _ => fields.iter().any(|field| field.len() > 30 || one(field)),
    };
    match first.iter().copied().find(broken) {
        Some(refusal) => Err(refusal),
        None => read(line),
    }
}

/// The rows of the lines in another order.
fn in_order(input: &[u8], first: &[Refusal]) -> String {
    let answer = first_refused(input, |line| rows_first(line, first));
    answer.unwrap_or_else(|| printed(input))
}

fn fields_before_their_number(input: &[u8]) -> String {
    in_order(input, &[Refusal::LineLong, Refusal::Field])
}

fn number_of_fields_before_the_length(input: &[u8]) -> String {
    in_order(input, &[Refusal::FieldCount])
}

fn fields_before_the_length(input: &[u8]) -> String {
    in_order(input, &[Refusal::Field])
}

fn forty_bytes_are_too_many(input: &[u8]) -> String {
    let answer = first_refused(input, |line| match line.len() {
        40 => Err(Refusal::LineLong),
        _ => read(line),
    });
    answer.unwrap_or_else(|| printed(input))
}

fn forty_one_bytes_pass(input: &[u8]) -> String {
    with_lines(input, |line| match line.len() {
        41 => line[..40].to_vec(),
        _ => line.to_vec(),
    })
}

fn eighteen_before_the_lines(input: &[u8]) -> String {
    match lines(input).len() > 64 {
        true => refused(64, Refusal::TooMany),
        false => printed(input),
    }
}

fn lines_past_the_65th_read(input: &[u8]) -> String {
    first_of(&lines(input), read).unwrap_or_else(|| printed(input))
}

fn eighteen_for_the_last_line(input: &[u8]) -> String {
    let last = format!("R,{},18\n", lines(input).len());
    printed(input).replace("R,65,18\n", &last)
}

fn eighteen_for_line_64(input: &[u8]) -> String {
    printed(input).replace("R,65,18\n", "R,64,18\n")
}

/// A line's row 19 together with its other rows.
fn nineteen_line_by_line(input: &[u8]) -> String {
    let answer = first_refused(input, |line| {
        let window = read(line)?;
        match check(&[window]) {
            Ok(()) => Ok(window),
            Err(refused) => Err(refused.refusal),
        }
    });
    answer.unwrap_or_else(|| printed(input))
}

/// Row 19 after all lines, but before 18.
fn nineteen_before_eighteen(input: &[u8]) -> String {
    if first_refused(input, read).is_some() {
        return printed(input);
    }
    nineteen_line_by_line(input)
}

/// Of several lines that break row 19 the last one.
fn the_last_nineteen(input: &[u8]) -> String {
    let right = printed(input);
    if !right.starts_with('R') || !right.ends_with(",19\n") {
        return right;
    }
    let lines = lines(input);
    let is_wrong = |line: &&[u8]| read(line).map_or(true, |window| check(&[window]).is_err());
    let last = lines.iter().rposition(is_wrong);
    refused(last.expect("one is wrong"), Refusal::Window)
}

fn a_line_after_the_last_end(input: &[u8]) -> String {
    let ended = input.ends_with(b"\n");
    printed(&[input, if ended { b"\n" } else { b"" }].concat())
}

fn no_line_without_an_end(input: &[u8]) -> String {
    let ended = input.iter().rposition(|&byte| byte == b'\n');
    printed(&input[..ended.map_or(0, |place| place + 1)])
}

fn empty_lines_passed_over(input: &[u8]) -> String {
    let mut lines: Vec<Vec<u8>> = lines(input).iter().map(|line| line.to_vec()).collect();
    lines.retain(|line| !line.is_empty());
    printed_for(&lines)
}

fn byte_13_cut_off(input: &[u8]) -> String {
    with_lines(input, |line| {
        line.strip_suffix(b"\r").unwrap_or(line).to_vec()
    })
}

fn spaces_cut_off(input: &[u8]) -> String {
    with_lines(input, |line| {
        let mut line = line.to_vec();
        line.retain(|&byte| byte != b' ');
        line
    })
}

/// The fields of a line, each put in other words.
fn with_fields<F: Fn(&[u8]) -> Vec<u8>>(input: &[u8], other: F) -> String {
    with_lines(input, |line| match line.len() {
        0..=40 => {
            let fields: Vec<Vec<u8>> = line.split(|&byte| byte == b',').map(&other).collect();
            fields.join(&b',')
        }
        _ => line.to_vec(),
    })
}

fn any_number_of_leading_zeros(input: &[u8]) -> String {
    with_fields(input, |field| {
        let is_zeros = field.len() > 10 && field.iter().all(u8::is_ascii_digit);
        let most = if is_zeros { field.len() - 10 } else { 0 };
        let zeros = field.iter().take_while(|&&byte| byte == b'0').count();
        field[zeros.min(most)..].to_vec()
    })
}

fn blank_is_zero(input: &[u8]) -> String {
    with_lines(input, |line| match line {
        b"," => b"0,0".to_vec(),
        _ if line.starts_with(b",") => [b"0", line].concat(),
        _ if line.ends_with(b",") => [line, b"0"].concat(),
        _ => line.to_vec(),
    })
}

/// Numbers of ten digits that are too great, cut down.
fn greater_numbers_pass(input: &[u8]) -> String {
    with_fields(input, |field| match field {
        b"4294967296" | b"9999999999" => b"4294967295".to_vec(),
        _ => field.to_vec(),
    })
}

fn signs_pass(input: &[u8]) -> String {
    with_fields(input, |field| {
        field.strip_prefix(b"+").unwrap_or(field).to_vec()
    })
}

fn no_leading_zeros(input: &[u8]) -> String {
    with_fields(input, |field| match field {
        [b'0', _, ..] => b"x".to_vec(),
        _ => field.to_vec(),
    })
}

/// One number for another in every field.
fn with_number(input: &[u8], number: u32, other: &[u8]) -> String {
    with_fields(input, |field| {
        let read = read(&[field, b",1"].concat());
        match read {
            Ok(window) if window.first == number => other.to_vec(),
            _ => field.to_vec(),
        }
    })
}

fn slot_0_passes(input: &[u8]) -> String {
    with_number(input, 0, b"1")
}

fn slot_65_passes(input: &[u8]) -> String {
    with_number(input, 65, b"64")
}

fn slot_64_is_refused(input: &[u8]) -> String {
    with_number(input, 64, b"65")
}

/// First slot and last slot in any order.
fn slots_in_any_order(input: &[u8]) -> String {
    with_lines(input, |line| match read(line) {
        Ok(Window { first, last }) if last < first => format!("{last},{first}").into_bytes(),
        _ => line.to_vec(),
    })
}

const MISTAKES: &[(&str, Mistake)] = &[
    ("fields before their number", fields_before_their_number),
    (
        "number of fields before the length",
        number_of_fields_before_the_length,
    ),
    ("fields before the length", fields_before_the_length),
    ("forty bytes are too many", forty_bytes_are_too_many),
    ("forty-one bytes pass", forty_one_bytes_pass),
    ("eighteen before the lines", eighteen_before_the_lines),
    ("lines past the 65th read", lines_past_the_65th_read),
    ("eighteen for the last line", eighteen_for_the_last_line),
    ("eighteen for line 64", eighteen_for_line_64),
    ("nineteen line by line", nineteen_line_by_line),
    ("nineteen before eighteen", nineteen_before_eighteen),
    ("the last nineteen", the_last_nineteen),
    ("a line after the last end", a_line_after_the_last_end),
    ("no line without an end", no_line_without_an_end),
    ("empty lines passed over", empty_lines_passed_over),
    ("byte 13 cut off", byte_13_cut_off),
    ("spaces cut off", spaces_cut_off),
    ("any number of leading zeros", any_number_of_leading_zeros),
    ("blank is zero", blank_is_zero),
    ("greater numbers pass", greater_numbers_pass),
    ("signs pass", signs_pass),
    ("no leading zeros", no_leading_zeros),
    ("slot 0 passes", slot_0_passes),
    ("slot 65 passes", slot_65_passes),
    ("slot 64 is refused", slot_64_is_refused),
    ("slots in any order", slots_in_any_order),
];

/// The kinds of lists that are refused for the most part.
const SPOILT: &[&str] = &[
    "list-too-many",
    "list-outside",
    "list-fields",
    "list-counts",
    "list-rows",
    "list-damaged",
    "list-overlong",
    "list-tiny",
];

#[test]
fn every_mistake_shows_on_several_lists() {
    let mut shown = vec![0; MISTAKES.len()];
    for kind in inputs::LISTS {
        let seeds = if SPOILT.contains(&kind.name) { 200 } else { 5 };
        for seed in 0..seeds {
            let input = kind.input(seed, None);
            let right = printed(&input);
            for (count, (_, mistake)) in shown.iter_mut().zip(MISTAKES) {
                *count += usize::from(mistake(&input) != right);
            }
        }
    }
    for (count, (mistake, _)) in shown.iter().zip(MISTAKES) {
        assert!(*count > 5, "{mistake}: {count} of {shown:?}");
    }
}

#[test]
fn the_ways_above_are_right_where_nothing_is_put_in_other_words() {
    for kind in inputs::LISTS {
        for seed in 0..20 {
            let input = kind.input(seed, None);
            let right = printed(&input);
            assert_eq!(with_lines(&input, |line| line.to_vec()), right);
            assert_eq!(with_fields(&input, |field| field.to_vec()), right);
            let rows = [Refusal::LineLong, Refusal::FieldCount, Refusal::Field];
            assert_eq!(in_order(&input, &rows), right);
        }
    }
}
