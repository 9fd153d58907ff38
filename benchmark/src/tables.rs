//! Tables of what was timed.

use crate::calls::{closing_name, Shape, SHAPES, SIZES};
use crate::timed::{called, Timed};
use std::time::Duration;

pub fn row<T: AsRef<str>>(cells: &[T]) {
    let cells: Vec<&str> = cells.iter().map(AsRef::as_ref).collect();
    println!("| {} |", cells.join(" | "));
}

pub fn head<T: AsRef<str>>(cells: &[T]) {
    println!();
    row(cells);
    row(&vec!["---"; cells.len()]);
}

/// A time, if there is one.
pub fn time(time: Option<&Duration>) -> String {
    time.map_or(String::new(), |time| match time.as_nanos() {
        0..=999 => format!("{time:.0?}"),
        1_000..=99_999_999 => format!("{time:.1?}"),
        _ => format!("{:.2}s", time.as_secs_f64()),
    })
}

/// A time as so many of another, if there are both.
pub fn of(time: Option<&Duration>, other: Option<&Duration>) -> String {
    match (time, other) {
        (Some(time), Some(other)) => format!("{:.2}", quotient(*time, *other)),
        _ => String::new(),
    }
}

pub fn quotient(time: Duration, other: Duration) -> f64 {
    time.as_secs_f64() / other.as_secs_f64()
}

/// How the closings' times grow with the racks held. Each side has a name, the calls' times, and its place among these; a side that has not closed
/// these boards has no row.
pub fn growth(sides: &[(&str, &[Timed], usize)]) {
    let mut columns = vec!["closing".to_string(), "side".to_string()];
    columns.extend(
        SIZES
            .windows(2)
            .map(|pair| format!("a rack more, {} to {}", pair[0], pair[1])),
    );
    columns.push(format!("{} of {}", SIZES[SIZES.len() - 1], SIZES[0]));
    head(&columns);
    for shape in SHAPES {
        for (side, calls, place) in sides {
            let Some(times) = closings(calls, shape, *place) else {
                continue;
            };
            let mut cells = vec![shape.name(), side.to_string()];
            cells.extend(each_rack_more(&times));
            cells.push(of(times.last(), times.first()));
            row(&cells);
        }
    }
}

/// One side's times of the closings of this shape, size by size, if all are among these calls.
fn closings(calls: &[Timed], shape: Shape, place: usize) -> Option<Vec<Duration>> {
    let time = |held| Some(called(calls, &closing_name(held, shape))?.times[place]);
    SIZES.into_iter().map(time).collect()
}

/// What a rack more takes, from each size to the next. Where time grows in proportion, it is the same everywhere.
fn each_rack_more(times: &[Duration]) -> Vec<String> {
    let sizes = SIZES.windows(2).map(|pair| f64::from(pair[1] - pair[0]));
    let nanos = |time: Duration| time.as_secs_f64() * 1e9;
    let steps = times.windows(2).map(|pair| nanos(pair[1]) - nanos(pair[0]));
    let each = steps.zip(sizes).map(|(step, racks)| step / racks);
    each.map(|nanos| format!("{nanos:.0}ns")).collect()
}
