//! Two checkouts' calls and days, both beside the model and the program that sorts, the days beside the one that counts too.

use crate::calls::PASSES;
use crate::days::{Day, Ran};
use crate::tables::{growth, head, of, quotient, row, time};
use crate::timed::{called, keep_least, other_lists, Timed};
use std::io;
use std::process::{Command, Stdio};
use std::time::Duration;

/// What is said of each call, and of each day.
const COLUMNS: [&str; 8] = [
    "what",
    "this",
    "other",
    "this of other",
    "this of the model",
    "other of the model",
    "this of sorting",
    "other of sorting",
];

/// What is said of each day besides.
const DAY_COLUMNS: [&str; 4] = [
    "this of counts",
    "other of counts",
    "a slot, this",
    "a slot, other",
];

/// The benchmarks are this source linked with either library, or each checkout's own where the calls' types differ. Programs: this checkout's, the
/// other's, the model's, the one that sorts, the one that counts. This checkout's lists and outputs are the model's; of the other's it is said in how
/// many places they are not.
pub fn run(this: &str, other: &str, programs: &[&str]) -> io::Result<()> {
    let closings = calls(this, other)?;
    head(&[&COLUMNS[..], &DAY_COLUMNS].concat());
    let mut days = 0;
    Day::each(programs, |day, ran| {
        let [this, other, model, sorting, counts] = [0, 1, 2, 3, 4].map(|side| ran[side].printed);
        let same = this == model && this == sorting && this == counts;
        assert!(same, "{}: not all print the same", day.name());
        days += u32::from(other != this);
        row(&cells(day, ran));
    })?;
    println!("\nThe other checkout has other lists in {closings} closings, and prints something else on {days} days.");
    Ok(())
}

/// One pass of the calls, by a process of its own.
fn pass(benchmark: &str) -> io::Result<Vec<Timed>> {
    let ended = Command::new(benchmark)
        .arg("calls")
        .stderr(Stdio::inherit())
        .output()?;
    assert!(ended.status.success(), "{benchmark} failed");
    let printed = String::from_utf8_lossy(&ended.stdout);
    Ok(printed.lines().map(Timed::read).collect())
}

/// Hands back in how many closings the other checkout's lists are not the model's.
fn calls(this: &str, other: &str) -> io::Result<usize> {
    let (mut here, mut there) = (Vec::new(), Vec::new());
    for _ in 0..PASSES {
        let pass_here = pass(this)?;
        assert_eq!(0, other_lists(&pass_here), "closings with other lists");
        keep_least(&mut here, pass_here);
        keep_least(&mut there, pass(other)?);
    }
    head(&COLUMNS);
    for here in &here {
        let there = called(&there, &here.name);
        let [ours, model, sorting] = [0, 1, 2].map(|side| here.times.get(side));
        let [theirs, model_there, sorting_there] =
            [0, 1, 2].map(|side| there.and_then(|call| call.times.get(side)));
        row(&[
            here.name.clone(),
            time(ours),
            time(theirs),
            of(ours, theirs),
            of(ours, model),
            of(theirs, model_there),
            of(ours, sorting),
            of(theirs, sorting_there),
        ]);
    }
    unsteadiness(&here, &there);
    growth(&[
        ("this", &here, 0),
        ("other", &there, 0),
        ("model", &here, 1),
        ("sorting", &here, 2),
    ]);
    Ok(other_lists(&there))
}

/// Where the model and the program that sorts are the same in both processes, their times should be.
fn unsteadiness(here: &[Timed], there: &[Timed]) {
    let pairs = here
        .iter()
        .filter_map(|call| Some((call, called(there, &call.name)?)));
    let same = pairs.flat_map(|(here, there)| here.times.iter().zip(&there.times).skip(1));
    let mut quotients: Vec<f64> = same.map(|(here, there)| quotient(*here, *there)).collect();
    quotients.sort_by(f64::total_cmp);
    if let (Some(least), Some(most)) = (quotients.first(), quotients.last()) {
        println!("\nModel and sorting, timed beside either side: their times here are {least:.2} to {most:.2} of those there.");
    }
}

fn cells(day: &Day, ran: &[Ran]) -> Vec<String> {
    let [this, other, model, sorting, counts] = [0, 1, 2, 3, 4].map(|side| Some(&ran[side].time));
    let slot = |time: Duration| time / day.slots;
    vec![
        day.name(),
        time(this),
        time(other),
        of(this, other),
        of(this, model),
        of(other, model),
        of(this, sorting),
        of(other, sorting),
        of(this, counts),
        of(other, counts),
        time(this.copied().map(slot).as_ref()),
        time(other.copied().map(slot).as_ref()),
    ]
}
