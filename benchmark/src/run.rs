//! One checkout's calls and days beside the model and the two programs written for speed.

use crate::calls::{self, PASSES};
use crate::days::{Day, Ran};
use crate::handed;
use crate::tables::{growth, head, of, row, time};
use crate::timed::{keep_least, other_lists, Timed};
use std::io;

/// Programs: ours, the model's, the one that sorts, the one that counts.
pub fn run(programs: &[&str]) -> io::Result<()> {
    calls();
    handed::run();
    head(&[
        "what",
        "ours",
        "a slot",
        "model",
        "sorting",
        "counts",
        "of the model",
        "of sorting",
        "of counts",
        "on a processor, each",
        "peak memory of each",
        "our reads, writes, time in the system",
    ]);
    Day::each(programs, |day, ran| {
        let same = ran.iter().all(|other| other.printed == ran[0].printed);
        assert!(same, "{}: not all print the same", day.name());
        row(&cells(day, ran));
    })
}

fn calls() {
    let mut best = Vec::new();
    for _ in 0..PASSES {
        let pass = calls::pass();
        assert_eq!(0, other_lists(&pass), "closings with other lists");
        keep_least(&mut best, pass);
    }
    head(&[
        "what",
        "ours",
        "model",
        "sorting",
        "of the model",
        "of sorting",
    ]);
    for Timed { name, times, .. } in &best {
        let [ours, model, sorting] = [0, 1, 2].map(|side| times.get(side));
        row(&[
            name.clone(),
            time(ours),
            time(model),
            time(sorting),
            of(ours, model),
            of(ours, sorting),
        ]);
    }
    growth(&[
        ("ours", &best, 0),
        ("model", &best, 1),
        ("sorting", &best, 2),
    ]);
}

fn cells(day: &Day, ran: &[Ran]) -> Vec<String> {
    let [ours, model, sorting, counts] = [0, 1, 2, 3].map(|side| Some(&ran[side].time));
    let each = |said: fn(&Ran) -> String| ran.iter().map(said).collect::<Vec<_>>().join(", ");
    let seen = ran[0].seen;
    vec![
        day.name(),
        time(ours),
        time(Some(&(ran[0].time / day.slots))),
        time(model),
        time(sorting),
        time(counts),
        of(ours, model),
        of(ours, sorting),
        of(ours, counts),
        each(|ran| time(Some(&ran.seen.processor))),
        each(|ran| format!("{} kB", ran.seen.peak)),
        format!(
            "{}, {}, {:.2}s",
            seen.reads,
            seen.writes,
            seen.system.as_secs_f64()
        ),
    ]
}
