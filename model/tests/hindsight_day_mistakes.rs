//! Mistaken lists of a day's racks, and what the generated days show of them.

mod common;

use common::hindsight::days;
use model::hindsight::day::{Rack, Record};
use model::hindsight::{check, Window};
use model::inputs;
use model::limits::LAST_SLOT;
use model::refusal::Refusal;

/// What is seen of a list: ticket, first slot, last slot and the plan's slot of each rack,
/// by rising ticket; or the refusal, with its line.
type Seen = Result<Vec<[u32; 4]>, (u64, Refusal)>;

/// A mistaken list of a day's racks.
type Mistake = fn(&Record) -> Seen;

fn right(record: &Record) -> Seen {
    let mut seen = Vec::new();
    for entry in record.entries()? {
        let Window { first, last } = entry.window;
        seen.push([entry.rack.job.ticket, first, last, entry.slot]);
    }
    seen.sort_unstable();
    Ok(seen)
}

/// The list of the same day with other racks.
fn with_racks<R: Fn(&Record, &mut Vec<Rack>)>(record: &Record, other: R) -> Seen {
    let mut changed = record.clone();
    other(record, &mut changed.racks);
    right(&changed)
}

/// The list with every rack changed.
fn with_each<R: Fn(&Record, &mut Rack)>(record: &Record, other: R) -> Seen {
    with_racks(record, |record, racks| {
        racks.iter_mut().for_each(|rack| other(record, rack));
    })
}

/// Last slots as they are, closed or not.
fn closings_do_not_cut(record: &Record) -> Seen {
    let mut changed = record.clone();
    changed
        .racks
        .retain(|rack| rack.job.admitted <= record.closed);
    changed.closed = LAST_SLOT;
    right(&changed)
}

/// The slot that is open at the end counted as closed.
fn the_open_slot_too(record: &Record) -> Seen {
    let mut changed = record.clone();
    changed.closed += 1;
    right(&changed)
}

/// Racks that came after the last closing, in the last closed slot.
fn late_racks_too(record: &Record) -> Seen {
    with_each(record, |record, rack| {
        rack.job.admitted = rack.job.admitted.min(record.closed);
    })
}

fn withdrawals_do_not_count(record: &Record) -> Seen {
    with_each(record, |_, rack| rack.withdrawn = None)
}

/// The slot that was open at the withdrawal too.
fn the_slot_of_the_withdrawal_too(record: &Record) -> Seen {
    with_each(record, |_, rack| {
        rack.withdrawn = rack.withdrawn.map(|slot| slot + 1)
    })
}

fn withdrawn_racks_left_out(record: &Record) -> Seen {
    with_racks(record, |_, racks| {
        racks.retain(|rack| rack.withdrawn.is_none())
    })
}

/// By rising ticket, whatever the grade.
fn grades_do_not_count(record: &Record) -> Seen {
    with_each(record, |_, rack| rack.job.grade = 0)
}

fn worst_grade_first(record: &Record) -> Seen {
    with_each(record, |_, rack| rack.job.grade = 7 - rack.job.grade)
}

/// Within a grade by falling ticket: the racks get the tickets the other way about.
fn falling_tickets(record: &Record) -> Seen {
    let turned = with_each(record, |_, rack| {
        rack.job.ticket = u32::MAX - rack.job.ticket
    });
    let mut seen = turned?;
    seen.iter_mut()
        .for_each(|rack| rack[0] = u32::MAX - rack[0]);
    seen.sort_unstable();
    Ok(seen)
}

/// From slot 1 on, whenever a rack was admitted.
fn from_slot_1(record: &Record) -> Seen {
    with_each(record, |record, rack| {
        if rack.job.admitted <= record.closed {
            rack.job.admitted = 1;
        }
    })
}

/// Only racks that the board baked.
fn only_those_baked(record: &Record) -> Seen {
    with_racks(record, |_, racks| racks.retain(|rack| rack.baked > 0))
}

/// The right list, or another refusal.
fn refused_with<R>(record: &Record, other: R) -> Seen
where
    R: Fn(&[(Rack, Window)]) -> Option<(u64, Refusal)>,
{
    match other(&record.list()) {
        Some(refused) => Err(refused),
        None => right(record),
    }
}

/// 18 for the 65th rack of the list, best first.
fn the_65th_by_grade(record: &Record) -> Seen {
    refused_with(record, |list| {
        let (rack, _) = list.get(64)?;
        Some((rack.line, Refusal::TooMany))
    })
}

/// 18 for the last rack of the day's order.
fn the_last_rack_of_too_many(record: &Record) -> Seen {
    refused_with(record, |list| {
        list.get(64)?;
        let last = list.iter().map(|(rack, _)| rack.line).max();
        last.map(|line| (line, Refusal::TooMany))
    })
}

/// 18 for more than 64 racks admitted, late ones too.
fn late_racks_are_too_many(record: &Record) -> Seen {
    refused_with(record, |_| {
        let rack = record.racks.get(64)?;
        Some((rack.line, Refusal::TooMany))
    })
}

/// The places of the racks that break row 19.
fn outside(list: &[(Rack, Window)]) -> impl Iterator<Item = u64> + '_ {
    let wrong = list.iter().filter(|(_, window)| check(&[*window]).is_err());
    wrong.map(|(rack, _)| rack.line)
}

fn nineteen_before_eighteen(record: &Record) -> Seen {
    refused_with(record, |list| {
        outside(list).next().map(|line| (line, Refusal::Window))
    })
}

/// 19 for the first rack in the day's order.
fn the_first_nineteen_of_the_day(record: &Record) -> Seen {
    refused_with(record, |list| {
        let first = outside(list).min().filter(|_| list.len() <= 64);
        first.map(|line| (line, Refusal::Window))
    })
}

/// 19 for every day of more than 64 slots.
fn no_day_of_65_slots(record: &Record) -> Seen {
    refused_with(record, |list| {
        let (rack, _) = list.first()?;
        let long = record.closed > 64 && list.len() <= 64;
        long.then_some((rack.line, Refusal::Window))
    })
}

const MISTAKES: &[(&str, Mistake)] = &[
    ("closings do not cut", closings_do_not_cut),
    ("the open slot too", the_open_slot_too),
    ("late racks too", late_racks_too),
    ("withdrawals do not count", withdrawals_do_not_count),
    (
        "the slot of the withdrawal too",
        the_slot_of_the_withdrawal_too,
    ),
    ("withdrawn racks left out", withdrawn_racks_left_out),
    ("grades do not count", grades_do_not_count),
    ("worst grade first", worst_grade_first),
    ("falling tickets", falling_tickets),
    ("from slot 1", from_slot_1),
    ("only those baked", only_those_baked),
    ("the 65th by grade", the_65th_by_grade),
    ("the last rack of too many", the_last_rack_of_too_many),
    ("late racks are too many", late_racks_are_too_many),
    ("nineteen before eighteen", nineteen_before_eighteen),
    (
        "the first nineteen of the day",
        the_first_nineteen_of_the_day,
    ),
    ("no day of 65 slots", no_day_of_65_slots),
];

#[test]
fn every_mistake_shows_on_several_days() {
    let mut shown = vec![0; MISTAKES.len()];
    for kind in inputs::HINDSIGHT_DAYS {
        for seed in 0..60 {
            let input = kind.input(seed, None);
            let record = Record::of(&input[..]).expect("memory can be read");
            let right = right(&record);
            for (count, (_, mistake)) in shown.iter_mut().zip(MISTAKES) {
                *count += usize::from(mistake(&record) != right);
            }
        }
    }
    for (count, (mistake, _)) in shown.iter().zip(MISTAKES) {
        assert!(*count > 4, "{mistake}: {count} of {shown:?}");
    }
}

#[test]
fn a_blank_grade_taken_for_the_best_shows() {
    let mut shown = 0;
    for (_, input) in days(20) {
        let text = String::from_utf8_lossy(&input).into_owned();
        let best = text.replace(",\n", ",0\n");
        let [ours, theirs] = [&input[..], best.as_bytes()].map(|input| {
            let record = Record::of(input).expect("memory can be read");
            right(&record)
        });
        shown += usize::from(ours != theirs);
    }
    assert!(shown > 20, "{shown}");
}
