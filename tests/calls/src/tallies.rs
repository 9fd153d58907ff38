//! One event on a tally, here and there.

use crate::refusals::{self, number};
use model::draw::Draw;
use model::limits::FULL_COUNT;
use model::tally;
use oven::{Kind, Tally};

const KINDS: [Kind; 4] = [Kind::Admitted, Kind::Baked, Kind::GivenUp, Kind::Withdrawn];

/// A tally of the model as the library has it.
fn converted(tally: &tally::Tally) -> Tally {
    let counts: Vec<u32> = tally.counts.iter().flatten().copied().collect();
    Tally {
        counts: counts.try_into().expect("as many counts"),
    }
}

pub fn zero() -> bool {
    let expected = converted(&tally::Tally::default());
    oven::calls::zero() == expected && Tally::new() == expected
}

/// One event on a tally that often stands at a limit: by value, lent, and by the comfortable layer where it has such a kind.
pub fn event(draw: &mut Draw) -> bool {
    let mut expected = tally::Tally::default();
    let limits = [0, 1, FULL_COUNT - 1, FULL_COUNT, FULL_COUNT + 1, u32::MAX];
    for count in expected.counts.iter_mut().flatten() {
        *count = draw.pick(&limits);
    }
    let given = converted(&expected);
    let kind = draw.pick(&[0, 1, 2, 3, 3, 4, u32::MAX]);
    let grade = draw.pick(&[0, 3, 6, 7, 8, u32::MAX]);
    let answer = expected.record(kind, grade);
    let refusal = number(&answer);
    let after = converted(&expected);
    let counted = oven::calls::count(given, kind, grade);
    let (mut lent, mut ours) = (given, given);
    let noted = oven::calls::note(&mut lent, kind, grade);
    let done = KINDS
        .get(kind as usize)
        .map(|&kind| ours.count(kind, grade).map_err(|r| (r, r.number())));
    counted.refusal == refusal
        && counted.tally == after
        && noted == refusal
        && lent == after
        && ours == after
        && done.map_or(refusal == 9, |done| {
            done == answer.map_err(refusals::counting)
        })
        && KINDS
            .iter()
            .all(|&kind| ours.counts_of(kind) == expected.counts[kind as usize])
}
