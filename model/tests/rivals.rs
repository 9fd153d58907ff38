//! Counts by grade, against rules that pick freely from the tight sets.
//!
//! By 000 a rule of level j that gives up nothing early is one that bakes, on
//! its own board, any rack of the tight set reached after j bits.

mod common;

use common::trials::{Stretch, Trial};
use common::Pick;
use model::board::Job;
use model::book::Book;
use model::draw::Draw;
use model::plans::{baked_starting, is_unbeaten, Plan};
use model::rule::{bit, first_due, job_to_bake, no_regret_set, tight_after, tight_set};
use model::samples;

/// Every start of j bits.
fn starts(j: usize) -> Vec<Vec<u32>> {
    let numbers = 0..1u32 << j;
    let bits = |number: u32| (0..j).map(|place| bit(number, j as u32, place)).collect();
    numbers.map(bits).collect()
}

/// Whether the first plan's counts at level j are at least the second's.
fn holds_level(book: &Book, ours: &Plan, theirs: &Plan, j: usize) -> bool {
    for mut start in starts(j) {
        start.push(0);
        for k in 0..=book.closed() {
            let count = |plan| baked_starting(book, plan, k, &start);
            if count(ours) < count(theirs) {
                return false;
            }
        }
    }
    true
}

/// In how many stretches a rival of some level has a larger count than a pick, in how
/// many the rival baked other racks at all, and in how many of these it knew racks
/// with which the book began.
#[derive(Debug, Default)]
struct Losses {
    lost: usize,
    different: usize,
    with_first_arrivals: usize,
}

impl Losses {
    /// Tries rivals of every level on so many lists of calls, and on as many books that
    /// begin with any racks.
    fn of(pick: Pick, trials: usize) -> Losses {
        let mut draw = Draw::new(51);
        let mut losses = Losses::default();
        for _ in 0..trials {
            let mut stretches = Trial::drawn(&mut draw, 40).stretches();
            stretches.push(Stretch::drawn(&mut draw, 12, 20));
            for stretch in &stretches {
                losses.try_stretch(&mut draw, stretch, pick);
            }
        }
        losses
    }

    /// The stretch begins with the same racks for the pick and for every rival.
    fn try_stretch(&mut self, draw: &mut Draw, stretch: &Stretch, pick: Pick) {
        let book = &stretch.book;
        let ours = stretch.plan(pick);
        for j in 0..book.depth as usize {
            let theirs = stretch.plan(|jobs: &[Job], slot: u32, depth: u32| {
                let set = tight_after(jobs, slot, depth, j);
                (!set.is_empty()).then(|| draw.pick(&set))
            });
            assert!(is_unbeaten(book, &theirs), "a rival has the total");
            self.lost += usize::from(!holds_level(book, &ours, &theirs, j));
            self.different += usize::from(ours != theirs);
            let knew = ours != theirs && !book.first_arrivals.is_empty();
            self.with_first_arrivals += usize::from(knew);
        }
    }
}

#[test]
fn no_rival_has_a_larger_count() {
    let losses = Losses::of(job_to_bake, 10_000);
    assert_eq!(losses.lost, 0);
    assert!(losses.different > 2_000, "{losses:?}");
    assert!(losses.with_first_arrivals > 2_000, "{losses:?}");
}

#[test]
fn least_last_slot_loses_to_rivals() {
    let pick: Pick = |jobs, _, _| first_due(jobs.to_vec());
    assert!(Losses::of(pick, 1_000).lost > 0);
}

/// 000's own form: each step looks only at the set that the last one left.
fn nested(jobs: &[Job], slot: u32, depth: u32) -> Vec<Job> {
    let mut set = tight_set(jobs, slot);
    for place in 0..depth as usize {
        let zeros: Vec<Job> = set
            .iter()
            .filter(|job| bit(job.grade, depth, place) == 0)
            .copied()
            .collect();
        if !zeros.is_empty() {
            set = tight_set(&zeros, slot);
        }
    }
    set
}

#[test]
fn the_search_by_bits_is_000s_nested_sets() {
    let mut draw = Draw::new(52);
    for _ in 0..5_000 {
        let depth = draw.between(0, 6);
        let many = draw.index(40);
        let slot = draw.between(100, 200);
        let jobs = samples::jobs(&mut draw, depth, slot, many);
        assert_eq!(
            nested(&jobs, slot, depth),
            no_regret_set(&jobs, slot, depth)
        );
    }
}

#[test]
fn the_no_regret_set_is_of_one_grade_and_tight() {
    let mut draw = Draw::new(53);
    for _ in 0..5_000 {
        let board = samples::board(&mut draw, 30);
        let (jobs, slot, depth) = (board.jobs(), board.slot, board.depth);
        let set = no_regret_set(jobs, slot, depth);
        assert_eq!(set.is_empty(), jobs.is_empty());
        assert!(set.iter().all(|job| job.grade == set[0].grade));
        let tight = tight_set(jobs, slot);
        assert!(set.iter().all(|job| tight.contains(job)));
    }
}
