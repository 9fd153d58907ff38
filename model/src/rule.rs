//! The no-regret rule, on any list of racks and for any depth up to 32 bits.

use crate::board::Job;

/// A rack's wait in a slot: how many slots it can still be baked in.
pub fn laxity(job: &Job, slot: u32) -> i64 {
    i64::from(job.deadline) - i64::from(slot) + 1
}

/// The excess of a wait: the wait less the number of racks with it or less.
pub fn excess(jobs: &[Job], slot: u32, wait: i64) -> i64 {
    let up_to_wait = jobs.iter().filter(|job| laxity(job, slot) <= wait);
    wait - up_to_wait.count() as i64
}

/// l*: the least wait, of those that some rack has, whose excess is smallest.
/// There is none where there are no racks.
pub fn tight_laxity(jobs: &[Job], slot: u32) -> Option<i64> {
    let mut waits: Vec<i64> = jobs.iter().map(|job| laxity(job, slot)).collect();
    waits.sort_unstable();
    waits.dedup();
    // Of equal minima `min_by_key` returns the first, here the least wait.
    waits
        .into_iter()
        .min_by_key(|&wait| excess(jobs, slot, wait))
}

/// The tight set: all racks with wait l* or less.
pub fn tight_set(jobs: &[Job], slot: u32) -> Vec<Job> {
    let tight = match tight_laxity(jobs, slot) {
        Some(wait) => wait,
        None => return Vec::new(),
    };
    let in_set = jobs.iter().filter(|job| laxity(job, slot) <= tight);
    in_set.copied().collect()
}

/// A bit of a grade written in `depth` bits; place 0 is the highest bit.
pub fn bit(grade: u32, depth: u32, place: usize) -> u32 {
    (grade >> (depth - 1 - place as u32)) & 1
}

/// Whether a grade written in `depth` bits starts with these bits.
pub fn starts_with(grade: u32, depth: u32, bits: &[u32]) -> bool {
    let mut places = bits.iter().enumerate();
    places.all(|(place, &wanted)| bit(grade, depth, place) == wanted)
}

/// The racks whose grade starts with these bits.
pub fn group(jobs: &[Job], depth: u32, bits: &[u32]) -> Vec<Job> {
    let in_group = jobs
        .iter()
        .filter(|job| starts_with(job.grade, depth, bits));
    in_group.copied().collect()
}

/// The bits fixed by the first `steps` steps of the search.
pub fn descend(jobs: &[Job], slot: u32, depth: u32, steps: usize) -> Vec<u32> {
    let mut bits = Vec::new();
    while bits.len() < steps {
        let tight = tight_set(&group(jobs, depth, &bits), slot);
        let place = bits.len();
        let has_zero = tight.iter().any(|job| bit(job.grade, depth, place) == 0);
        bits.push(if has_zero { 0 } else { 1 });
    }
    bits
}

/// The tight set of the racks that start with the first `steps` bits of the search.
pub fn tight_after(jobs: &[Job], slot: u32, depth: u32, steps: usize) -> Vec<Job> {
    let bits = descend(jobs, slot, depth, steps);
    tight_set(&group(jobs, depth, &bits), slot)
}

/// The no-regret set: all bits are fixed, so its racks have one grade.
pub fn no_regret_set(jobs: &[Job], slot: u32, depth: u32) -> Vec<Job> {
    tight_after(jobs, slot, depth, depth as usize)
}

/// Of these racks the one with the least last slot, on ties the lowest ticket.
pub fn first_due(mut jobs: Vec<Job>) -> Option<Job> {
    jobs.sort_by_key(|job| (job.deadline, job.ticket));
    jobs.first().copied()
}

/// The rack to bake; none where there are no racks.
pub fn job_to_bake(jobs: &[Job], slot: u32, depth: u32) -> Option<Job> {
    first_due(no_regret_set(jobs, slot, depth))
}
