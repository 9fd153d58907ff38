//! Plans of a day book, and the most that any plan bakes.
//!
//! A book is that of one stretch, and k counts its slots from its own first one on.

use crate::board::Job;
use crate::book::Book;
use crate::list::Answer;

/// For each slot from the book's first on, the ticket of its rack or none.
pub type Plan = Vec<Option<u32>>;

/// Whether a rack may be given this slot: from its admitted slot to its last.
fn may_have(job: &Job, slot: u32) -> bool {
    job.admitted <= slot && slot <= job.deadline
}

/// Whether this is a plan of the book: racks of the book only, each in a slot
/// that it may have, and none in two slots.
pub fn is_plan(book: &Book, plan: &Plan) -> bool {
    let mut seen: Vec<u32> = Vec::new();
    for (index, given) in plan.iter().enumerate() {
        let slot = book.first_slot + index as u32;
        if let Some(ticket) = *given {
            let fits = book.job(ticket).map_or(false, |job| may_have(job, slot));
            if !fits || seen.contains(&ticket) {
                return false;
            }
            seen.push(ticket);
        }
    }
    true
}

/// The plan that a board's answers make in one stretch: a closing's rack, or none for
/// 'empty'.
pub fn plan_of(answers: &[Answer]) -> Plan {
    let mut plan = Plan::new();
    for answer in answers {
        if let Answer::Closed(closed) = answer {
            let empty = closed.ticket == 0;
            plan.push(if empty { None } else { Some(closed.ticket) });
        }
    }
    plan
}

/// The plans that a board's answers make, one for each stretch: a withdrawal that is
/// let through ends a stretch and begins the next.
pub fn plans_of(answers: &[Answer]) -> Vec<Plan> {
    let stretches = answers.split(|answer| matches!(answer, Answer::Withdrawn(_)));
    stretches.map(plan_of).collect()
}

/// What a plan bakes in the first k slots.
pub fn baked(plan: &Plan, k: usize) -> usize {
    let first = plan.iter().take(k);
    first.filter(|given| given.is_some()).count()
}

/// The racks that a plan bakes in the first k slots and whose grade starts so.
pub fn baked_starting(book: &Book, plan: &Plan, k: usize, bits: &[u32]) -> usize {
    let tickets = plan.iter().take(k).flatten();
    let jobs = tickets.filter_map(|ticket| book.job(*ticket));
    let starting = jobs.filter(|job| crate::rule::starts_with(job.grade, book.depth, bits));
    starting.count()
}

/// The most that any plan bakes in the first k slots, found by matching slots
/// with racks: each slot in turn looks for an augmenting path.
pub fn most_baked(book: &Book, k: usize) -> usize {
    let mut slot_of: Vec<Option<u32>> = vec![None; book.jobs.len()];
    let mut found = 0;
    for index in 0..k {
        let slot = book.first_slot + index as u32;
        let mut asked = vec![false; book.jobs.len()];
        if find_job(book, slot, &mut slot_of, &mut asked) {
            found += 1;
        }
    }
    found
}

/// Finds a rack for the slot: a free one, or one whose slot can find another.
fn find_job(book: &Book, slot: u32, slot_of: &mut [Option<u32>], asked: &mut [bool]) -> bool {
    for index in 0..book.jobs.len() {
        if asked[index] || !may_have(&book.jobs[index], slot) {
            continue;
        }
        asked[index] = true;
        let free = match slot_of[index] {
            None => true,
            Some(other) => find_job(book, other, slot_of, asked),
        };
        if free {
            slot_of[index] = Some(slot);
            return true;
        }
    }
    false
}

/// Every plan for the first k slots. Only for tiny books.
pub fn every_plan(book: &Book, k: usize) -> Vec<Plan> {
    let mut plans = vec![Plan::new()];
    for index in 0..k {
        let slot = book.first_slot + index as u32;
        let mut longer = Vec::new();
        for plan in &plans {
            longer.push(with_next(plan, None));
            for job in &book.jobs {
                if may_have(job, slot) && !plan.contains(&Some(job.ticket)) {
                    longer.push(with_next(plan, Some(job.ticket)));
                }
            }
        }
        plans = longer;
    }
    plans
}

fn with_next(plan: &Plan, given: Option<u32>) -> Plan {
    let mut longer = plan.clone();
    longer.push(given);
    longer
}

/// The most that any plan bakes in the first k slots, by trying every plan.
pub fn most_baked_by_trying(book: &Book, k: usize) -> usize {
    let plans = every_plan(book, k);
    let counts = plans.iter().map(|plan| baked(plan, k));
    counts.max().unwrap_or(0)
}

/// The most that any plan bakes in the first 0, 1, 2, ... slots, up to the closed.
pub fn most_by_slot(book: &Book) -> Vec<usize> {
    (0..=book.closed()).map(|k| most_baked(book, k)).collect()
}

/// Whether no plan bakes more than this one in the first k slots, for every k.
pub fn is_unbeaten(book: &Book, plan: &Plan) -> bool {
    let most = most_by_slot(book);
    let mut by_slot = most.iter().enumerate();
    by_slot.all(|(k, &most)| baked(plan, k) == most)
}
