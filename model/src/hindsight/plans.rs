//! Plans of a day seen in hindsight, and the most of the first m racks that any plan
//! bakes, found without the choosing: by trying every plan, and by matching.
//!
//! The day is a day book that begins with slot 1, and the racks are its first arrivals.
//! The ticket of a rack is its place in the list, counted from 1.

use super::Window;
use crate::board::Job;
use crate::book::Book;
use crate::limits::LAST_IN_HINDSIGHT;
use crate::plans::{every_plan, most_baked, Plan};

/// The day book of these racks.
pub fn book(windows: &[Window]) -> Book {
    let mut jobs = Vec::new();
    for (place, window) in windows.iter().enumerate() {
        jobs.push(Job {
            ticket: place as u32 + 1,
            admitted: window.first,
            deadline: window.last,
            grade: 0,
        });
    }
    Book::begin_with(0, 1, 0, &jobs)
}

/// The plan that these slot numbers make, one for each rack, 0 for a rack left out; none
/// where two racks have the same slot, or one has a slot that the day has not.
pub fn plan_of(slots: &[u32]) -> Option<Plan> {
    let mut plan = vec![None; LAST_IN_HINDSIGHT as usize];
    for (place, &slot) in slots.iter().enumerate() {
        if slot == 0 {
            continue;
        }
        let given = plan.get_mut(slot as usize - 1)?;
        if given.is_some() {
            return None;
        }
        *given = Some(place as u32 + 1);
    }
    Some(plan)
}

/// How many of the first m racks a plan bakes.
pub fn baked_of_first(plan: &Plan, m: usize) -> usize {
    let tickets = plan.iter().flatten();
    tickets.filter(|&&ticket| ticket as usize <= m).count()
}

/// For every m from 0 on, how many of the first m racks a plan bakes. `racks` is the
/// length of the list.
pub fn baked_by_m(plan: &Plan, racks: usize) -> Vec<usize> {
    (0..=racks).map(|m| baked_of_first(plan, m)).collect()
}

/// Every plan for these racks: each slot up to the last in which one can be baked gets
/// any of them or none. Only for small days.
pub fn every_plan_of(windows: &[Window]) -> Vec<Plan> {
    let last = windows.iter().map(|window| window.last).max();
    every_plan(&book(windows), last.unwrap_or(0) as usize)
}

/// For every m from 0 on, the most of the first m racks that any of these plans bakes.
pub fn most_of(plans: &[Plan], racks: usize) -> Vec<usize> {
    let most = |m| plans.iter().map(|plan| baked_of_first(plan, m)).max();
    (0..=racks).map(|m| most(m).unwrap_or(0)).collect()
}

/// For every m from 0 on, the most of the first m racks that any plan bakes, by trying
/// every plan. Only for small days.
pub fn most_by_trying(windows: &[Window]) -> Vec<usize> {
    most_of(&every_plan_of(windows), windows.len())
}

/// For every m from 0 on, the most of the first m racks that any plan bakes: for each m
/// these racks alone are matched with the slots.
pub fn most_by_matching(windows: &[Window]) -> Vec<usize> {
    let most = |m| most_baked(&book(&windows[..m]), LAST_IN_HINDSIGHT as usize);
    (0..=windows.len()).map(most).collect()
}
