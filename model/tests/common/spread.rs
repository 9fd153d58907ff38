//! How often each answer to a question was given.

use std::collections::BTreeMap;

use model::board::Job;
use model::shortfall::least_given_up;

/// How many promises there were of each wait. Those of 0 are counted apart where no
/// rack is lost: the day is sold out up to the longest wait.
#[derive(Debug, Default)]
pub struct Spread {
    waits: BTreeMap<u32, usize>,
    pub sold_out: usize,
}

impl Spread {
    /// Takes in the promise of a wait beside these racks.
    pub fn count(&mut self, wait: u32, jobs: &[Job], slot: u32) {
        if wait == 0 && least_given_up(jobs, slot) == 0 {
            self.sold_out += 1;
        } else {
            *self.waits.entry(wait).or_default() += 1;
        }
    }

    /// How many there were of a wait; of 0, how many where racks are lost.
    pub fn of(&self, wait: u32) -> usize {
        self.waits.get(&wait).copied().unwrap_or(0)
    }

    /// The least of these counts, of the waits up to this one.
    pub fn rarest(&self, longest: u32) -> usize {
        let counts = (0..=longest).map(|wait| self.of(wait));
        counts.chain([self.sold_out]).min().unwrap_or(0)
    }
}
