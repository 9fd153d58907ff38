//! Inputs for the programs, made from a kind, a seed and a size alone.

mod days;
mod full;
mod hindsight_days;
mod lists;
mod pages;
mod promise;
mod questions;
mod spoilt;
mod spoilt_lists;
mod withdrawals;
mod writer;

pub use hindsight_days::HINDSIGHT_DAYS;
pub use lists::LISTS;

use crate::draw::Draw;

/// A kind of input.
#[derive(Clone, Copy)]
pub struct Kind {
    pub name: &'static str,
    /// What it holds, in a few words.
    pub about: &'static str,
    /// The size where none is asked for: slots, or lines where it says so; in a list for
    /// hindsight, racks.
    pub size: u32,
    make: fn(&mut Draw, u32) -> Vec<u8>,
}

/// The kinds of the board's inputs.
pub const KINDS: [Kind; 16] = [
    Kind {
        name: "ordinary",
        about: "ordinary days, about as many racks as slots",
        size: 200,
        make: days::ordinary,
    },
    Kind {
        name: "overfull",
        about: "three to ten racks a slot, many of them given up",
        size: 100,
        make: days::overfull,
    },
    Kind {
        name: "given-up",
        about: "slots that give up many racks of several grades",
        size: 100,
        make: days::given_up,
    },
    Kind {
        name: "refusals",
        about: "every refusal that the program can meet, but 3",
        size: 400,
        make: spoilt::refusals,
    },
    Kind {
        name: "ties",
        about: "many equal waits and grades",
        size: 100,
        make: days::ties,
    },
    Kind {
        name: "tickets",
        about: "tickets near 4294967295",
        size: 40,
        make: days::tickets,
    },
    Kind {
        name: "damaged",
        about: "days with bytes changed, added and taken away",
        size: 100,
        make: spoilt::damaged,
    },
    Kind {
        name: "overlong",
        about: "lines of 39 to 45 bytes and of thousands, size in lines",
        size: 100,
        make: spoilt::overlong,
    },
    Kind {
        name: "tiny",
        about: "a few bytes of a small alphabet, size in bytes at most",
        size: 60,
        make: spoilt::tiny,
    },
    Kind {
        name: "long",
        about: "eight racks in every slot at depth 3",
        size: 1_000,
        make: days::long,
    },
    Kind {
        name: "end",
        about: "the book's last slots and refusal 3; always a million lines",
        size: 50,
        make: days::end,
    },
    Kind {
        name: "mixed",
        about: "days of all sorts with wrong, damaged and overlong lines",
        size: 200,
        make: spoilt::mixed,
    },
    Kind {
        name: "pages",
        about: "so many closings exactly; if they are enough, a slot gives up a full board but one",
        size: 97,
        make: pages::pages,
    },
    Kind {
        name: "shortfall",
        about: "boards about full: a rack fewer than fits, just as many, or a few more",
        size: 100,
        make: full::shortfall,
    },
    Kind {
        name: "promise",
        about: "asks often what can still be promised, and gets every answer",
        size: 100,
        make: promise::promise,
    },
    Kind {
        name: "withdrawals",
        about: "takes racks back often; some withdrawals are refused, for every reason",
        size: 100,
        make: withdrawals::withdrawals,
    },
];

/// Every kind: of the board's inputs, of lists for hindsight, and of days for hindsight.
pub fn every_kind() -> impl Iterator<Item = Kind> {
    let kinds = KINDS.into_iter().chain(LISTS);
    kinds.chain(HINDSIGHT_DAYS)
}

/// The kind with this name.
pub fn find(name: &str) -> Option<Kind> {
    every_kind().find(|kind| kind.name == name)
}

impl Kind {
    /// The input of this kind for a seed, with a size or the kind's own.
    pub fn input(&self, seed: u64, size: Option<u32>) -> Vec<u8> {
        (self.make)(&mut Draw::new(seed), size.unwrap_or(self.size))
    }
}
