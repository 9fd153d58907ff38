//! A board of the model as the library has it, and the other way a page's closings.

use model::board::{self, Job};
use model::sheet;
use oven::{Board, Figures, Place, Slot};

pub fn board(b: &board::Board) -> Board {
    Board {
        depth: b.depth as u8,
        slot: Slot(b.slot),
        highest: b.highest_ticket,
        count: b.count as usize,
        places: b.places.map(place),
    }
}

fn place(job: Job) -> Place {
    Place {
        ticket: job.ticket,
        admitted: Slot(job.admitted),
        last: Slot(job.deadline),
        grade: job.grade as u8,
    }
}

pub fn figures(closing: Figures) -> sheet::Figures {
    sheet::Figures {
        slot: closing.slot.0,
        ticket: closing.ticket,
        grade: closing.grade,
        given_up: closing.given_up,
    }
}
