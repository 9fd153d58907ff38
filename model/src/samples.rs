//! Small random sound boards, small random lists of calls, and tickets to withdraw.

use crate::board::{Board, Job};
use crate::draw::Draw;
use crate::limits::{DEEPEST, LAST_SLOT, LONGEST_LAXITY, MOST_HELD, MOST_PER_SLOT};
use crate::list::{self, Call};
use crate::rule;

/// A slot in which a call can pass row 3: often near either end of a book.
pub fn slot(draw: &mut Draw) -> u32 {
    match draw.between(0, 3) {
        0 => draw.between(1, 4),
        1 => draw.between(1, 40),
        2 => draw.between(LAST_SLOT - 4, LAST_SLOT),
        _ => draw.between(1, LAST_SLOT),
    }
}

/// Any slot that is sound, the one past the book's end too.
pub fn first_slot(draw: &mut Draw) -> u32 {
    if draw.one_in(30) {
        return LAST_SLOT + 1;
    }
    slot(draw)
}

/// A highest ticket: small, anything, or near the greatest number.
pub fn highest_ticket(draw: &mut Draw) -> u32 {
    match draw.between(0, 3) {
        0 => 0,
        1 => draw.between(0, 50),
        2 => draw.between(0, u32::MAX),
        _ => draw.between(u32::MAX - 40, u32::MAX),
    }
}

/// A sound board with up to `most` racks, in a slot before the book's end.
pub fn board(draw: &mut Draw, most: u32) -> Board {
    board_in(draw, slot, most)
}

/// `board` in any slot that is sound, the one past the book's end too.
pub fn any_board(draw: &mut Draw, most: u32) -> Board {
    board_in(draw, first_slot, most)
}

fn board_in(draw: &mut Draw, slot: fn(&mut Draw) -> u32, most: u32) -> Board {
    let depth = draw.between(0, DEEPEST);
    let slot = slot(draw);
    let many = draw.between(0, most) as usize;
    let jobs = jobs(draw, depth, slot, many);
    let last_ticket = jobs.last().map_or(0, |job| job.ticket);
    let room = u32::MAX - last_ticket;
    let highest = match draw.between(0, 2) {
        0 => last_ticket,
        1 => last_ticket + draw.between(0, room.min(9)),
        _ => last_ticket + draw.between(0, room),
    };
    Board::holding(depth, slot, highest, &jobs)
}

/// Racks that make a sound board in this slot, as many as asked for. In an early
/// slot fewer fit, as a slot admits only eight.
pub fn jobs(draw: &mut Draw, depth: u32, slot: u32, many: usize) -> Vec<Job> {
    let oldest = slot.saturating_sub(LONGEST_LAXITY - 1).max(1);
    let farthest = draw.pick(&[0, 1, 2, 3, 5, 8, LONGEST_LAXITY]);
    let mut ticket = first_ticket(draw);
    let mut jobs = Vec::new();
    for admitted in admitted_slots(draw, oldest, slot, many) {
        let latest = (admitted + LONGEST_LAXITY - 1).min(slot + farthest);
        jobs.push(Job {
            ticket,
            admitted,
            deadline: draw.between(slot, latest),
            grade: draw.between(0, (1 << depth) - 1),
        });
        ticket += draw.pick(&[1, 1, 1, 2, 100]);
    }
    jobs
}

/// A first ticket that leaves room for a full board above it.
fn first_ticket(draw: &mut Draw) -> u32 {
    let room = 100 * MOST_HELD as u32;
    match draw.between(0, 2) {
        0 => 1,
        1 => draw.between(1, 50),
        _ => draw.between(1, u32::MAX - room),
    }
}

/// Admitted slots in order, none of them more than eight times.
fn admitted_slots(draw: &mut Draw, oldest: u32, newest: u32, many: usize) -> Vec<u32> {
    let mut slots: Vec<u32> = Vec::new();
    for _ in 0..many {
        let slot = draw.between(oldest, newest);
        let taken = slots.iter().filter(|&&other| other == slot).count();
        if taken < MOST_PER_SLOT {
            slots.push(slot);
        }
    }
    slots.sort_unstable();
    slots
}

/// The full board of this slot: eight racks from each of the last slots, as many slots as
/// the longest wait has. The slot's number must be at least that wait.
pub fn full_board(draw: &mut Draw, slot: u32) -> Board {
    let depth = draw.between(0, DEEPEST);
    let mut jobs = Vec::new();
    for admitted in slot + 1 - LONGEST_LAXITY..=slot {
        for _ in 0..MOST_PER_SLOT {
            jobs.push(Job {
                ticket: jobs.len() as u32 + 1,
                admitted,
                deadline: draw.between(slot, admitted + LONGEST_LAXITY - 1),
                grade: draw.between(0, (1 << depth) - 1),
            });
        }
    }
    Board::holding(depth, slot, jobs.len() as u32, &jobs)
}

/// A sound board whose racks can all be baked: one for each slot up to this wait, due by
/// the last of them, and at most so many for later slots. The slot after this wait stays
/// free, so the next wait can be promised, and no shorter one. At the longest wait the
/// day is sold out, though no rack is lost. Eight a slot must be enough for all racks.
pub fn filled_board(draw: &mut Draw, slot: u32, wait: u32, later: usize) -> Board {
    let depth = draw.between(0, DEEPEST);
    let after = (wait + 2..=LONGEST_LAXITY).filter(|_| draw.one_in(3));
    let after: Vec<u32> = after.take(later).collect();
    let mut jobs = Vec::new();
    // Those with the fewest admitted slots to choose from come first.
    for own in after.into_iter().rev() {
        jobs.push(with_own_slot(draw, &jobs, slot, (own, LONGEST_LAXITY)));
    }
    for own in (1..=wait).rev() {
        jobs.push(with_own_slot(draw, &jobs, slot, (own, wait)));
    }
    jobs.sort_by_key(|job| job.admitted);
    for (place, job) in jobs.iter_mut().enumerate() {
        job.ticket = place as u32 + 1;
        job.grade = draw.between(0, (1 << depth) - 1);
    }
    Board::holding(depth, slot, jobs.len() as u32, &jobs)
}

/// A rack that can have its own slot: its wait is from `own` to `longest`. It was
/// admitted in a slot with fewer than eight of these racks.
fn with_own_slot(draw: &mut Draw, jobs: &[Job], slot: u32, (own, longest): (u32, u32)) -> Job {
    let oldest = (slot + own).saturating_sub(LONGEST_LAXITY).max(1);
    let has_room = |admitted: &u32| {
        let alike = jobs.iter().filter(|job| job.admitted == *admitted);
        alike.count() < MOST_PER_SLOT
    };
    let admitted: Vec<u32> = (oldest..=slot).filter(has_room).collect();
    let admitted = draw.pick(&admitted);
    let latest = (admitted + LONGEST_LAXITY - 1).min(slot + longest - 1);
    Job {
        admitted,
        deadline: draw.between(slot + own - 1, latest),
        ..Job::default()
    }
}

/// The same board with every rack in its last slot, so that closing gives up all but one.
pub fn all_due(mut board: Board) -> Board {
    let held = board.held();
    for job in &mut board.places[..held] {
        job.deadline = board.slot;
    }
    board
}

/// The ticket of a rack that can be withdrawn, if there is one: it was admitted before
/// this slot. Half of the time it is the rack that the rule bakes next, so that another
/// one is baked in its place.
pub fn to_withdraw(draw: &mut Draw, board: &Board) -> Option<u32> {
    let is_earlier = |job: &Job| job.admitted < board.slot;
    let next = rule::job_to_bake(board.jobs(), board.slot, board.depth);
    if let Some(next) = next.filter(is_earlier) {
        if draw.one_in(2) {
            return Some(next.ticket);
        }
    }
    let mut earlier = board.jobs().to_vec();
    earlier.retain(is_earlier);
    if earlier.is_empty() {
        return None;
    }
    Some(draw.pick(&earlier).ticket)
}

/// A ticket that cannot be withdrawn: 0, one that is not on the board, or one that was
/// admitted in this slot, where there is such a rack.
pub fn not_to_withdraw(draw: &mut Draw, board: &Board) -> u32 {
    let highest = board.highest_ticket;
    let near = highest.saturating_add(draw.between(0, 2));
    let any = draw.between(0, highest);
    let mut tickets = vec![0, near, any, u32::MAX];
    tickets.retain(|&ticket| board.jobs().iter().all(|job| job.ticket != ticket));
    tickets.extend(admitted_now(board));
    draw.pick(&tickets)
}

/// The tickets on the board that were admitted in this slot.
pub fn admitted_now(board: &Board) -> Vec<u32> {
    let now = board.jobs().iter().filter(|job| job.admitted == board.slot);
    now.map(|job| job.ticket).collect()
}

/// How crowded a list of calls is, and which of its calls are refused.
#[derive(Clone, Copy, Debug)]
pub struct Crowd {
    /// Number of calls.
    pub calls: u32,
    /// About one call in so many is a closing.
    pub closing: u32,
    /// About one of the other calls in so many is a withdrawal, if a rack can be
    /// withdrawn.
    pub withdrawing: u32,
    /// Waits asked for are mostly 1 to this.
    pub longest: u32,
    /// About one argument in so many is out of range.
    pub wrong: u32,
}

impl Crowd {
    /// A random small crowd with at most this many calls.
    pub fn drawn(draw: &mut Draw, most_calls: u32) -> Crowd {
        Crowd {
            calls: draw.between(1, most_calls),
            closing: draw.pick(&[2, 2, 3, 4, 9]),
            withdrawing: draw.pick(&[2, 3, 6, 20]),
            longest: draw.pick(&[1, 2, 3, 4, 6, LONGEST_LAXITY]),
            wrong: draw.pick(&[5, 20, 100]),
        }
    }

    /// A random crowd with more racks than can be baked, from which racks are often
    /// withdrawn. It has at most this many calls, and at least half of them.
    pub fn overfull(draw: &mut Draw, most_calls: u32) -> Crowd {
        Crowd {
            calls: draw.between(most_calls / 2, most_calls),
            closing: draw.pick(&[3, 4]),
            withdrawing: draw.pick(&[3, 4, 6]),
            longest: draw.pick(&[3, 4, 6, LONGEST_LAXITY]),
            wrong: draw.pick(&[20, 100]),
        }
    }
}

/// A list of calls for an empty board with this depth and highest ticket, in any slot.
pub fn calls(draw: &mut Draw, depth: u32, highest: u32, crowd: Crowd) -> Vec<Call> {
    // The board as the calls leave it where the book's end is far.
    let mut board = Board::holding(depth, 1, highest, &[]);
    let mut highest = highest;
    let mut calls = Vec::new();
    for _ in 0..crowd.calls {
        let call = call(draw, &board, highest, crowd);
        if let Call::Admit { ticket, .. } = call {
            highest = highest.max(ticket);
        }
        list::play(&mut board, &[call]);
        calls.push(call);
    }
    calls
}

/// A call for this board. `highest` is the highest ticket asked for so far.
fn call(draw: &mut Draw, board: &Board, highest: u32, crowd: Crowd) -> Call {
    if draw.one_in(crowd.closing) {
        let lent = closing_list(draw, crowd.wrong);
        return Call::Close { lent };
    }
    if draw.one_in(crowd.withdrawing) {
        if let Some(ticket) = withdrawn_ticket(draw, board, crowd.wrong) {
            return Call::Withdraw { ticket };
        }
    }
    Call::Admit {
        ticket: ticket(draw, highest, crowd.wrong),
        laxity: laxity(draw, crowd),
        grade: grade(draw, board.depth, crowd.wrong),
    }
}

/// A ticket to withdraw; none where no rack can be withdrawn, but for a wrong one.
fn withdrawn_ticket(draw: &mut Draw, board: &Board, wrong: u32) -> Option<u32> {
    if draw.one_in(wrong) {
        return Some(not_to_withdraw(draw, board));
    }
    to_withdraw(draw, board)
}

fn closing_list(draw: &mut Draw, wrong: u32) -> usize {
    if draw.one_in(wrong) {
        return draw.pick(&[0, 1, MOST_HELD - 1]);
    }
    draw.pick(&[MOST_HELD, MOST_HELD, MOST_HELD + 1, 10 * MOST_HELD])
}

fn ticket(draw: &mut Draw, highest: u32, wrong: u32) -> u32 {
    if draw.one_in(wrong) {
        return draw.pick(&[0, highest, highest.saturating_sub(1)]);
    }
    highest.saturating_add(draw.pick(&[1, 1, 2, 7]))
}

fn laxity(draw: &mut Draw, crowd: Crowd) -> u32 {
    if draw.one_in(crowd.wrong) {
        let too_long = too_long_laxity(draw);
        return draw.pick(&[0, LONGEST_LAXITY, too_long, u32::MAX]);
    }
    draw.between(1, crowd.longest)
}

/// A wait that is longer than the longest one: half of the time by one slot, else by any
/// number up to twice as long.
pub fn too_long_laxity(draw: &mut Draw) -> u32 {
    let more = draw.between(1, LONGEST_LAXITY);
    LONGEST_LAXITY + draw.pick(&[1, more])
}

fn grade(draw: &mut Draw, depth: u32, wrong: u32) -> u32 {
    let grades = 1 << depth;
    if draw.one_in(wrong) {
        return draw.pick(&[grades, grades + 1, u32::MAX]);
    }
    draw.between(0, grades - 1)
}
