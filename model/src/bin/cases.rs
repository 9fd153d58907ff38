//! Prints small boards and small books with the model's answers.
//!
//! `cases COUNT SEED` prints COUNT lines of each of three forms, all numbers in
//! decimal, one space between words.
//!
//! `board DEPTH SLOT HIGHEST ; JOB ; ... => TICKET GRADE SHORTFALL ; EXPIRED ; ...`
//! `| LAID ... | PROMISE KEPT ...`
//! is a sound board, its closing with a list that is long enough, and its promise.
//! Before the arrow are the board's depth, slot and highest ticket, then its racks in
//! board order, JOB being `TICKET ADMITTED LAST GRADE`. After it are ticket and grade
//! of the rack baked and the shortfall, 0 0 0 for an empty board, then the racks
//! given up, by grade from best to worst, within a grade by rising ticket, EXPIRED
//! being `TICKET ADMITTED GRADE`. After the first bar are the tickets of a plan that
//! gives up the fewest, one for each slot from the present one on. After the second bar
//! is the least wait that can be promised before the closing, 0 for none, and unless it
//! is 0 the tickets of a plan that bakes a further rack of this wait and every rack on
//! the board, again one for each slot from the present one on, 0 for the further rack.
//! In turn come a board of any racks, one on which each rack is in its last slot, and
//! one whose racks can all be baked and fill the slots up to some wait.
//!
//! `book DEPTH SLOT HIGHEST ; CALL ; CALL ... => ANSWER ; ANSWER ... | STRETCH | ...`
//! is a list of calls on an empty board. CALL is `A TICKET WAIT GRADE`,
//! `B LENTLENGTH` or `W TICKET`. There is one ANSWER a call: `A LASTSLOT`, `R NUMBER`
//! for a refusal, `B TICKET GRADE GIVENUP SHORTFALL` with the number given up and the
//! shortfall, or `W GRADE` with the grade of the rack taken off. Then come the stretches
//! of the list, at least one: each withdrawal that is let through ends one and begins the
//! next. STRETCH is `SLOT HIGHEST ; JOB ; JOB ... ; K0 K1 ...`: the slot, the highest
//! ticket and the racks with which the stretch's day book begins, in order of ticket, JOB
//! being `TICKET ADMITTED LAST GRADE`, and last the most that any plan of that book bakes
//! in its first 0, 1, ... slots, up to the slots closed in the stretch. In turn come a
//! list of any calls, and one with more racks than can be baked and more withdrawals.
//!
//! `withdraw DEPTH SLOT HIGHEST ; JOB ; ... | TICKET => NUMBER GRADE ; JOB ; ...`
//! is a sound board and a withdrawal. Before the bar are depth, slot, highest ticket and
//! racks as above, after it the ticket to withdraw: mostly that of a rack that can be
//! withdrawn, else 0, one that is not on the board, or one admitted in this slot. After
//! the arrow are the number of the refusal, 0 for none, and the grade of the rack taken
//! off, 0 where refused, then the racks on the board afterwards in board order. Now and
//! then the board has closed the book's last slot.

use std::io::{self, BufWriter, Write};

use model::board::{Board, Job};
use model::book::Book;
use model::calls;
use model::cases::{count_and_draw, words};
use model::draw::Draw;
use model::limits::{DEEPEST, MOST_HELD};
use model::list::{self, Answer, Call};
use model::plans;
use model::promise;
use model::samples::{self, Crowd};
use model::shortfall;

/// Of the tickets to withdraw about one in so many cannot be.
const NOT_TO_WITHDRAW: u32 = 8;
/// Most racks of a case's board.
const MOST_RACKS: u32 = 7;
/// The longest wait up to which a case's board fills the slots.
const LONGEST_FILLED: u32 = 6;
/// Most calls of a case's book.
const MOST_CALLS: u32 = 24;

fn main() -> io::Result<()> {
    let (count, mut draw) = count_and_draw("cases");
    let mut output = BufWriter::new(io::stdout().lock());
    for turn in 0..count {
        let board = match turn % 3 {
            0 => samples::board(&mut draw, MOST_RACKS),
            1 => samples::all_due(samples::board(&mut draw, MOST_RACKS)),
            _ => filled_board(&mut draw),
        };
        writeln!(output, "{}", board_case(board))?;
    }
    for turn in 0..count {
        let crowd = match turn % 2 {
            0 => Crowd::drawn(&mut draw, MOST_CALLS),
            _ => Crowd::overfull(&mut draw, MOST_CALLS),
        };
        writeln!(output, "{}", book_case(&mut draw, crowd))?;
    }
    for _ in 0..count {
        writeln!(output, "{}", withdraw_case(&mut draw))?;
    }
    output.flush()
}

/// A board whose racks can all be baked and fill the slots up to some wait.
fn filled_board(draw: &mut Draw) -> Board {
    let slot = samples::slot(draw);
    let wait = draw.between(0, LONGEST_FILLED);
    samples::filled_board(draw, slot, wait, (MOST_RACKS - wait) as usize)
}

/// The depth, slot, highest ticket and racks of a board, after the form's name.
fn board_words(form: &str, board: &Board) -> String {
    let (depth, slot, highest) = (board.depth, board.slot, board.highest_ticket);
    let mut parts = vec![format!("{form} {depth} {slot} {highest}")];
    parts.extend(board.jobs().iter().map(job_words));
    parts.join(" ; ")
}

fn job_words(job: &Job) -> String {
    words(&[job.ticket, job.admitted, job.deadline, job.grade])
}

fn board_case(mut board: Board) -> String {
    let asked = board_words("board", &board);
    let laid = words(&tickets(&shortfall::laid_out(board.jobs(), board.slot)));
    let promised = words(&promise(&board));
    let closed = calls::close(&mut board, MOST_HELD).expect("the board is sound");
    let (ticket, grade, shortfall) = (closed.ticket, closed.grade, closed.shortfall);
    let mut answered = vec![format!("{ticket} {grade} {shortfall}")];
    for job in &closed.expired {
        answered.push(format!("{} {} {}", job.ticket, job.admitted, job.grade));
    }
    let answered = answered.join(" ; ");
    format!("{asked} => {answered} | {laid} | {promised}")
}

/// The promise, and the tickets of a plan that keeps it. There is none for wait 0.
fn promise(board: &Board) -> Vec<u32> {
    let wait = calls::promise(board).expect("the board is sound");
    let plan = promise::plan_with(wait, board.jobs(), board.slot);
    let plan = plan.unwrap_or_default();
    [vec![wait], tickets(&plan)].concat()
}

fn tickets(jobs: &[Job]) -> Vec<u32> {
    jobs.iter().map(|job| job.ticket).collect()
}

fn book_case(draw: &mut Draw, crowd: Crowd) -> String {
    let depth = draw.between(0, DEEPEST);
    let slot = samples::first_slot(draw);
    let highest = samples::highest_ticket(draw);
    let calls = samples::calls(draw, depth, highest, crowd);
    let answers = list::play(&mut Board::holding(depth, slot, highest, &[]), &calls);
    let books = Book::drawn(depth, slot, highest, &calls);
    let mut asked = vec![format!("book {depth} {slot} {highest}")];
    asked.extend(calls.iter().map(call_words));
    let answered: Vec<String> = answers.iter().map(answer_words).collect();
    let stretches: Vec<String> = books.iter().map(stretch_words).collect();
    let (asked, answered) = (asked.join(" ; "), answered.join(" ; "));
    format!("{asked} => {answered} | {}", stretches.join(" | "))
}

/// What a stretch's book begins with, and the most that any plan of it bakes.
fn stretch_words(book: &Book) -> String {
    let (slot, highest) = (book.first_slot, book.first_highest);
    let mut parts = vec![format!("{slot} {highest}")];
    parts.extend(book.first_arrivals.iter().map(job_words));
    parts.push(words(&plans::most_by_slot(book)));
    parts.join(" ; ")
}

fn call_words(call: &Call) -> String {
    match call {
        Call::Admit {
            ticket,
            laxity,
            grade,
        } => format!("A {ticket} {laxity} {grade}"),
        Call::Close { lent } => format!("B {lent}"),
        Call::Withdraw { ticket } => format!("W {ticket}"),
    }
}

fn answer_words(answer: &Answer) -> String {
    match answer {
        Answer::Admitted(deadline) => format!("A {deadline}"),
        Answer::Closed(closed) => {
            let (ticket, grade, shortfall) = (closed.ticket, closed.grade, closed.shortfall);
            let given_up = closed.expired.len();
            format!("B {ticket} {grade} {given_up} {shortfall}")
        }
        Answer::Withdrawn(grade) => format!("W {grade}"),
        Answer::Refused(refusal) => format!("R {}", refusal.number()),
    }
}

fn withdraw_case(draw: &mut Draw) -> String {
    let mut board = samples::any_board(draw, MOST_RACKS);
    let asked = board_words("withdraw", &board);
    let ticket = ticket_to_withdraw(draw, &board);
    let (number, grade) = match calls::withdraw(&mut board, ticket) {
        Ok(grade) => (0, grade),
        Err(refusal) => (refusal.number(), 0),
    };
    let mut answered = vec![format!("{number} {grade}")];
    answered.extend(board.jobs().iter().map(job_words));
    format!("{asked} | {ticket} => {}", answered.join(" ; "))
}

/// Mostly the ticket of a rack that can be withdrawn.
fn ticket_to_withdraw(draw: &mut Draw, board: &Board) -> u32 {
    let can_be = samples::to_withdraw(draw, board);
    match can_be {
        Some(ticket) if !draw.one_in(NOT_TO_WITHDRAW) => ticket,
        _ => samples::not_to_withdraw(draw, board),
    }
}
