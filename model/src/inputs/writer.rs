//! Writes lines that the program takes.

use crate::board::worst_grade;
use crate::draw::Draw;
use crate::limits::DEEPEST;

/// The bytes so far and what the next good line needs to know.
pub struct Writer {
    pub bytes: Vec<u8>,
    pub depth: u32,
    /// The highest ticket written so far.
    pub highest: u32,
}

impl Writer {
    pub fn new() -> Writer {
        Writer {
            bytes: Vec::new(),
            depth: 0,
            highest: 0,
        }
    }

    /// Adds a line of any bytes.
    pub fn line(&mut self, line: &[u8]) {
        self.bytes.extend_from_slice(line);
        self.bytes.push(b'\n');
    }

    /// Opens a board of this depth.
    pub fn open(&mut self, depth: u32) {
        self.depth = depth;
        self.line(format!("D,{depth}").as_bytes());
    }

    /// Admits a rack under the next ticket, now and then written in other ways.
    pub fn admit(&mut self, draw: &mut Draw, laxity: u32, grade: Option<u32>) {
        self.highest += draw.pick(&[1, 1, 1, 1, 5]);
        let ticket = zeros(draw, self.highest);
        let laxity = zeros(draw, laxity);
        let grade = grade.map_or(String::new(), |grade| zeros(draw, grade));
        self.line(format!("A,{ticket},{laxity},{grade}").as_bytes());
    }

    /// A grade of the open depth, or now and then none.
    pub fn grade(&self, draw: &mut Draw) -> Option<u32> {
        let grade = draw.between(0, worst_grade(self.depth));
        (!draw.one_in(5)).then_some(grade)
    }

    pub fn close(&mut self) {
        self.line(b"B");
    }

    /// Asks what can still be promised.
    pub fn ask(&mut self) {
        self.line(b"Q");
    }

    /// Withdraws the rack with this ticket.
    pub fn withdraw(&mut self, draw: &mut Draw, ticket: u32) {
        let line = withdrawing(draw, ticket);
        self.line(&line);
    }
}

/// A writer that has opened a board of some depth.
pub fn opened(draw: &mut Draw) -> Writer {
    let mut writer = Writer::new();
    writer.open(draw.between(0, DEEPEST));
    writer
}

/// A line that admits; where there is no grade its field is blank.
pub fn admitting(ticket: u64, laxity: u32, grade: Option<u32>) -> Vec<u8> {
    let grade = grade.map_or(String::new(), |grade| grade.to_string());
    format!("A,{ticket},{laxity},{grade}").into_bytes()
}

/// A line that withdraws, now and then written in other ways.
pub fn withdrawing(draw: &mut Draw, ticket: u32) -> Vec<u8> {
    format!("W,{}", zeros(draw, ticket)).into_bytes()
}

/// A number, now and then with leading zeros, in at most ten digits.
pub fn zeros(draw: &mut Draw, number: u32) -> String {
    if !draw.one_in(10) {
        return number.to_string();
    }
    let width = draw.between(1, 10) as usize;
    format!("{number:0width$}")
}
