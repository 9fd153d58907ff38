//! What the sheet's program prints while its input has not ended: a page as soon as
//! its 48th slot is closed, the last and unfilled one at the end of the input alone.

use std::io::{Read, Write};
use std::ops::RangeInclusive;
use std::process::{Child, ChildStdin, Stdio};
use std::sync::mpsc::{self, Receiver};
use std::thread;
use std::time::{Duration, Instant};

use crate::{compare, run};
use model::sheet::sheet;

/// Bytes of a page.
const PAGE: usize = 1250;
/// Longer than a page takes.
const PATIENCE: Duration = Duration::from_secs(30);
/// In this time a page that comes too early is seen.
const MOMENT: Duration = Duration::from_millis(100);

/// A part of the day, and how many pages are printed once it is written.
struct Step {
    name: &'static str,
    bytes: String,
    pages: usize,
}

fn step(name: &'static str, bytes: String, pages: usize) -> Step {
    Step { name, bytes, pages }
}

/// The lines of these slots, a rack in each.
fn slots(numbers: RangeInclusive<u32>) -> String {
    numbers.map(|slot| format!("A,{slot},1,0\nB\n")).collect()
}

/// A day of 98 closings; the last line has no end.
fn day() -> Vec<Step> {
    vec![
        step("no slot", "B\nD,1\n".to_string(), 0),
        step("47 slots", slots(1..=47), 0),
        step("the 48th, its line not ended", "x\nB".to_string(), 0),
        step("48 slots", "\n".to_string(), 1),
        step("refused lines", "D,1\n\nb\n".to_string(), 1),
        step("95 slots", slots(49..=95), 1),
        step("96 slots", slots(96..=96), 2),
        step("97 slots", slots(97..=97), 2),
        step("the 98th, its line not ended", "B".to_string(), 2),
    ]
}

/// Each step, and the first line at which what is printed by then differs. After one
/// that differs no other is right.
pub fn steps(binary: &str) -> Vec<(&'static str, Option<usize>)> {
    let day = day();
    let bytes: String = day.iter().map(|step| &step.bytes[..]).collect();
    let whole = sheet(bytes.as_bytes());
    let mut started = Started::new(binary);
    let mut answers = Vec::new();
    let mut wrong = None;
    for step in day {
        started.write(step.bytes.as_bytes());
        let expected = &whole[..step.pages * PAGE];
        wrong = wrong.or_else(|| compare::difference(started.printed(expected.len()), expected));
        answers.push((step.name, wrong));
    }
    let printed = started.end();
    answers.push((
        "the end",
        wrong.or_else(|| compare::difference(&printed, &whole)),
    ));
    answers
}

/// The program, started, and what it has printed so far.
struct Started {
    child: Child,
    stdin: ChildStdin,
    pieces: Receiver<Vec<u8>>,
    printed: Vec<u8>,
}

impl Started {
    fn new(binary: &str) -> Started {
        let mut child = run::started(binary, Stdio::piped());
        Started {
            stdin: child.stdin.take().expect("a pipe to the program"),
            pieces: pieces(child.stdout.take().expect("a pipe from the program")),
            child,
            printed: Vec::new(),
        }
    }

    fn write(&mut self, bytes: &[u8]) {
        let written = self.stdin.write_all(bytes);
        written
            .and_then(|()| self.stdin.flush())
            .expect("the program reads");
    }

    /// What is printed once so many bytes have come and a moment has passed.
    fn printed(&mut self, bytes: usize) -> &[u8] {
        let end = Instant::now() + PATIENCE;
        while self.printed.len() < bytes {
            let left = end.saturating_duration_since(Instant::now());
            match self.pieces.recv_timeout(left) {
                Ok(piece) => self.printed.extend(piece),
                Err(_) => return &self.printed,
            }
        }
        while let Ok(piece) = self.pieces.recv_timeout(MOMENT) {
            self.printed.extend(piece);
        }
        &self.printed
    }

    /// All that is printed once the input has ended.
    fn end(mut self) -> Vec<u8> {
        drop(self.stdin);
        self.printed.extend(self.pieces.iter().flatten());
        run::ended(self.child);
        self.printed
    }
}

/// Bytes as they come, read on another thread, so that waiting for them can end.
fn pieces<R: Read + Send + 'static>(mut source: R) -> Receiver<Vec<u8>> {
    let (sender, pieces) = mpsc::channel();
    thread::spawn(move || {
        let mut piece = [0; 4096];
        while let Ok(length) = source.read(&mut piece) {
            if length == 0 || sender.send(piece[..length].to_vec()).is_err() {
                return;
            }
        }
    });
    pieces
}
