//! The program, started, and what it prints as it comes.

use std::io::{Read, Write};
use std::process::{Child, ChildStdin, Command, ExitStatus, Stdio};
use std::sync::mpsc::{self, Receiver};
use std::thread;
use std::time::{Duration, Instant};

/// Longer than any answer takes.
const PATIENCE: Duration = Duration::from_secs(30);

/// Bytes that arrive on another thread, so that waiting for them can end.
pub struct Incoming {
    pieces: Receiver<Vec<u8>>,
    seen: Vec<u8>,
}

impl Incoming {
    pub fn from<R: Read + Send + 'static>(mut source: R) -> Incoming {
        let (sender, pieces) = mpsc::channel();
        thread::spawn(move || {
            let mut piece = [0; 4096];
            while let Ok(n) = source.read(&mut piece) {
                if n == 0 || sender.send(piece[..n].to_vec()).is_err() {
                    return;
                }
            }
        });
        Incoming { pieces, seen: Vec::new() }
    }

    /// Whether so many bytes arrive in time; they are then the next ones, and taken.
    pub fn next(&mut self, expected: &[u8]) -> bool {
        let end = Instant::now() + PATIENCE;
        while self.seen.len() < expected.len() {
            let left = end.saturating_duration_since(Instant::now());
            match self.pieces.recv_timeout(left) {
                Ok(piece) => self.seen.extend(piece),
                Err(_) => return false,
            }
        }
        let rest = self.seen.split_off(expected.len());
        let taken = std::mem::replace(&mut self.seen, rest);
        taken == expected
    }

    /// All that is still to come.
    pub fn rest(&mut self) -> Vec<u8> {
        while let Ok(piece) = self.pieces.recv_timeout(PATIENCE) {
            self.seen.extend(piece);
        }
        std::mem::take(&mut self.seen)
    }
}

/// The program with pipes on all three sides.
pub struct Started {
    child: Child,
    pub stdin: Option<ChildStdin>,
    pub printed: Incoming,
    said: Incoming,
}

impl Started {
    pub fn new(command: &mut Command) -> Started {
        command.stdin(Stdio::piped()).stdout(Stdio::piped()).stderr(Stdio::piped());
        let mut child = command.spawn().expect("the program starts");
        let printed = Incoming::from(child.stdout.take().expect("its output"));
        let said = Incoming::from(child.stderr.take().expect("its errors"));
        let stdin = child.stdin.take();
        Started { child, stdin, printed, said }
    }

    pub fn write(&mut self, bytes: &[u8]) {
        let stdin = self.stdin.as_mut().expect("its input is open");
        stdin.write_all(bytes).and_then(|()| stdin.flush()).expect("it reads");
    }

    /// The input ends; what is left to print, what it said, and its status.
    pub fn end(mut self) -> (Vec<u8>, String, ExitStatus) {
        drop(self.stdin.take());
        let printed = self.printed.rest();
        let said = String::from_utf8(self.said.rest()).expect("text");
        (printed, said, self.child.wait().expect("it ends"))
    }
}

/// The status of a program that ends in time; one that does not is ended.
pub fn ended(child: &mut Child) -> Option<ExitStatus> {
    let end = Instant::now() + PATIENCE;
    while Instant::now() < end {
        if let Some(status) = child.try_wait().expect("it is looked at") {
            return Some(status);
        }
        thread::sleep(Duration::from_millis(5));
    }
    child.kill().and_then(|()| child.wait()).expect("it is ended");
    None
}

/// The output of a command on an input, what it said, and its status.
pub fn whole(command: &mut Command, input: Stdio, output: Stdio) -> (Vec<u8>, String, ExitStatus) {
    command.stdin(input).stdout(output).stderr(Stdio::piped());
    let ended = command.spawn().and_then(Child::wait_with_output).expect("the program runs");
    (ended.stdout, String::from_utf8(ended.stderr).expect("text"), ended.status)
}
