//! Running the program.

use std::env;
use std::fs::{self, File};
use std::io::{Read, Write};
use std::process::{Child, Command, Stdio};
use std::thread;

/// What the program prints on an input: read from a file, so that every read but the last fills the program's buffer, or, where a number of
/// bytes is given, written to it in pieces of so many.
pub fn program(binary: &str, input: &[u8], piece: usize) -> Vec<u8> {
    if piece == 0 {
        from_file(binary, input)
    } else {
        in_pieces(binary, input, piece)
    }
}

/// The program, started, with its output in a pipe.
pub fn started(binary: &str, stdin: Stdio) -> Child {
    let mut command = Command::new(binary);
    command.stdin(stdin).stdout(Stdio::piped());
    command.spawn().expect("the program starts")
}

/// All that the program prints until it ends.
fn printed(mut child: Child) -> Vec<u8> {
    let mut stdout = child.stdout.take().expect("a pipe from the program");
    let mut printed = Vec::new();
    stdout
        .read_to_end(&mut printed)
        .expect("the program's output");
    ended(child);
    printed
}

/// The program ends, and well.
pub fn ended(mut child: Child) {
    let status = child.wait().expect("the program ends");
    assert!(status.success(), "the program ended with {status}");
}

fn from_file(binary: &str, input: &[u8]) -> Vec<u8> {
    let path = env::temp_dir().join(format!("oven-day-{}", std::process::id()));
    fs::write(&path, input).expect("a file for the input");
    let file = File::open(&path).expect("the input");
    let output = printed(started(binary, Stdio::from(file)));
    fs::remove_file(&path).expect("the file goes");
    output
}

fn in_pieces(binary: &str, input: &[u8], piece: usize) -> Vec<u8> {
    let mut child = started(binary, Stdio::piped());
    let mut stdin = child.stdin.take().expect("a pipe to the program");
    let input = input.to_vec();
    let writer = thread::spawn(move || {
        for part in input.chunks(piece) {
            if stdin.write_all(part).and_then(|()| stdin.flush()).is_err() {
                return;
            }
        }
    });
    let output = printed(child);
    writer.join().expect("the writer ends");
    output
}
