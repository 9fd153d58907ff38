//! Reads and writes that fail, or that fail for a moment.

use crate::days::Program;
use crate::started::{whole, Started};
use crate::system;
use std::env;
use std::fs::{self, File, OpenOptions};
use std::io::Write;
use std::os::unix::io::AsRawFd;
use std::path::PathBuf;
use std::process::{Command, ExitStatus, Stdio};

fn failed(program: &Program, said: &str, what: &str, status: ExitStatus) -> bool {
    said == format!("{}: {what}\n", program.name) && status.code() == Some(1)
}

/// A file of this name for a test, and its path.
fn scratch(name: &str, bytes: &[u8]) -> PathBuf {
    let path = env::temp_dir().join(format!("oven-shop-{}-{name}", std::process::id()));
    fs::write(&path, bytes).expect("a file for the test");
    path
}

/// The program as a shell starts it after these words.
fn after(words: &str, program: &Program) -> Command {
    let mut command = Command::new("sh");
    command.args(["-c", &format!("{words}; exec \"$1\""), "sh", &program.binary]);
    command
}

/// A full disk: said in one line, and no more is read.
pub fn full_disk(program: &Program) -> bool {
    let full = OpenOptions::new().write(true).open("/dev/full").expect("/dev/full");
    let mut command = Command::new(&program.binary);
    let mut child = command.stdin(Stdio::piped()).stdout(Stdio::from(full)).stderr(Stdio::piped()).spawn().expect("the program starts");
    let mut stdin = child.stdin.take().expect("its input");
    // something to print, and then more than any pipe holds: a program that goes on reading takes them all
    let printing = (program.empty_slots)(48).lines();
    let stopped = stdin.write_all(&printing).is_err() || (0..1_000_000).any(|_| stdin.write_all(b"D,1\n").is_err());
    drop(stdin);
    let ended = child.wait_with_output().expect("it ends");
    let said = String::from_utf8(ended.stderr).expect("text");
    stopped && failed(program, &said, "cannot write standard output: No space left on device", ended.status)
}

/// A reader that is gone: said, and the same whether whoever starts the program ignores that signal or not, since the program itself ignores it.
pub fn closed_pipe(program: &Program, ignored: bool) -> bool {
    let (out, into) = system::pipe();
    drop(out);
    let day = scratch("closed", &(program.empty_slots)(9).lines());
    let input = Stdio::from(File::open(&day).expect("the day"));
    let mut command = if ignored { after("trap '' PIPE", program) } else { Command::new(&program.binary) };
    let (_, said, status) = whole(&mut command, input, Stdio::from(into));
    fs::remove_file(day).expect("the file goes");
    failed(program, &said, "cannot write standard output: Broken pipe", status)
}

/// A limit on a file's size: what is written is the beginning of the output, and no line stands in another.
pub fn file_limit(program: &Program) -> bool {
    let day = (program.empty_slots)(9_000);
    let expected = day.printed();
    let (day, output) = (scratch("limit", &day.lines()), scratch("limited", b""));
    let input = Stdio::from(File::open(&day).expect("the day"));
    let into = Stdio::from(File::create(&output).expect("the output"));
    let (_, said, status) = whole(&mut after("trap '' XFSZ; ulimit -f 8", program), input, into);
    let written = fs::read(&output).expect("what was written");
    fs::remove_file(day).and_then(|()| fs::remove_file(output)).expect("the files go");
    failed(program, &said, "cannot write standard output: File too large", status)
        && !written.is_empty()
        && written.len() < expected.len()
        && expected.starts_with(&written)
}

/// A read that fails at once: nothing is printed.
pub fn directory(program: &Program) -> bool {
    let input = Stdio::from(File::open("/").expect("a folder"));
    let (printed, said, status) = whole(&mut Command::new(&program.binary), input, Stdio::piped());
    printed.is_empty() && failed(program, &said, "cannot read standard input: Is a directory", status)
}

/// A read that fails in the middle of a line: the line that has begun is not answered, and what comes at the end of a day is not printed.
pub fn broken_off(program: &Program) -> bool {
    let (seat, name) = system::terminal();
    let mut other = OpenOptions::new().read(true).write(true).open(name).expect("the terminal");
    system::make_raw(other.as_raw_fd());
    other.write_all(&[program.sample.lines(), b"B".to_vec()].concat()).expect("the terminal takes bytes");
    // the program reads the seat's side, which fails once the other side is closed
    let mut command = Command::new(&program.binary);
    command.stdin(Stdio::from(seat)).stdout(Stdio::piped()).stderr(Stdio::piped());
    let child = command.spawn().expect("the program starts");
    drop(command);
    drop(other);
    let ended = child.wait_with_output().expect("it ends");
    let said = String::from_utf8(ended.stderr).expect("text");
    ended.stdout == program.sample.begun() && failed(program, &said, "cannot read standard input: Input/output error", ended.status)
}

/// Reads and writes that are interrupted, would block, and move a few bytes at a time: nothing of it shows.
pub fn disturbed(program: &Program, fault: &str) -> bool {
    let day = scratch("disturbed", &program.sample.lines());
    let input = Stdio::from(File::open(&day).expect("the day"));
    let mut command = Command::new(&program.binary);
    command.env("LD_PRELOAD", fault);
    let (printed, said, status) = whole(&mut command, input, Stdio::piped());
    fs::remove_file(day).expect("the file goes");
    printed == program.sample.printed() && said.is_empty() && status.code() == Some(0)
}

/// Refused lines end no program; no bytes are no day; an argument is an error.
pub fn statuses(program: &Program) -> bool {
    let mut refused = Started::new(&mut Command::new(&program.binary));
    refused.write(b"B\nhello\n\n");
    let (printed, said, status) = refused.end();
    let answered = printed == program.refused.as_bytes() && said.is_empty() && status.code() == Some(0);
    let (printed, said, status) = Started::new(&mut Command::new(&program.binary)).end();
    let nothing = printed.is_empty() && said.is_empty() && status.code() == Some(0);
    let (printed, said, status) = Started::new(Command::new(&program.binary).arg("day.txt")).end();
    let wrong = format!("{}: takes no arguments; it reads a day on standard input\n", program.name);
    let argument = printed.is_empty() && said == wrong && status.code() == Some(2);
    answered && nothing && argument
}
