//! A till writes a piece of its day and waits for what is printed of it; a terminal; a reader or a writer that is slow and never waits.

use crate::days::{Day, Program};
use crate::started::{ended, whole, Incoming, Started};
use crate::system;
use std::fs::OpenOptions;
use std::io::{Read, Write};
use std::os::unix::io::AsRawFd;
use std::process::{Command, Stdio};
use std::thread;
use std::time::Duration;

/// What a piece of the day prints is there before the next piece is written, and the rest at the end.
pub fn piece_by_piece(program: &Program, day: &Day) -> bool {
    let mut till = Started::new(&mut Command::new(&program.binary));
    for (lines, printed) in &day.pieces {
        till.write(lines.as_bytes());
        if !till.printed.next(printed.as_bytes()) {
            return false;
        }
    }
    let (rest, said, status) = till.end();
    rest == day.end.as_bytes() && said.is_empty() && status.code() == Some(0)
}

/// At a terminal the same, and the end is ^D. Asked by `kill`, ^C ends it, and what was printed stands.
pub fn terminal(program: &Program, kill: bool) -> bool {
    let (mut seat, name) = system::terminal();
    let side = || OpenOptions::new().read(true).write(true).open(&name).expect("the terminal");
    // open to the end, so that the terminal shows all that it has to when the program is gone
    let _held = side();
    let mut command = Command::new(&program.binary);
    command.stdin(Stdio::from(side())).stdout(Stdio::from(side())).stderr(Stdio::from(side()));
    system::at_the_terminal(&mut command);
    let mut child = command.spawn().expect("the program starts");
    drop(command);
    let mut screen = Incoming::from(seat.try_clone().expect("the seat"));
    let mut typed = |keys: &str, shown: &str| {
        seat.write_all(keys.as_bytes()).expect("the terminal takes keys");
        screen.next(shown.replace('\n', "\r\n").as_bytes())
    };
    let day = &program.sample;
    let (key, shown) = if kill { ("\x03", "^C") } else { ("\x04", &day.end[..]) };
    let well = day.pieces.iter().all(|(lines, printed)| typed(lines, &format!("{lines}{printed}"))) && typed(key, shown);
    if !well {
        child.kill().expect("it is ended");
    }
    let status = ended(&mut child).map(|status| status.code());
    well && status == Some(if kill { None } else { Some(0) })
}

/// The output is a pipe that does not wait, and its reader is slow: every byte arrives, in order.
pub fn nonblocking_reader(program: &Program) -> bool {
    let day = (program.empty_slots)(30_000);
    let lines = day.lines();
    let (mut out, into) = system::pipe();
    system::make_nonblocking(into.as_raw_fd());
    let mut command = Command::new(&program.binary);
    let mut child = command.stdin(Stdio::piped()).stdout(Stdio::from(into)).spawn().expect("the program starts");
    drop(command);
    let mut stdin = child.stdin.take().expect("its input");
    let writer = thread::spawn(move || stdin.write_all(&lines));
    let mut printed: Vec<u8> = Vec::new();
    let mut piece = [0; 3_000];
    loop {
        match out.read(&mut piece).expect("the pipe is read") {
            0 => break,
            n => printed.extend(&piece[..n]),
        }
        thread::sleep(Duration::from_millis(1));
    }
    writer.join().expect("the writer ends").expect("all is written");
    printed == day.printed() && child.wait().expect("it ends").code() == Some(0)
}

/// The input is a pipe that does not wait, and its writer is slow.
pub fn nonblocking_writer(program: &Program) -> bool {
    let (out, mut into) = system::pipe();
    system::make_nonblocking(out.as_raw_fd());
    let lines = program.sample.lines();
    let writer = thread::spawn(move || {
        for piece in lines.chunks(3) {
            thread::sleep(Duration::from_millis(3));
            into.write_all(piece).expect("the pipe is written");
        }
    });
    let (printed, said, status) = whole(&mut Command::new(&program.binary), Stdio::from(out), Stdio::piped());
    writer.join().expect("the writer ends");
    printed == program.sample.printed() && said.is_empty() && status.code() == Some(0)
}
