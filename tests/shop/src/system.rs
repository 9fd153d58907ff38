//! The few calls of the system that the standard library does not have.

use std::ffi::CStr;
use std::fs::File;
use std::io;
use std::os::unix::io::{FromRawFd, RawFd};
use std::process::Command;

const F_SETFL: i32 = 4;
const O_NONBLOCK: i32 = 0o4000;
const O_RDWR: i32 = 2;
const O_NOCTTY: i32 = 0o400;
const O_CLOEXEC: i32 = 0o2_000_000;
const TIOCSCTTY: u64 = 0x540E;
const SIGINT: i32 = 2;
const SIG_DFL: usize = 0;

/// Room for C's termios, of which nothing is read here.
#[repr(C, align(8))]
struct Modes([u8; 128]);

extern "C" {
    fn pipe2(ends: *mut i32, flags: i32) -> i32;
    fn fcntl(fd: i32, command: i32, ...) -> i32;
    fn posix_openpt(flags: i32) -> i32;
    fn grantpt(fd: i32) -> i32;
    fn unlockpt(fd: i32) -> i32;
    fn ptsname_r(fd: i32, name: *mut i8, room: usize) -> i32;
    fn tcgetattr(fd: i32, modes: *mut Modes) -> i32;
    fn cfmakeraw(modes: *mut Modes);
    fn tcsetattr(fd: i32, when: i32, modes: *const Modes) -> i32;
    fn setsid() -> i32;
    fn signal(number: i32, action: usize) -> usize;
    fn ioctl(fd: i32, request: u64, ...) -> i32;
}

fn checked(answer: i32) -> i32 {
    assert!(answer >= 0, "{}", io::Error::last_os_error());
    answer
}

fn file(fd: RawFd) -> File {
    unsafe { File::from_raw_fd(fd) }
}

/// A pipe: the end to read and the end to write.
pub fn pipe() -> (File, File) {
    let mut ends = [0; 2];
    checked(unsafe { pipe2(ends.as_mut_ptr(), O_CLOEXEC) });
    (file(ends[0]), file(ends[1]))
}

/// Calls on it answer at once, with an error where they would wait.
pub fn make_nonblocking(fd: RawFd) {
    checked(unsafe { fcntl(fd, F_SETFL, O_NONBLOCK) });
}

/// A new terminal: the side of whoever sits at it, and the name of the program's side.
pub fn terminal() -> (File, String) {
    let fd = checked(unsafe { posix_openpt(O_RDWR | O_NOCTTY | O_CLOEXEC) });
    checked(unsafe { grantpt(fd) });
    checked(unsafe { unlockpt(fd) });
    let mut name = [0i8; 128];
    checked(unsafe { ptsname_r(fd, name.as_mut_ptr(), name.len()) });
    let name = unsafe { CStr::from_ptr(name.as_ptr().cast()) };
    (file(fd), name.to_str().expect("a name in ASCII").to_string())
}

/// Bytes pass the terminal as they are.
pub fn make_raw(fd: RawFd) {
    let mut modes = Modes([0; 128]);
    checked(unsafe { tcgetattr(fd, &mut modes) });
    unsafe { cfmakeraw(&mut modes) };
    checked(unsafe { tcsetattr(fd, 0, &modes) });
}

/// The command runs in a session of its own, with its standard input as the session's terminal. ^C ends it there, also where whoever started this
/// ignores it, as a shell makes a command in the background do.
pub fn at_the_terminal(command: &mut Command) {
    use std::os::unix::process::CommandExt;
    unsafe {
        command.pre_exec(|| {
            checked(setsid());
            checked(ioctl(0, TIOCSCTTY, 0));
            signal(SIGINT, SIG_DFL);
            Ok(())
        });
    }
}
