//! What the commands share: the standard descriptors, and what a command line's end looks like.
//!
//! A command's `main` is C's. Std's own start opens /dev/null where a standard descriptor is closed: a sheet that was never given
//! would be judged as an empty one, and a report that nobody gets would count as written.

use std::ffi::c_int;
use std::fs::{self, File};
use std::io::{self, Write};
use std::mem::ManuallyDrop;
use std::os::fd::FromRawFd;
use std::path::Path;

/// Exit statuses. Of several sheets the largest counts.
pub const PASSED: c_int = 0;
pub const REFUSED: c_int = 1;
pub const FAILED: c_int = 2;

/// An input that is no sheet for its size is counted so far; more is over it.
pub const MOST_COUNTED: usize = 64 << 20;

extern "C" {
    fn signal(number: c_int, handler: usize) -> usize;
}

/// Writing to a pipe that nobody reads is an error then, and does not end the program without a word.
pub fn ignore_sigpipe() {
    const SIGPIPE: c_int = 13;
    const SIG_IGN: usize = 1;
    // SAFETY: SIG_IGN is no function, so nothing is called later.
    unsafe { signal(SIGPIPE, SIG_IGN) };
}

/// A standard descriptor, whether it is open or not; it is not closed at the end.
pub fn standard(number: c_int) -> ManuallyDrop<File> {
    // SAFETY: nothing else in the program owns or closes the descriptor.
    ManuallyDrop::new(unsafe { File::from_raw_fd(number) })
}

/// One line on standard error, a byte that does not print as \x and two digits. Where it cannot be written there is nowhere to say so.
pub fn complain(program: &str, text: &str) {
    let line: String = text.chars().map(|c| if c.is_control() { format!("\\x{:02x}", c as u32) } else { c.into() }).collect();
    let _ = standard(2).write_all(format!("{program}: {line}\n").as_bytes());
}

/// Writes to standard output.
pub fn print(program: &str, text: &[u8]) -> c_int {
    match standard(1).write_all(text) {
        Ok(()) => PASSED,
        Err(e) => {
            complain(program, &format!("cannot write the output: {e}"));
            FAILED
        }
    }
}

/// The version line of a program.
pub fn version(program: &str) -> String {
    format!("{program} (staplehorn) {}\n", number_of_version())
}

/// The library's version as three numbers.
pub fn number_of_version() -> String {
    let v = staplehorn::version();
    format!("{}.{}.{}", v / 10_000, v / 100 % 100, v % 100)
}

/// Writes a file whole or not at all: under another name beside it, which then takes its place.
pub fn write_whole(path: &Path, text: &[u8]) -> io::Result<()> {
    // a link stays one, and its file is written
    let path = fs::canonicalize(path).unwrap_or_else(|_| path.into());
    if path.metadata().is_ok_and(|found| !found.is_file()) {
        return fs::write(&path, text);
    }
    let mut beside = path.clone().into_os_string();
    beside.push(format!(".{}", std::process::id()));
    let mut file = File::options().write(true).create_new(true).open(&beside)?;
    file.write_all(text).and_then(|()| fs::rename(&beside, &path)).inspect_err(|_| {
        let _ = fs::remove_file(&beside);
    })
}
