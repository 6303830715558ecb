//! Safe functions over the proved library: one for each function of `include/staplehorn.h`. Each takes any bytes and any
//! numbers.
//!
//! ```
//! let sheet = b"sheet\t1\tsm_100a\n0\texit;\n";
//! assert_eq!(staplehorn::judge(sheet).unwrap().starts, []);
//! let refused = staplehorn::judge(b"sheet\n").unwrap_err();
//! assert_eq!(refused.reason, staplehorn::Reason::Layout);
//! assert_eq!(refused.to_string(), "line 1, column 1: line 1 is not the header, or a line's layout is wrong");
//! ```
#![deny(clippy::undocumented_unsafe_blocks)]

pub mod c;
mod fragments;
mod reason;
mod words;

pub use fragments::{Holder, Matrix, Place};
pub use reason::Reason;
pub use words::{request, InstructionFields, Kind, Opcode, SharedFields};

use std::fmt;

/// The most bytes that a sheet may have: a reader that stops one byte later knows all that it needs.
pub const MOST_BYTES: usize = 65_536;

/// No sheet has more allocs.
pub const MOST_ALLOCS: usize = 4_095;

/// The version of the linked library: major * 10,000 + minor * 100 + patch.
pub fn version() -> u32 {
    // SAFETY: the function takes nothing.
    unsafe { c::staplehorn_version() }
}

/// A sheet that passed.
#[derive(Clone, PartialEq, Eq, Debug)]
pub struct Passed {
    /// The last line, from 1.
    pub line: u32,
    /// The most columns held after any line.
    pub peak: u32,
    /// The first column of each alloc, in order.
    pub starts: Vec<u16>,
}

/// A sheet that is refused.
#[derive(Clone, Copy, PartialEq, Eq, Debug)]
pub struct Refused {
    pub reason: Reason,
    /// The line of the reason, from 1; 0 for `Reason::Size`.
    pub line: u32,
    /// The byte of that line to which the reason points, from 1; 0 for `Reason::Size`.
    pub column: u32,
    /// Columns held before that line (after it where exit is missing).
    pub held: u32,
    /// The most columns held after any accepted line.
    pub peak: u32,
}

impl fmt::Display for Refused {
    fn fmt(&self, f: &mut fmt::Formatter<'_>) -> fmt::Result {
        match self.line {
            0 => write!(f, "{}", self.reason),
            line => write!(f, "line {line}, column {}: {}", self.column, self.reason),
        }
    }
}

impl std::error::Error for Refused {}

/// The answer for a sheet as the library gives it.
#[derive(Clone, Copy, PartialEq, Eq, Debug)]
pub struct Answer {
    /// None: passed.
    pub reason: Option<Reason>,
    pub line: u32,
    /// The byte of that line to which the reason points, from 1; 0 on a pass and for `Reason::Size`.
    pub column: u32,
    pub held: u32,
    pub peak: u32,
    /// How many starts there are: one for each alloc on a pass, else 0.
    pub starts: usize,
}

/// Judges a sheet.
pub fn judge(sheet: &[u8]) -> Result<Passed, Refused> {
    let mut starts = vec![0; MOST_ALLOCS];
    let Answer { reason, line, column, held, peak, starts: count } = judge_into(sheet, &mut starts);
    match reason {
        None => {
            starts.truncate(count);
            Ok(Passed { line, peak, starts })
        }
        Some(reason) => Err(Refused { reason, line, column, held, peak }),
    }
}

/// Judges a sheet without taking memory. On a pass the first places of `starts`, as many as the answer says, have the first column
/// of each alloc, in order, and the places past them are left as they are; on any refusal, `Reason::Starts` (too few places)
/// included, all places are.
pub fn judge_into(sheet: &[u8], starts: &mut [u16]) -> Answer {
    let mut answer = [0; c::ANSWER_FIELDS];
    // SAFETY: each pointer is that of a slice or an array of the length given; the lent parts are exclusive.
    unsafe { c::staplehorn_judge(sheet.as_ptr(), sheet.len(), starts.as_mut_ptr(), starts.len(), &mut answer) };
    let [reason, line, column, held, peak, starts] = answer;
    Answer { reason: Reason::from_number(reason), line, column, held, peak, starts: starts as usize }
}

/// A sheet's report: the bytes that `foot` prints, and the reason that they begin with.
#[derive(Clone, PartialEq, Eq, Debug)]
pub struct Report {
    /// None: passed.
    pub reason: Option<Reason>,
    pub text: Vec<u8>,
}

/// The report of a sheet.
pub fn report(sheet: &[u8]) -> Report {
    let mut text = vec![0; c::REPORT_ROOM];
    let mut length = 0;
    // SAFETY: each pointer is that of a slice of the length given, or of a local; the lent parts are exclusive.
    let reason = unsafe { c::staplehorn_report(sheet.as_ptr(), sheet.len(), text.as_mut_ptr(), text.len(), &mut length) };
    text.truncate(length);
    Report { reason: Reason::from_number(reason), text }
}

/// A statement that is refused by itself.
#[derive(Clone, Copy, PartialEq, Eq, Debug)]
pub struct RefusedStatement {
    /// `Form`, `Number` or `Registers`.
    pub reason: Reason,
    /// The byte to which the reason points, from 1 at the text's first byte; it may be one past the text's end.
    pub column: usize,
}

impl fmt::Display for RefusedStatement {
    fn fmt(&self, f: &mut fmt::Formatter<'_>) -> fmt::Result {
        write!(f, "column {}: {}", self.column, self.reason)
    }
}

impl std::error::Error for RefusedStatement {}

/// Whether a statement reads, and its count of registers is right.
pub fn statement(text: &[u8]) -> Result<(), RefusedStatement> {
    let mut column = 0;
    // SAFETY: the pointers are those of a slice of the length given and of a local.
    let reason = unsafe { c::staplehorn_statement_reason(text.as_ptr(), text.len(), &mut column) };
    Reason::check(reason).map_err(|reason| RefusedStatement { reason, column })
}

/// The canonical text of a statement, or `Form` or `Number`; `statement` says where. Numbers are written in decimals, an expression as what
/// it comes to.
pub fn canonical(text: &[u8]) -> Result<Vec<u8>, Reason> {
    let mut room = vec![0; c::STATEMENT_ROOM];
    let mut length = 0;
    // SAFETY: each pointer is that of a slice of the length given, or of a local; the lent parts are exclusive.
    let reason = unsafe { c::staplehorn_statement_canonical(text.as_ptr(), text.len(), room.as_mut_ptr(), room.len(), &mut length) };
    Reason::check(reason)?;
    room.truncate(length);
    Ok(room)
}
