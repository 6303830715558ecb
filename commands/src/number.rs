//! Numbers as a sheet spells them. The library reads them: of a mov that has the number it writes the canonical text, and that has its
//! decimals. `expression` only says why one is refused.

use crate::expression::{self, Out};
use staplehorn::{canonical, Reason};
use std::fmt;
use std::str::FromStr;

/// Why a text is not taken. Bytes are counted from 1.
#[derive(Clone, Copy, PartialEq, Eq, Debug)]
pub enum Fault {
    /// It has none of the spellings.
    Spelling,
    /// The same, and it would be a decimal but for its leading zero.
    Octal,
    /// It needs more than so many bits.
    Large(u32),
    /// What it comes to is below 0.
    Negative(i128),
    /// From one byte of it to another stands a partial result that is out of range.
    Partial(usize, usize),
    /// At a byte of it a level too many opens.
    Nested(usize),
    /// An expression does not go on at a byte of it.
    Broken(usize),
    /// It ends where a number must stand.
    Short,
    /// It ends before a `(` of it is closed.
    Open,
    /// The library would not read it, whatever it is: a statement has at most 4,096 bytes.
    Long,
}

impl Fault {
    /// The same of a longer text, in which so many bytes stand before the number.
    pub fn after(self, bytes: usize) -> Fault {
        match self {
            Fault::Partial(from, to) => Fault::Partial(from + bytes, to + bytes),
            Fault::Nested(at) => Fault::Nested(at + bytes),
            Fault::Broken(at) => Fault::Broken(at + bytes),
            other => other,
        }
    }
}

impl fmt::Display for Fault {
    fn fmt(&self, f: &mut fmt::Formatter<'_>) -> fmt::Result {
        match self {
            Fault::Spelling => write!(f, "no number"),
            Fault::Octal => write!(f, "no number (a leading zero means octal)"),
            Fault::Large(bits) => write!(f, "too large for {bits} bits"),
            Fault::Negative(value) => write!(f, "negative ({value})"),
            Fault::Partial(from, to) => write!(f, "out of range (-2^63 to 2^63-1) in bytes {from} to {to}"),
            Fault::Nested(at) => write!(f, "nested over {} levels at byte {at}", expression::LEVELS),
            Fault::Broken(at) => write!(f, "broken at byte {at}"),
            Fault::Short => write!(f, "a number is missing at the end"),
            Fault::Open => write!(f, "a `)` is missing at the end"),
            Fault::Long => write!(f, "over {MOST} bytes"),
        }
    }
}

/// What stands before the number, at either width.
const BEFORE: usize = "mov.b64 x, ".len();
/// The most bytes of a number: those that are left of a statement.
pub const MOST: usize = 4_096 - BEFORE - 1;

/// A number or an expression of at most 32 bits.
pub fn b32(text: &str) -> Result<u32, Fault> {
    read(text, 32)
}

/// A number or an expression of at most 64 bits; an expression has at most 63.
pub fn b64(text: &str) -> Result<u64, Fault> {
    read(text, 64)
}

/// One number of at most 32 bits.
pub fn plain32(text: &str) -> Result<u32, Fault> {
    plain(text).and_then(b32)
}

/// One number of at most 64 bits.
pub fn plain64(text: &str) -> Result<u64, Fault> {
    plain(text).and_then(b64)
}

/// A text without any mark or space.
fn plain(text: &str) -> Result<&str, Fault> {
    text.bytes().all(|b| b.is_ascii_alphanumeric()).then_some(text).ok_or(Fault::Spelling)
}

/// A text of nothing but what expressions are made of, so that no byte of it can end the number; spaces around it are no part of it.
fn is_inside(text: &str) -> bool {
    text.bytes().all(|b| b.is_ascii_alphanumeric() || b"+-*() ".contains(&b)) && text.trim() == text
}

fn read<T: FromStr>(text: &str, bits: u32) -> Result<T, Fault> {
    if !is_inside(text) {
        return Err(Fault::Spelling);
    }
    if text.len() > MOST {
        return Err(Fault::Long);
    }
    let written = canonical(format!("mov.b{bits} x, {text};").as_bytes()).map_err(|reason| fault(text, bits, reason))?;
    let decimals = String::from_utf8_lossy(&written[BEFORE..written.len() - 1]).parse();
    Ok(decimals.unwrap_or_else(|_| panic!("{text}: no decimals of {bits} bits")))
}

/// What to say of a text that the library refuses.
fn fault(text: &str, bits: u32, reason: Reason) -> Fault {
    let is_run = plain(text).is_ok();
    match (reason, expression::read(text.as_bytes(), 0)) {
        (Reason::Number, Ok(read)) => match read.out((1 << bits) - 1) {
            Some(Out::Partial(part)) => Fault::Partial(part.from + 1, part.to),
            Some(Out::Negative(value)) => Fault::Negative(value),
            _ => Fault::Large(bits),
        },
        (Reason::Number, Err(_)) => Fault::Large(bits),
        _ if is_run && text.starts_with('0') && text.len() > 1 && text.bytes().all(|b| b.is_ascii_digit()) => Fault::Octal,
        _ if is_run => Fault::Spelling,
        (_, Ok(read)) => Fault::Broken(read.whole.to + text[read.whole.to..].find(|ch| ch != ' ').unwrap_or(0) + 1),
        (_, Err(stop)) if stop.at == text.len() && stop.operand => Fault::Short,
        (_, Err(stop)) if stop.at == text.len() => Fault::Open,
        (_, Err(stop)) if stop.is_nested(text.as_bytes()) => Fault::Nested(stop.at + 1),
        (_, Err(stop)) => Fault::Broken(stop.at + 1),
    }
}
