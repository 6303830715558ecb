//! What stands in place of a number: a run that is none, a number with a point, or a name.

use super::{brief, is_name, is_number, offer, say, sum, token, Spot};
use crate::explain::booking::any_legal;
use crate::explain::{shown, Explanation};
use crate::{expression, number};

/// The number is one of columns: only an alloc and a dealloc have such.
pub fn is_count(s: &Spot) -> bool {
    s.opcode().contains("alloc.")
}

/// Says how a count of columns is written.
pub fn say_count(s: &Spot, e: &mut Explanation) -> bool {
    let name = s.places().first().map(|&(from, to)| shown(&s.text[from..to])).unwrap_or_default();
    let which = match s.c.history.allocation(&name) {
        Some(taken) if s.opcode().contains("dealloc") => format!("`{name}` has {}", taken.columns),
        _ => any_legal(),
    };
    say(e, format!("a count of columns is a whole number, written in digits: {which}"))
}

/// The number that was last moved to a name, and the line that moved it: as it was written, or what an expression comes to.
pub fn known(s: &Spot, name: &str) -> Option<(String, usize)> {
    let value = s.c.history.value(name)?;
    let (from, to) = s.c.span(value.line, 1);
    let written = shown(s.c.sheet.line(value.line).get(from - 1..to - 1)?);
    let text = if is_number(written.as_bytes()) { written } else { value.number.to_string() };
    Some((text, value.line))
}

/// The number has no more bits than the statement takes.
fn fits(s: &Spot, text: &str) -> bool {
    if s.opcode() == "mov.b64" {
        number::plain64(text).is_ok()
    } else {
        number::plain32(text).is_ok()
    }
}

/// A run that starts with a digit where a number stands.
pub fn run(s: &Spot, e: &mut Explanation) -> bool {
    let (found, to) = (brief(s.token), s.at + s.token.len());
    // what goes on without a gap belongs to it for a reader
    if s.text.get(to) == Some(&b'.') {
        return false;
    }
    let (because, mut candidates) = spelling(&shown(s.token), &s.opcode());
    if because.contains("the bits of") && !is_moved(s, s.at, to) {
        candidates.clear();
    }
    e.title(format!("`{found}` is no number: {because}"));
    s.point(e, to, "a number must stand here");
    e.note("a number is decimal (`64`), hexadecimal (`0x40`), octal (`0100`) or binary (`0b1000000`), with a capital `U` behind it or not");
    let before = e.helps.len();
    for (condition, right) in candidates.into_iter().filter(|row| is_number(row.1.as_bytes()) && (row.0.is_empty() || !is_count(s))) {
        let text = format!("{condition}write `{right}`");
        if fits(s, &right) {
            e.fix(s.c.sheet, text, s.edit(s.at, to, right));
        } else {
            e.help(format!("{text}; it does not fit in {}", if s.opcode() == "mov.b64" { "64 bits" } else { "32 bits" }));
        }
    }
    e.helps.len() > before || !is_count(s) || say_count(s, e)
}

/// Why a run is no number, and what may have been meant, each with its condition.
fn spelling(run: &str, opcode: &str) -> (&'static str, Vec<(&'static str, String)>) {
    let plain = run.replace('_', "");
    let digits = run.trim_end_matches(|ch: char| "uUlL".contains(ch));
    let bare = run.strip_suffix('U').unwrap_or(run);
    let is_hex = |text: &str| !text.is_empty() && text.bytes().all(|b| b.is_ascii_hexdigit());
    let hex = || ("if it is hexadecimal, ", format!("0x{run}"));
    let decimal = || run.trim_start_matches('0').to_string();
    match run.get(..2).unwrap_or_default() {
        _ if plain != run && is_number(plain.as_bytes()) => ("`_` does not part digits", vec![("", plain)]),
        _ if digits != run && is_number(digits.as_bytes()) => ("only one capital `U` may follow the digits", vec![("", digits.into())]),
        "0x" | "0X" if bare.len() == 2 => ("no digit follows the `0x`", vec![]),
        "0b" | "0B" if bare.len() == 2 => ("no digit follows the `0b`", vec![]),
        "0x" | "0X" => ("a byte of it is no hexadecimal digit", vec![]),
        "0b" | "0B" => ("a byte of it is no binary digit", vec![]),
        "0o" | "0O" => ("octal is written with a leading zero alone", vec![("", format!("0{}", &run[2..]))]),
        "0f" | "0F" if run.len() == 10 && is_hex(run) => {
            float(run, opcode == "mov.b32", "it has the bits of a float, which `mov.b32` moves with `0x` before them")
        }
        "0d" | "0D" if run.len() == 18 && is_hex(run) => {
            float(run, opcode == "mov.b64", "it has the bits of a double, which `mov.b64` moves with `0x` before them")
        }
        _ if bare.bytes().all(|b| b.is_ascii_digit()) => {
            let candidates =
                if [8, 16].contains(&bare.len()) { vec![hex(), ("if it is decimal, ", decimal())] } else { vec![("", decimal())] };
            ("a leading zero means octal, which has the digits 0 to 7", candidates)
        }
        _ if is_hex(run) => ("a byte of it is no decimal digit", vec![hex()]),
        _ => ("a byte of it is no digit", vec![]),
    }
}

/// What stands between two places is all that a mov moves.
fn is_moved(s: &Spot, from: usize, to: usize) -> bool {
    let behind = s.text[to..].trim_ascii_start();
    s.text[..from].trim_ascii_end().ends_with(b",") && (behind.is_empty() || behind.starts_with(b";"))
}

/// The bits of a float as PTX writes them, if the statement moves as many.
fn float(run: &str, moves: bool, because: &'static str) -> (&'static str, Vec<(&'static str, String)>) {
    (because, if moves { vec![("", format!("0x{}", &run[2..]))] } else { vec![] })
}

/// What stands at the place up to another is not all of its operand, but a part of an expression.
fn is_part(s: &Spot, to: usize) -> bool {
    let ends = s.text[to..].trim_ascii_start().first().is_none_or(|b| b"],;".contains(b));
    !ends || sum::begins(s) != Some(s.at)
}

/// The number may stand in an expression.
fn is_in_range(text: &str) -> bool {
    expression::read(text.as_bytes(), 0).is_ok_and(|read| read.beyond.is_none())
}

/// A name where a number must be written out.
pub fn name(s: &Spot, e: &mut Explanation) -> bool {
    if !is_name(s.token) || s.could[..] != ["1"] {
        return false;
    }
    let (found, to) = (shown(s.token), s.at + s.token.len());
    e.title(format!("`{found}` stands where a number must be written out"));
    s.point(e, to, "found a name");
    if let Some((number, line)) = known(s, &found) {
        e.related(line, s.c.span(line, 1), format!("the number of `{found}`"));
        let text = format!("write `{number}`, which line {line} moves to `{found}`");
        let (fits, most) = match is_part(s, to) {
            true => (is_in_range(&number), "is over 2^63-1, the most of a number of an expression"),
            false => (fits(s, &number), "does not fit in 32 bits"),
        };
        return if fits { offer(s, e, text, s.edit(s.at, to, number)) } else { say(e, format!("`{found}` is {number}, which {most}")) };
    }
    if is_count(s) {
        return say_count(s, e);
    }
    if s.c.history.allocation(&found).is_some() {
        return say(
            e,
            format!(
                "`{found}` is an allocation: its name stands for its address wherever one is wanted, so that no number is moved or added"
            ),
        );
    }
    if is_part(s, to) {
        return say(e, format!("an expression takes no names: write the number of `{found}`"));
    }
    let what = if s.opcode().starts_with("mov.") { "the number to move" } else { "the offset" };
    say(e, format!("write {what} in digits: no line up to here moves a number to `{found}`"))
}

/// A `.` after a number or a name.
pub fn dot(s: &Spot, e: &mut Explanation) -> bool {
    if s.token != b"." {
        return false;
    }
    let run = s.before().iter().rev().take_while(|b| b.is_ascii_alphanumeric() || b"_$%".contains(b)).count();
    let tail = 1 + token(&s.rest()[1..], false).iter().filter(|b| b.is_ascii_alphanumeric()).count();
    let (from, to) = (s.at - run, (s.at + tail).min(s.text.len()));
    let whole = shown(&s.text[from..to]);
    s.point(e, s.at + tail, "after the opcode no `.` may stand");
    if !whole.trim_start_matches('.').starts_with(|ch: char| ch.is_ascii_digit()) {
        e.title(format!("`{}` is no name: a name has no `.`", brief(whole.as_bytes())));
        return say(e, "write a name without the `.`, such as one with `_` for it");
    }
    e.title(format!("`{}` has a point; only whole numbers are read", brief(whole.as_bytes())));
    let what = match () {
        () if s.opcode().starts_with("mov.") => "if the whole number is meant, ",
        () if is_count(s) => "a count of columns is a whole number: ",
        () => "an offset is a whole number: ",
    };
    let even = s.text[s.at + 1..to].iter().all(|&b| b == b'0') && s.reads_with(s.at, to, b"");
    if even {
        e.fix(s.c.sheet, format!("{what}write `{}`", brief(&s.text[from..s.at])), s.edit(s.at, to, ""));
    }
    match bits(&whole, &s.opcode()).filter(|bits| is_moved(s, from, to) && s.reads_with(from, to, bits.as_bytes())) {
        Some(bits) => offer(s, e, format!("if the bits of a float are meant, write `{bits}`"), s.edit(from, to, bits)),
        None if is_count(s) && !even => say_count(s, e),
        None => even || say(e, "write a whole number"),
    }
}

/// The bits of a number with a point, as many as a mov moves.
fn bits(text: &str, opcode: &str) -> Option<String> {
    let text = text.trim_end_matches(['f', 'F']);
    match opcode {
        "mov.b32" => text.parse::<f32>().ok().map(|value| format!("0x{:08X}", value.to_bits())),
        "mov.b64" => text.parse::<f64>().ok().map(|value| format!("0x{:016X}", value.to_bits())),
        _ => None,
    }
}
