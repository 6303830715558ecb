//! Reason 4 of an expression: the partial result that is out of range, or what it all comes to. The library refuses it; which part it is,
//! is read here, and `tests/expressions.rs` holds that reading to the library.

use super::booking::any_legal;
use super::numbers::{bits, cut, grouped128, is_offset, octal_in, place, NEAR};
use super::{grouped, shown, Context, Explanation};
use crate::expression::{Expression, Out, Part, LEAST, MOST};
use crate::sheet::Edit;

/// A number with its sign and a comma between thousands.
fn signed(value: i128) -> String {
    format!("{}{}", if value < 0 { "-" } else { "" }, grouped128(value.unsigned_abs()))
}

pub fn explain(c: &Context, e: &mut Explanation, read: &Expression) {
    let most = (1i128 << bits(c)) - 1;
    match read.out(most) {
        Some(Out::Partial(part)) => partial(c, e, read, part),
        Some(Out::Negative(value)) => negative(c, e, read, value),
        Some(Out::Large(Some(value))) => large(c, e, read, value - most),
        _ => {}
    }
    e.notes.extend(octal_in(&text(c, &read.whole)));
}

/// A part as it is written.
fn text(c: &Context, part: &Part) -> String {
    shown(&c.sheet.statement(c.line())[part.from..part.to])
}

/// Puts a number in place of the expression.
fn instead(c: &Context, read: &Expression, number: &str) -> Edit {
    Edit { line: c.line(), from: read.whole.from + 3, to: read.whole.to + 3, text: number.into() }
}

/// A partial result, which may be all of it, or a number, is below -2^63 or over 2^63-1.
fn partial(c: &Context, e: &mut Explanation, read: &Expression, part: Part) {
    let written = text(c, &part);
    let is_number = written.bytes().all(|b| b.is_ascii_alphanumeric());
    let range = match part.value {
        Some(value) if value < 0 => format!("at least {} (-2^63)", signed(LEAST)),
        _ => format!("at most {} (2^63-1)", signed(MOST)),
    };
    let is = match part.value {
        Some(value) if written != value.to_string() => format!("is {}", signed(value)),
        _ => "is too large".into(),
    };
    let what = if is_number { "number of an expression" } else { "partial result" };
    e.title(format!("`{}` {is}; a {what} is {range}", cut(&written)));
    let label = part.value.map_or_else(|| "this has over 127 bits".into(), |value| format!("this is {}", signed(value)));
    if part.from == read.whole.from {
        e.point(part.to + 3, label);
    } else {
        e.point(part.from + 3, "the expression begins here");
        e.related(c.line(), (part.from + 3, part.to + 3), label);
    }
    e.note("each number of an expression and each partial result lies between -2^63 and 2^63-1, whatever it all comes to");
    if is_number && bits(c) == 64 && part.value.is_some_and(|value| value <= u64::MAX.into()) {
        e.note(format!("alone, without operators and parentheses, `{}` is taken: `mov.b64` takes one number up to 2^64-1", cut(&written)));
    }
    in_full(c, e, read);
}

/// What an expression with a partial result out of range comes to in full: a number that may be taken, or not.
fn in_full(c: &Context, e: &mut Explanation, read: &Expression) {
    let most = (1i128 << bits(c)) - 1;
    match read.whole.value {
        Some(value) if (0..=most).contains(&value) => {
            e.fix(c.sheet, format!("write what it comes to in full, {value}"), instead(c, read, &value.to_string()));
        }
        _ => e.help(format!("let every part stay in range, and the result between 0 and {}", signed(most.min(MOST)))),
    }
}

/// All of it is in range, and below 0.
fn negative(c: &Context, e: &mut Explanation, read: &Expression, value: i128) {
    let (written, bits) = (text(c, &read.whole), bits(c));
    let is_mov = c.sheet.statement(c.line()).starts_with(b"mov.");
    let is = if written == value.to_string() { "negative".into() } else { signed(value) };
    let rule = if is_mov || is_offset(c) { "numbers and offsets below 0 are not read in this version" } else { "it is a count of columns" };
    e.title(format!("`{}` is {is}; {rule}", cut(&written)));
    e.point(
        read.whole.to + 3,
        match bits {
            64 => "an expression: 0 to 2^63-1; one number alone: to 2^64-1".into(),
            _ => format!("0 to {} fit here", signed((1i128 << bits) - 1)),
        },
    );
    if is_mov {
        if value < -(1 << (bits - 1)) {
            return e.help(format!("it has more than the {bits} bits that the statement moves"));
        }
        let word = format!("0x{:X}", value + (1 << bits));
        e.fix(c.sheet, format!("write its bits, {word}"), instead(c, read, &word));
    } else if is_offset(c) {
        e.help("count the column from the start of the allocation, so that the offset is 0 or more");
    } else {
        e.help(format!("the number of columns is {}", count(c)));
    }
}

/// Which count of columns the line can have.
pub fn count(c: &Context) -> String {
    let (from, to) = c.span(c.line(), 0);
    let name = shown(c.bytes().get(from - 1..to - 1).unwrap_or_default());
    match c.history.allocation(&name) {
        Some(taken) => format!("that of its alloc: `{name}` has {}", grouped(taken.columns.into())),
        None => any_legal(),
    }
}

/// All of it is in range, and by so much over what fits.
fn large(c: &Context, e: &mut Explanation, read: &Expression, over: i128) {
    let (written, bits) = (text(c, &read.whole), bits(c));
    let value = over + (1 << bits) - 1;
    e.title(match over.unsigned_abs() {
        near if near < NEAR => {
            format!("`{}` is {}: {} over the largest number of {bits} bits", cut(&written), signed(value), signed(over))
        }
        _ => format!("`{}` is {}, which needs {} bits, and {bits} fit", cut(&written), signed(value), 128 - value.leading_zeros()),
    });
    e.point(read.whole.to + 3, format!("at most {} fits here", signed(value - over)));
    place(c, e, &written, u128::try_from(value).ok());
}
