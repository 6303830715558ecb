//! The reading of expressions that explanations are made from, held to the library: the same texts read, to the same value, they stop at
//! the same byte, and where the library says 4 one partial result is out of range, or the result.

use commands::expression::{self, Expression, Out, LEAST, LEVELS, MOST};
use commands::number::{b32, b64, Fault};
use staplehorn::{canonical, statement, Reason, RefusedStatement};
use std::collections::BTreeMap;

/// xorshift64*
struct Random(u64);

impl Random {
    fn next(&mut self) -> u64 {
        self.0 ^= self.0 >> 12;
        self.0 ^= self.0 << 25;
        self.0 ^= self.0 >> 27;
        self.0.wrapping_mul(0x2545_F491_4F6C_DD1D)
    }

    fn below(&mut self, n: usize) -> usize {
        (self.next() >> 16) as usize % n.max(1)
    }

    fn pick<'a>(&mut self, all: &[&'a str]) -> &'a str {
        all[self.below(all.len())]
    }
}

const NUMBERS: &[&str] = &[
    "0",
    "1",
    "2",
    "3U",
    "017",
    "0x10",
    "0b101",
    "64",
    "65536",
    "2147483648",
    "4294967295",
    "4294967296",
    "4611686018427387904",
    "9223372036854775807",
    "0x7FFFFFFFFFFFFFFF",
    "9223372036854775808",
    "18446744073709551615",
    "18446744073709551616",
    "99999999999999999999999999999999999999999999",
];

/// An expression of a size: numbers, minuses, parentheses and operators, with spaces or without.
fn expression(r: &mut Random, size: usize) -> String {
    let gap = r.pick(&["", "", "", " ", "  "]);
    match (size, r.below(5)) {
        (0, _) => r.pick(NUMBERS).into(),
        (_, 0) => format!("-{gap}{}", expression(r, size - 1)),
        (_, 1) if r.below(4) == 0 => format!("-(-(({}))){gap}", expression(r, size - 1)),
        (_, 1) => format!("({gap}{}{gap})", expression(r, size - 1)),
        (_, _) => {
            let left = r.below(size);
            format!("{}{gap}{}{gap}{}", expression(r, left), r.pick(&["+", "-", "*"]), expression(r, size - 1 - left))
        }
    }
}

/// A text that may be none: with a piece put in, or a byte taken out.
fn damaged(r: &mut Random, text: String) -> String {
    let mut bytes = text.into_bytes();
    for _ in 0..=r.below(2) {
        let at = r.below(bytes.len() + 1);
        match r.below(3) {
            0 if at < bytes.len() => drop(bytes.remove(at)),
            _ => drop(bytes.splice(
                at..at,
                r.pick(&["(", ")", "-", "+", "*", " ", "1", "08", "/", "<<", "(((((((((((((", "-------------", "x"]).bytes(),
            )),
        }
    }
    String::from_utf8(bytes).unwrap()
}

/// A place where a number stands: what is before it, what is after it, and the bits that fit.
struct Place {
    before: &'static str,
    after: &'static str,
    bits: u32,
}

const MOV32: Place = Place { before: "mov.b32 x, ", after: ";", bits: 32 };
const MOV64: Place = Place { before: "mov.b64 x, ", after: ";", bits: 64 };
const ALLOC: Place = Place { before: "tcgen05.alloc.cta_group::1.sync.aligned.b32 [t], ", after: ";", bits: 32 };
const STORE: Place = Place { before: "tcgen05.st.sync.aligned.32x32b.x1.b32 [t+", after: "], {r};", bits: 32 };

impl Place {
    fn with(&self, text: &str) -> String {
        format!("{}{text}{}", self.before, self.after)
    }

    fn most(&self) -> i128 {
        (1 << self.bits) - 1
    }

    /// What the library says of a text there: its value, or the reason and the byte of the statement, from 0.
    fn library(&self, text: &str) -> Result<u64, (Reason, usize)> {
        let whole = self.with(text);
        statement(whole.as_bytes()).map_err(|RefusedStatement { reason, column }| (reason, column - 1))?;
        let written = String::from_utf8(canonical(whole.as_bytes()).unwrap()).unwrap();
        // no `+0` is written
        let number = written.strip_prefix(self.before).and_then(|rest| rest.strip_suffix(self.after));
        Ok(number.map_or(0, |number| number.parse().unwrap()))
    }
}

/// Compares both readings of a text at a place; says what it was.
fn compared(text: &str, place: &Place) -> &'static str {
    let (whole, from) = (place.with(text), place.before.len());
    let past = |at: usize| at + whole[at..].len() - whole[at..].trim_start().len();
    match (place.library(text), expression::read(whole.as_bytes(), from)) {
        (Ok(value), Ok(read)) => {
            assert_eq!((read.whole.value, read.out(place.most())), (Some(value.into()), None), "{whole}");
            "reads"
        }
        (Err((Reason::Number, at)), Ok(read)) => {
            assert_eq!((at, read.whole.from, past(read.whole.to)), (past(from), past(from), from + text.len()), "{whole}");
            out_of_range(&whole, &read, place.most())
        }
        (Err((Reason::Form, at)), Ok(read)) => {
            // it ends, and something stands behind it that does not belong there
            assert_eq!(at, past(read.whole.to), "{whole}");
            assert_ne!(&whole[at..], place.after, "{whole}");
            "goes on"
        }
        (Err((Reason::Form, at)), Err(stop)) => {
            assert_eq!(at, stop.at, "{whole}");
            if stop.is_nested(whole.as_bytes()) {
                "nested"
            } else {
                "broken"
            }
        }
        both => panic!("{whole}: {both:?}"),
    }
}

/// What is out of range: one partial result, or what it comes to.
fn out_of_range(whole: &str, read: &Expression, most: i128) -> &'static str {
    match read.out(most).unwrap() {
        Out::Partial(part) => {
            assert!(!read.alone && !part.value.is_some_and(|value| (LEAST..=MOST).contains(&value)), "{read:?}");
            // by itself it is out of range for the library, where there is a level left to ask so, and nothing smaller in it is
            let text = &whole[part.from..part.to];
            let reason = MOV64.library(&format!("({text})*0")).map_err(|refused| refused.0);
            assert!(
                reason == Err(Reason::Number) || reason == Err(Reason::Form) && text.matches(['-', '(']).count() >= LEVELS,
                "{text}: {reason:?}"
            );
            let beyond = expression::read(text.as_bytes(), 0).unwrap().beyond.unwrap();
            assert_eq!((beyond.from, beyond.to, beyond.value), (0, text.len(), part.value), "{text}");
            "a partial result"
        }
        Out::Negative(value) => {
            assert!(value < 0 && read.beyond.is_none(), "{read:?}");
            "negative"
        }
        Out::Large(value) => {
            assert!(value.is_none_or(|value| value > most) && (read.alone || read.beyond.is_none()), "{read:?}");
            "large"
        }
    }
}

#[test]
fn many_texts() {
    let mut r = Random(7);
    let mut counts = BTreeMap::<&str, usize>::new();
    for i in 0..300_000 {
        let size = r.below(12);
        let mut text = expression(&mut r, size);
        if i % 3 == 0 {
            text = damaged(&mut r, text);
        }
        *counts.entry(compared(&text, [&MOV32, &MOV64, &ALLOC, &STORE][i % 4])).or_default() += 1;
    }
    println!("{counts:#?}");
    for what in ["reads", "a partial result", "negative", "large", "goes on", "broken", "nested"] {
        assert!(counts.get(what).is_some_and(|&count| count >= 300), "{what}: {counts:?}");
    }
}

/// Every text of up to six of these marks.
#[test]
fn short_texts() {
    const MARKS: [&str; 7] = ["1", "4294967296", "-", "+", "*", "(", ")"];
    for length in 1..=6u32 {
        for index in 0..MARKS.len().pow(length) {
            let text: String = (0..length).map(|place| MARKS[index / MARKS.len().pow(place) % MARKS.len()]).collect();
            compared(&text, if index % 2 == 0 { &MOV64 } else { &STORE });
        }
    }
}

/// The texts of the readings, and what is at their limits.
#[test]
fn limits() {
    let deep = |n: usize| format!("{}1{}", "(".repeat(n), ")".repeat(n));
    for (text, what) in [
        (deep(LEVELS), "reads"),
        (deep(LEVELS + 1), "nested"),
        (format!("{}{}", "-".repeat(16), 1), "reads"),
        (format!("{}{}", "-".repeat(17), 1), "nested"),
        ("9223372036854775807-1+1-9223372036854775807".into(), "reads"),
        ("9223372036854775807+1-1".into(), "a partial result"),
        ("-4611686018427387904*2+9223372036854775807+1".into(), "reads"),
        ("-9223372036854775808".into(), "a partial result"),
        ("-9223372036854775807-1".into(), "negative"),
        ("-(-9223372036854775807-1)".into(), "a partial result"),
        ("0*9223372036854775808".into(), "a partial result"),
        ("4294967296*4294967296*0".into(), "a partial result"),
        ("(4294967295)".into(), "reads"),
        ("65536*65536".into(), "large"),
        ("4294967296".into(), "large"),
        ("-0".into(), "reads"),
        ("0U-1".into(), "negative"),
        ("10-4-3".into(), "reads"),
        ("--5".into(), "reads"),
        (" - ( 3 ) + 4 ".into(), "reads"),
        ("1 2".into(), "goes on"),
        ("(1)(2)".into(), "goes on"),
        ("1)".into(), "goes on"),
        ("()".into(), "broken"),
        ("(1".into(), "broken"),
        ("+1".into(), "broken"),
        ("4294967296*4294967296*4294967296+".into(), "broken"),
    ] {
        assert_eq!((compared(&text, &MOV32), compared(&text, &ALLOC), compared(&text, &STORE)), (what, what, what), "{text}");
    }
    assert_eq!((compared("18446744073709551615", &MOV64), compared("(18446744073709551615)", &MOV64)), ("reads", "a partial result"));
    assert_eq!((compared("9223372036854775807", &MOV64), compared("9223372036854775806+1", &MOV64)), ("reads", "reads"));
}

/// Which part is out of range: the first in the order in which they are made.
#[test]
fn the_part_that_is_out_of_range() {
    let part = |text: &str| {
        let part = expression::read(text.as_bytes(), 0).unwrap().beyond.unwrap();
        (text[part.from..part.to].to_string(), part.value)
    };
    let square = Some(1i128 << 64);
    for (text, written, value) in [
        ("4294967296*4294967296", "4294967296*4294967296", square),
        ("1+4294967296 * 4294967296*0", "4294967296 * 4294967296", square),
        ("1+(2+9223372036854775807)*3", "2+9223372036854775807", Some((1 << 63) + 1)),
        ("-(-9223372036854775807-1)", "-(-9223372036854775807-1)", Some(1 << 63)),
        ("(-9223372036854775807-1)*(-1)", "(-9223372036854775807-1)*(-1)", Some(1 << 63)),
        ("-9223372036854775807-2+9", "-9223372036854775807-2", Some(LEAST - 1)),
        ("2*0x8000000000000000", "0x8000000000000000", Some(1 << 63)),
        ("1-99999999999999999999999999999999999999999999", "99999999999999999999999999999999999999999999", None),
        ("3*(4294967296*4294967296)+9223372036854775808", "4294967296*4294967296", square),
    ] {
        assert_eq!(part(text), (written.to_string(), value), "{text}");
    }
}

/// `describe` takes an expression for a number, and nothing that ends one.
#[test]
fn words_of_describe() {
    assert_eq!((b32("0x08000000+0x00100010"), b32("0x08000000 + (64 * 16384) + 16")), (Ok(0x0810_0010), Ok(0x0810_0010)));
    assert_eq!((b64("(1-2)*(0-5)"), b64("--5"), b64("9223372036854775807")), (Ok(5), Ok(5), Ok(i64::MAX as u64)));
    for (text, fault, said) in [
        ("65536*65536", Fault::Large(32), "too large for 32 bits"),
        ("2-3", Fault::Negative(-1), "negative (-1)"),
        ("-1", Fault::Negative(-1), "negative (-1)"),
        ("1+4294967296*4294967296", Fault::Partial(3, 23), "out of range (-2^63 to 2^63-1) in bytes 3 to 23"),
        ("(18446744073709551615)", Fault::Partial(2, 21), "out of range (-2^63 to 2^63-1) in bytes 2 to 21"),
        ("-----------------1", Fault::Nested(17), "nested over 16 levels at byte 17"),
        ("+1", Fault::Broken(1), "broken at byte 1"),
        ("1++2", Fault::Broken(3), "broken at byte 3"),
        ("1 2", Fault::Broken(3), "broken at byte 3"),
        ("(1)(2)", Fault::Broken(4), "broken at byte 4"),
        ("()", Fault::Broken(2), "broken at byte 2"),
        ("3+08", Fault::Broken(3), "broken at byte 3"),
        ("1+x", Fault::Broken(3), "broken at byte 3"),
        ("1+", Fault::Short, "a number is missing at the end"),
        ("1*", Fault::Short, "a number is missing at the end"),
        ("-", Fault::Short, "a number is missing at the end"),
        ("(", Fault::Short, "a number is missing at the end"),
        ("(1", Fault::Open, "a `)` is missing at the end"),
        ("2*((1)", Fault::Open, "a `)` is missing at the end"),
    ] {
        assert_eq!((b32(text), fault.to_string().as_str()), (Err(fault), said), "{text}");
    }
    for text in ["1+1;", "1, 2", "1+1 ", " 1+1", "1\t+1", "1+\n1", "1/1", "1+\0", "1<<2", "1;mov.b32 y, 2", "[1]", "1+%r", "1+a_b"] {
        assert_eq!((b32(text), b64(text)), (Err(Fault::Spelling), Err(Fault::Spelling)), "{text:?}");
    }
}

/// The table of expressions of docs/FORMAT.md: what each comes to in `mov.b64`, or its reason.
#[test]
fn the_table_of_the_format() {
    let (_, table) = include_str!("../../docs/FORMAT.md").split_once("| Expression | Is | Because |\n").expect("the table");
    let mut count = 0;
    for row in table.lines().skip(1).map_while(|line| line.strip_prefix("| ")) {
        let cells: Vec<&str> = row.split(" | ").collect();
        for text in cells[0].split('`').skip(1).step_by(2) {
            let found = match MOV64.library(text) {
                Ok(value) => value.to_string(),
                Err((reason, _)) => format!("reason {}", reason.number()),
            };
            assert_eq!(found, cells[1], "{text}");
            count += 1;
        }
    }
    assert!(count >= 25, "{count} expressions");
}
