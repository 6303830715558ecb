//! Numbers in four bases, with and without `U`.
//!
//! Much here is compared with a second reader of numbers. It tries patterns and
//! counts in decimal digits of any length, so it shares no way of working with the
//! reader that is tested.

use staplehorn_reference::entries::{long, sheet};
use staplehorn_reference::judge::judge;
use staplehorn_reference::statement::*;

// The second reader.

/// Some of these bytes, at least and at most so many.
type Piece = (&'static str, usize, usize);

const MANY: usize = usize::MAX;
const HEX: &str = "0123456789abcdefABCDEF";
const DECIMAL: &str = "0123456789";
const OCTAL: &str = "01234567";

/// The base, how many bytes stand before the digits, and the pieces.
const PATTERNS: [(u32, usize, &[Piece]); 5] = [
    (16, 2, &[("0", 1, 1), ("xX", 1, 1), (HEX, 1, MANY), ("U", 0, 1)]),
    (2, 2, &[("0", 1, 1), ("bB", 1, 1), ("01", 1, MANY), ("U", 0, 1)]),
    (8, 1, &[("0", 1, 1), (OCTAL, 1, MANY), ("U", 0, 1)]),
    (10, 0, &[("123456789", 1, 1), (DECIMAL, 0, MANY), ("U", 0, 1)]),
    (10, 0, &[("0", 1, 1), ("U", 0, 1)]),
];

/// Do the pieces, one behind the other, make up the whole text?
fn matches(pieces: &[Piece], text: &[u8]) -> bool {
    let Some(((set, least, most), others)) = pieces.split_first() else {
        return text.is_empty();
    };
    let mut taken = 0;
    loop {
        if taken >= *least && matches(others, &text[taken..]) {
            return true;
        }
        if taken == *most || taken == text.len() || !set.as_bytes().contains(&text[taken]) {
            return false;
        }
        taken += 1;
    }
}

/// The value of a number in decimal digits; `None` for what is no number.
fn value(word: &[u8]) -> Option<String> {
    let fitting: Vec<_> = PATTERNS.iter().filter(|(_, _, pieces)| matches(pieces, word)).collect();
    assert!(fitting.len() <= 1, "{word:?} has two readings");
    let (base, front, _) = fitting.first()?;
    // the last digit comes first
    let mut digits = vec![0];
    for &byte in word[*front..].iter().filter(|&&byte| byte != b'U') {
        let place = HEX.bytes().position(|other| other == byte).unwrap() as u32;
        let mut carry = if place < 16 { place } else { place - 6 };
        for digit in &mut digits {
            carry += *digit * base;
            *digit = carry % 10;
            carry /= 10;
        }
        while carry != 0 {
            digits.push(carry % 10);
            carry /= 10;
        }
    }
    Some(digits.iter().rev().map(|digit| digit.to_string()).collect())
}

/// Is the one number over the other? Both are decimals without zeros in front.
fn is_over(value: &str, limit: &str) -> bool {
    (value.len(), value) > (limit.len(), limit)
}

// Places where a number may stand.

const LIMIT32: &str = "4294967295";
const LIMIT64: &str = "18446744073709551615";

/// A statement without its number: what stands before and behind it, and the
/// largest number there.
struct Place {
    front: String,
    back: &'static str,
    limit: &'static str,
}

fn places() -> Vec<Place> {
    let place = |front: &str, back, limit| Place { front: long(front), back, limit };
    vec![
        place("mov.b32 x, ", ";", LIMIT32),
        place("mov.b64 x, ", ";", LIMIT64),
        place("@alloc [t], ", ";", LIMIT32),
        place("@dealloc t, ", ";", LIMIT32),
        place("@ld(32x32b.x1) {r}, [t+", "];", LIMIT32),
        place("@st(32x32b.x1) [t+", "], {r};", LIMIT32),
        place("@mma(f16) [d+", "], a, b, i, p;", LIMIT32),
        place("@mma(f16) [d], [a+", "], b, i, p;", LIMIT32),
        place("@mma.sp(f16) [d], a, b, [m+", "], i, p;", LIMIT32),
    ]
}

/// The number that stands in the place.
fn number_of(s: &Statement) -> u64 {
    match s {
        Statement::Mov { value, .. } => *value,
        Statement::Alloc { columns, .. } | Statement::Dealloc { columns, .. } => u64::from(*columns),
        Statement::Ld { address, .. } | Statement::St { address, .. } => u64::from(address.offset),
        Statement::Mma { d, a, meta, .. } => {
            let a = if let Operand::Address(address) = a { address.offset } else { 0 };
            u64::from(d.offset + a + meta.map_or(0, |address| address.offset))
        }
        _ => panic!("{s:?} has no number"),
    }
}

/// What the second reader says of a text in a place: reason and column, or else
/// the value. The text may hold any bytes, but not the whole of what comes behind.
fn expected(place: &Place, text: &[u8]) -> Result<String, (u32, usize)> {
    let whole = [place.front.as_bytes(), text, place.back.as_bytes()].concat();
    let is_run = |at: usize| whole.get(at).is_some_and(|byte| byte.is_ascii_alphanumeric() || b"_$".contains(byte));
    let past_spaces = |mut at: usize| {
        while whole.get(at) == Some(&b' ') {
            at += 1;
        }
        at
    };
    let start = past_spaces(place.front.len());
    let mut end = start + usize::from(whole.get(start) == Some(&b'%'));
    while is_run(end) {
        end += 1;
    }
    let value = value(&whole[start..end]).ok_or((3, start + 1))?;
    for mark in place.back.bytes().filter(|&byte| byte != b' ') {
        let at = past_spaces(end);
        if whole.get(at) != Some(&mark) {
            return Err((3, at + 1));
        }
        end = at + 1;
    }
    if end != whole.len() {
        return Err((3, end + 1));
    }
    if is_over(&value, place.limit) {
        return Err((4, start + 1));
    }
    Ok(value)
}

/// What the reader says of it.
fn found(place: &Place, text: &[u8]) -> Result<String, (u32, usize)> {
    let whole = [place.front.as_bytes(), text, place.back.as_bytes()].concat();
    match read_placed(&whole) {
        Ok((statement, _)) => Ok(number_of(&statement).to_string()),
        Err(verdict) => Err((verdict.reason, verdict.column)),
    }
}

/// Texts with bytes that make an expression have tests of their own.
#[track_caller]
fn agree(place: &Place, text: &[u8]) {
    if text.iter().any(|byte| b"+-*()".contains(byte)) {
        return;
    }
    assert_eq!(found(place, text), expected(place, text), "{}{}", place.front, text.escape_ascii());
}

/// The word is a number of this value in all places.
#[track_caller]
fn is(word: &str, value: u128) {
    assert_eq!(self::value(word.as_bytes()), Some(value.to_string()), "{word}");
    for place in places() {
        let over = value > place.limit.parse().unwrap();
        let want = if over { Err((4, place.front.len() + 1)) } else { Ok(value.to_string()) };
        assert_eq!(found(&place, word.as_bytes()), want, "{}{word}", place.front);
    }
}

/// The word is no number in any place.
#[track_caller]
fn is_none(word: &str) {
    assert_eq!(value(word.as_bytes()), None, "{word}");
    for place in places() {
        assert_eq!(found(&place, word.as_bytes()), Err((3, place.front.len() + 1)), "{}{word}", place.front);
    }
}

/// The value in each base, the digits as short as they can be.
fn spellings(value: u128) -> [String; 8] {
    [
        format!("{value}"),
        format!("0x{value:x}"),
        format!("0x{value:X}"),
        format!("0X{value:x}"),
        format!("0X{value:X}"),
        if value == 0 { "0".into() } else { format!("0{value:o}") },
        format!("0b{value:b}"),
        format!("0B{value:b}"),
    ]
}

/// Zeros put before the digits; `None` for decimals, which take none.
fn with_zeros(word: &str, zeros: usize) -> Option<String> {
    let zeros = "0".repeat(zeros);
    match word.as_bytes() {
        [b'0', b'x' | b'X' | b'b' | b'B', ..] => Some(format!("{}{zeros}{}", &word[..2], &word[2..])),
        [b'0', ..] => Some(format!("{zeros}{word}")),
        _ => None,
    }
}

/// Reason, line, column, held, peak of the lines behind a good first one.
#[track_caller]
fn gives(lines: &[&str], want: [usize; 5]) {
    let answer = judge(&sheet(lines), &mut [0; 100]);
    let found = [answer.reason as usize, answer.line, answer.column, answer.held as usize, answer.peak as usize];
    assert_eq!(found, want, "{lines:?}");
}

// Which words are numbers.

#[test]
fn a_capital_u_once_and_last() {
    is("0U", 0);
    is("64U", 64);
    is("0x40U", 64);
    is("0X40U", 64);
    is("064U", 52);
    is("0b1U", 1);
    is("0B1U", 1);
    for word in ["64u", "0u", "064u", "0x40u", "0b1u", "0UU", "64UU", "064UU", "0x40UU", "0b1UU", "64Uu", "64uU"] {
        is_none(word);
    }
    for word in ["0xU", "0XU", "0bU", "0BU", "U", "UU", "u", "U1", "64U1", "0U1", "0U0", "6U4", "0Ux1", "0xU1", "0bU1", "64UL", "64L"] {
        is_none(word);
    }
}

#[test]
fn zeros() {
    for word in ["0", "00", "000", "0U", "00U", "000U", "0x0", "0x00", "0X000U", "0b0", "0b00", "0B000U"] {
        is(word, 0);
    }
    is("0x00fF", 255);
    is("0b0011", 3);
    is("0011", 9);
}

#[test]
fn a_zero_and_digits_are_octal() {
    is("040", 32);
    is("064", 52);
    is("0100", 64);
    is("01", 1);
    is("07", 7);
    is("010", 8);
    is("0777", 511);
    for word in ["08", "09", "018", "019", "080", "008", "0778", "0o7", "0O7", "00x1", "00b1", "0a", "01a", "0_1", "0$"] {
        is_none(word);
    }
}

#[test]
fn binary() {
    is("0b100000", 32);
    is("0B100000", 32);
    is("0b1", 1);
    is("0b10", 2);
    for word in ["0b", "0B", "0b2", "0B2", "0b12", "0b102", "0b1b", "0bb1", "0bx1", "0xx1", "b1", "1b1", "0b1f", "0b_1", "0b1_0"] {
        is_none(word);
    }
    // the b is a digit here
    is("0xb1", 177);
    is("0x0b1", 177);
    is("0xB", 11);
}

#[test]
fn only_the_whole_run_counts() {
    // the column of the run, not of the byte where it goes wrong
    gives(&["0|mov.b32 x, 08;"], [3, 2, 14, 0, 0]);
    gives(&["0|mov.b32 x, 64abc;"], [3, 2, 14, 0, 0]);
    gives(&["0|mov.b32 x,   0b12;"], [3, 2, 16, 0, 0]);
    gives(&["0|@alloc [t], 64u;"], [3, 2, 52, 0, 0]);
    gives(&["0|@ld(32x32b.x1) {r}, [t+0o7];"], [3, 2, 49, 0, 0]);
    gives(&["0|@ld(32x32b.x1) {r}, [t + 0bU];"], [3, 2, 51, 0, 0]);
    gives(&["0|@mma(f16) [t+010], [t+019], b, i, p;"], [3, 2, 50, 0, 0]);
    // here the run is over
    gives(&["0|mov.b32 x, 0b1.5;"], [3, 2, 17, 0, 0]);
    gives(&["0|mov.b32 x, 040 U;"], [3, 2, 18, 0, 0]);
    gives(&["0|mov.b32 x, 0 b1;"], [3, 2, 16, 0, 0]);
    gives(&["0|mov.b32 x, 0b%1;"], [3, 2, 14, 0, 0]);
    gives(&["0|mov.b32 x, 00%1;"], [3, 2, 16, 0, 0]);
    gives(&["0|mov.b32 x, %0b1;"], [3, 2, 14, 0, 0]);
}

#[test]
fn what_is_no_number_of_this_sort() {
    let reason = |text: &str| judge_alone(text.as_bytes()).reason;
    assert_eq!(reason("tcgen05.ld.sync.aligned.32x32b.x1.b32 {r}, [t];"), 0);
    for num in ["01", "001", "1U", "0x1", "0X1", "0b1", "02", "0b10", "040", "32U", "0x20", "0b100000"] {
        let text = format!("tcgen05.ld.sync.aligned.32x32b.x{num}.b32 {{r}}, [t];");
        assert_eq!(judge_alone(text.as_bytes()), Verdict { reason: 3, column: 1, operand: None }, "{text}");
    }
    assert_eq!(reason("tcgen05.alloc.cta_group::1.sync.aligned.b32 [t], 32;"), 0);
    for group in ["01", "1U", "0x1", "0b1"] {
        assert_eq!(reason(&format!("tcgen05.alloc.cta_group::{group}.sync.aligned.b32 [t], 32;")), 3);
        assert_eq!(reason(&format!("tcgen05.mma.cta_group::{group}.kind::f16 [d], a, b, i, p;")), 3);
    }
    for (digit, want) in [("1", (0, 2)), ("01", (2, 1)), ("1U", (2, 1)), ("0x1", (2, 1)), ("0b1", (2, 1))] {
        let text = format!("sheet\t{digit}\tsm_100a\n0\texit;\n");
        let answer = judge(text.as_bytes(), &mut []);
        assert_eq!((answer.reason, answer.line), want, "{digit}");
    }
    for warp in ["00", "0U", "0x0", "0b0"] {
        gives(&[&format!("{warp}|exit;")], [2, 2, 1, 0, 0]);
    }
    // names that are like parts of a number
    for name in ["U", "b1", "x1", "B0U"] {
        assert_eq!(reason(&format!("mov.b32 {name}, 1;")), 0);
    }
}

// How large numbers may be.

#[test]
fn largest_numbers_written_out() {
    let max32 = u128::from(u32::MAX);
    let max64 = u128::from(u64::MAX);
    is("4294967295", max32);
    is("0xffffffff", max32);
    is("037777777777", max32);
    is("0b11111111111111111111111111111111", max32);
    is("4294967296", max32 + 1);
    is("0x100000000", max32 + 1);
    is("040000000000", max32 + 1);
    is("0b100000000000000000000000000000000", max32 + 1);
    is("18446744073709551615", max64);
    is("0xffffffffffffffff", max64);
    is("01777777777777777777777", max64);
    is("0b1111111111111111111111111111111111111111111111111111111111111111", max64);
    is("18446744073709551616", max64 + 1);
    is("0x10000000000000000", max64 + 1);
    is("02000000000000000000000", max64 + 1);
    is("0b10000000000000000000000000000000000000000000000000000000000000000", max64 + 1);
}

#[test]
fn both_sides_of_both_limits() {
    for limit in [1u128 << 32, 1 << 64] {
        for value in [limit - 2, limit - 1, limit, limit + 1, limit + 32, 2 * limit - 1, 2 * limit, 3 * limit, 10 * limit, 16 * limit + 1] {
            for word in spellings(value) {
                is(&word, value);
                is(&format!("{word}U"), value);
                is_none(&format!("{word}u"));
                is_none(&format!("{word}g"));
                for zeros in [1, 2, 64, 1_000] {
                    match with_zeros(&word, zeros) {
                        Some(longer) => {
                            is(&longer, value);
                            is(&format!("{longer}U"), value);
                        }
                        // with a zero in front its digits are octal, or it is no number
                        None => {
                            let octal = format!("{}{word}", "0".repeat(zeros));
                            for place in places() {
                                agree(&place, octal.as_bytes());
                                assert_ne!(found(&place, octal.as_bytes()), Ok(value.to_string()));
                            }
                        }
                    }
                }
            }
        }
    }
}

/// No number is taken by its remainder.
#[test]
fn nothing_wraps() {
    for power in 32..=126 {
        for rest in [0, 1, 32, 64] {
            let value = (1u128 << power) + rest;
            for word in spellings(value) {
                is(&word, value);
            }
        }
    }
    for value in [u128::MAX, u128::MAX - 1, 10u128.pow(38), 8u128.pow(42), 3u128.pow(80)] {
        for word in spellings(value) {
            is(&word, value);
        }
    }
    for power in 0..=64 {
        let value = 1u128 << power;
        for word in spellings(value).into_iter().chain(spellings(value - 1)) {
            agree(&places()[1], word.as_bytes());
        }
    }
}

#[test]
fn very_long_numbers() {
    // the longest that a statement alone may have
    let longest = LONGEST_STATEMENT - "mov.b64 x, ;".len();
    let [narrow, wide, ..] = &places()[..] else { unreachable!() };
    for (front, low, high, bad) in [("", "1", "9", "a"), ("0x", "0", "f", "g"), ("0", "0", "7", "8"), ("0b", "0", "1", "2")] {
        for length in [100, 1_000, longest] {
            let digits = length - front.len();
            let fill = |digit: &str, last: &str| format!("{front}{}{last}", digit.repeat(digits - last.len()));
            for place in [narrow, wide] {
                let column = place.front.len() + 1;
                let says = |word: &str| {
                    assert_eq!(word.len(), length);
                    found(place, word.as_bytes())
                };
                assert_eq!(says(&fill(high, "")), Err((4, column)));
                assert_eq!(says(&fill(high, "U")), Err((4, column)));
                assert_eq!(says(&fill(high, bad)), Err((3, column)));
                assert_eq!(says(&fill(high, "u")), Err((3, column)));
                assert_eq!(says(&fill(high, "UU")), Err((3, column)));
                let want = if low == "1" { [Err((4, column)), Err((4, column))] } else { [Ok("0".into()), Ok("1".into())] };
                assert_eq!([says(&fill(low, "")), says(&fill(low, "1"))], want);
            }
        }
        let too_long = format!("{front}{}", high.repeat(longest + 1 - front.len()));
        assert_eq!(found(wide, too_long.as_bytes()), Err((3, LONGEST_STATEMENT + 2)));
        let much_too_long = format!("{front}{}", high.repeat(1 << 20));
        assert_eq!(found(wide, much_too_long.as_bytes()).unwrap_err().0, 3);
    }
}

/// With a number over its limit a fault of form is still 3, at its own column.
#[test]
fn three_before_four_in_every_base() {
    for word in spellings(1 << 32) {
        let length = word.len();
        gives(&[&format!("0|mov.b32 x, {word}U;")], [4, 2, 14, 0, 0]);
        gives(&[&format!("0|mov.b32 x, {word}U")], [3, 2, 15 + length, 0, 0]);
        gives(&[&format!("0|mov.b32 x, {word};;")], [3, 2, 15 + length, 0, 0]);
        gives(&[&format!("0|mov.b32 1x, {word};")], [3, 2, 11, 0, 0]);
        // the first of two
        gives(&[&format!("0|@mma(f16) [t+{word}], [u+{word}], b, i, p;")], [4, 2, 41, 0, 0]);
        gives(&[&format!("0|@mma(f16) [t+07], [u+{word}], b, i, p;")], [4, 2, 49, 0, 0]);
    }
}

// Against the second reader.

#[test]
fn every_byte_of_good_numbers_changed() {
    let good = [
        "0",
        "7",
        "64",
        "064",
        "00",
        "0x40",
        "0XfF",
        "0b100",
        "0B01",
        "0U",
        "64U",
        "040U",
        "0x4AU",
        "0b1U",
        "4294967295",
        "0xffffffff",
        "037777777777",
        "0b11111111111111111111111111111111",
        "040000000000U",
        "18446744073709551615",
        "01777777777777777777777",
    ];
    let mut numbers = 0;
    let mut others = 0;
    for place in places() {
        for word in good.map(str::as_bytes) {
            assert!(value(word).is_some());
            agree(&place, word);
            for at in 0..=word.len() {
                let (front, back) = word.split_at(at);
                // the byte left out, another in its place, another before it
                let rest = back.get(1..).unwrap_or_default();
                agree(&place, &[front, rest].concat());
                for byte in 0..=255 {
                    for changed in [[front, &[byte], rest].concat(), [front, &[byte], back].concat()] {
                        agree(&place, &changed);
                        let counted = if value(&changed).is_some() { &mut numbers } else { &mut others };
                        *counted += 1;
                    }
                }
            }
        }
    }
    assert!(numbers > 9 * 2_000 && others > 9 * 50_000, "{numbers} {others}");
}

/// Calls `each` with every word of the alphabet that has this length.
fn every_word(alphabet: &[u8], length: usize, word: &mut Vec<u8>, each: &mut impl FnMut(&[u8])) {
    if length == 0 {
        return each(word);
    }
    for &byte in alphabet {
        word.push(byte);
        every_word(alphabet, length - 1, word, each);
        word.pop();
    }
}

#[test]
fn every_short_word() {
    let alphabet = b"01789aBbxXuUgo_$";
    let place = &places()[0];
    // how many are numbers, counted by the rules: of the digits in the alphabet 4
    // begin a decimal, 5 go on with it, 3 are octal, 2 binary, 8 hexadecimal
    let bare = |length: u32| match length {
        0 => 0,
        1 => 4 + 1,
        2 => 4 * 5 + 3,
        _ => 4 * 5usize.pow(length - 1) + 3usize.pow(length - 1) + 2 * 8usize.pow(length - 2) + 2 * 2usize.pow(length - 2),
    };
    for length in 1..=4 {
        let mut numbers = 0;
        every_word(alphabet, length, &mut Vec::new(), &mut |word| {
            let want = value(word).ok_or((3, place.front.len() + 1));
            assert_eq!(found(place, word), want, "{}", word.escape_ascii());
            numbers += usize::from(want.is_ok());
        });
        let length = length as u32;
        assert_eq!(numbers, bare(length) + bare(length - 1));
    }
}

#[test]
fn every_value_up_to_4096() {
    for value in 0..=4_096 {
        for word in spellings(value) {
            for end in ["", "U"] {
                let text = format!("mov.b32 x, {word}{end};");
                let s = read(text.as_bytes()).unwrap();
                assert_eq!(number_of(&s), value as u64, "{text}");
                // written in decimal
                let mut room = [0; 40];
                let length = write(&s, &mut room).unwrap();
                assert_eq!(room[..length], *format!("mov.b32 x, {value};").as_bytes());
            }
        }
    }
}

// Sheets.

#[test]
fn requests_in_every_base() {
    for columns in [32, 64, 128, 256, 512] {
        for word in spellings(columns).into_iter().chain(spellings(columns).map(|word| word + "U")) {
            let lines = [format!("0|@alloc [t], {word};"), format!("0|@dealloc t, {columns};"), "0|exit;".into()];
            gives(&lines.each_ref().map(String::as_str), [0, 4, 0, 0, columns as usize]);
            let lines = [format!("0|@alloc [t], {columns};"), format!("0|@dealloc t, {word};"), "0|exit;".into()];
            gives(&lines.each_ref().map(String::as_str), [0, 4, 0, 0, columns as usize]);
        }
    }
    for columns in [0, 1, 16, 33, 52, 96, 1_024, 1 << 31, (1 << 32) - 1] {
        for word in spellings(columns).into_iter().chain(spellings(columns).map(|word| word + "U")) {
            gives(&[&format!("0|@alloc [t], {word};")], [9, 2, 52, 0, 0]);
            gives(&["0|@alloc [t], 32;", &format!("0|@dealloc t,  {word};")], [9, 3, 53, 32, 32]);
        }
    }
}

#[test]
fn octal_is_not_taken_for_decimal() {
    gives(&["0|@alloc [t], 064;"], [9, 2, 52, 0, 0]);
    gives(&["0|@alloc [t], 032;"], [9, 2, 52, 0, 0]);
    gives(&["0|@alloc [t], 64;", "0|@dealloc t, 064;"], [9, 3, 52, 64, 64]);
    gives(&["0|@alloc [t], 064U;"], [9, 2, 52, 0, 0]);
    gives(&["0|@alloc [t], 040;", "0|@dealloc t, 040;", "0|exit;"], [0, 4, 0, 0, 32]);
    // column 31 is the last of the holding
    let read = |offset: &str| format!("0|@ld(32x32b.x1) {{r}}, [t+{offset}];");
    gives(&["0|@alloc [t], 32;", &read("037")], [15, 3, 1, 32, 32]);
    gives(&["0|@alloc [t], 32;", &read("040")], [14, 3, 46, 32, 32]);
    gives(&["0|@alloc [t], 32;", &read("0b11111U")], [15, 3, 1, 32, 32]);
    gives(&["0|@alloc [t], 32;", &read("0b100000U")], [14, 3, 46, 32, 32]);
    // lane 2
    gives(&["0|@alloc [t], 32;", &read("0400000")], [8, 3, 46, 32, 32]);
}

#[test]
fn descriptors_in_every_base() {
    let shared = spellings(0x0000400800100000);
    let good = spellings(0x08100010);
    let bad = spellings(0x08000010);
    for ((b, i), j) in shared.iter().zip(&good).zip(&bad) {
        let b = format!("0|mov.b64 b, {b}U;");
        let i = format!("0|mov.b32 i, {i};");
        let j = format!("0|mov.b32 i, {j}U;");
        let alloc = "0|@alloc [t], 0100;";
        let mma = "0|@mma(f16) [t], [t+070U], b, i, p;";
        gives(&[alloc, &b, &i, mma, "0|@dealloc t, 0x40;", "0|exit;"], [0, 7, 0, 0, 64]);
        gives(&[alloc, &b, &j, mma], [20, 5, 56, 64, 64]);
        gives(&[alloc, &b, &i, "0|@mma(f16) [t], [t+071U], b, i, p;"], [14, 5, 43, 64, 64]);
    }
}
