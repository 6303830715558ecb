//! Expressions in the place of a number.
//!
//! Much here is compared with a second reader. It cuts the tokens at the operator
//! that is done last, and asks for every front of the text whether an expression
//! can start so; it shares no way of working with the reader that is tested.

use staplehorn_reference::entries::{long, sheet};
use staplehorn_reference::judge::judge;
use staplehorn_reference::statement::*;

const LEAST: i128 = -(1 << 63);
const MOST: i128 = (1 << 63) - 1;

// The second reader.

/// A number, or a mark.
#[derive(Clone, Copy, PartialEq)]
enum Token {
    Number(i128),
    Mark(u8),
}

fn is_operand_end(token: &Token) -> bool {
    matches!(token, Token::Number(_) | Token::Mark(b')'))
}

/// Where the last operator of these stands that is between two operands and in no
/// parenthesis.
fn last_operator(tokens: &[Token], marks: &[u8]) -> Option<usize> {
    let mut depth = 0;
    let mut last = None;
    for (place, token) in tokens.iter().enumerate() {
        match token {
            Token::Mark(b'(') => depth += 1,
            Token::Mark(b')') => depth -= 1,
            Token::Mark(mark) if depth == 0 && place > 0 && marks.contains(mark) && is_operand_end(&tokens[place - 1]) => {
                last = Some(place)
            }
            _ => {}
        }
    }
    last
}

/// A value, or none if it or a part of it is out of range.
type Value = Option<i128>;

fn in_range(value: i128) -> Value {
    (LEAST..=MOST).contains(&value).then_some(value)
}

/// The value of an expression in so many levels; `Err` for what is none.
fn value(tokens: &[Token], level: u32) -> Result<Value, ()> {
    if level > 16 {
        return Err(());
    }
    for marks in [&b"+-"[..], b"*"] {
        let Some(place) = last_operator(tokens, marks) else {
            continue;
        };
        let left = value(&tokens[..place], level)?;
        let right = value(&tokens[place + 1..], level)?;
        let (Some(left), Some(right)) = (left, right) else {
            return Ok(None);
        };
        return Ok(in_range(match tokens[place] {
            Token::Mark(b'+') => left + right,
            Token::Mark(b'-') => left - right,
            _ => left * right,
        }));
    }
    match tokens {
        [Token::Number(number)] => Ok(in_range(*number)),
        [Token::Mark(b'-'), operand @ ..] => Ok(value(operand, level + 1)?.and_then(|value| in_range(-value))),
        [Token::Mark(b'('), inner @ .., Token::Mark(b')')] if are_balanced(inner) => value(inner, level + 1),
        _ => Err(()),
    }
}

fn are_balanced(tokens: &[Token]) -> bool {
    let mut depth = 0;
    for token in tokens {
        match token {
            Token::Mark(b'(') => depth += 1,
            Token::Mark(b')') => depth -= 1,
            _ => {}
        }
        if depth < 0 {
            return false;
        }
    }
    depth == 0
}

/// Can an expression start with these tokens?
fn is_start(tokens: &[Token]) -> bool {
    let mut whole = tokens.to_vec();
    if !whole.last().is_some_and(is_operand_end) {
        whole.push(Token::Number(1));
    }
    (0..=16).any(|_| {
        let good = are_balanced(&whole) && value(&whole, 0).is_ok();
        whole.push(Token::Mark(b')'));
        good
    })
}

/// The tokens of a text of decimals and marks, and where each starts.
fn tokens(text: &str) -> Vec<(usize, Token)> {
    let mut tokens = Vec::new();
    let mut at = 0;
    while at < text.len() {
        let digits = text[at..].bytes().take_while(u8::is_ascii_digit).count();
        if digits > 0 {
            tokens.push((at, Token::Number(text[at..at + digits].parse().unwrap_or(i128::MAX))));
        } else if text.as_bytes()[at] != b' ' {
            tokens.push((at, Token::Mark(text.as_bytes()[at])));
        }
        at += digits.max(1);
    }
    tokens
}

/// What the second reader says of a text in the place of a number: a value, or a
/// reason and where it points, counted from 0 at the start of the text.
fn expected(text: &str, limit: i128) -> Result<i128, (u32, usize)> {
    let all = tokens(text);
    let only: Vec<Token> = all.iter().map(|token| token.1).collect();
    let first_bad = (1..=only.len()).find(|&count| !is_start(&only[..count]));
    if let Some(count) = first_bad {
        return Err((3, all[count - 1].0));
    }
    let Ok(value) = (if are_balanced(&only) { value(&only, 0) } else { Err(()) }) else {
        return Err((3, text.len()));
    };
    let value = if let [Token::Number(number)] = only[..] { Some(number) } else { value };
    value.filter(|value| (0..=limit).contains(value)).ok_or((4, all[0].0))
}

// Places where a number may stand.

const LIMIT32: i128 = u32::MAX as i128;
const LIMIT64: i128 = u64::MAX as i128;

/// What stands before a number, what behind it, and the largest there.
fn places() -> Vec<(String, &'static str, i128)> {
    [
        ("mov.b32 x, ", ";", LIMIT32),
        ("mov.b64 x, ", ";", LIMIT64),
        ("@alloc [t], ", ";", LIMIT32),
        ("@dealloc t, ", ";", LIMIT32),
        ("@ld(32x32b.x1) {r}, [t+", "];", LIMIT32),
        ("@st(32x32b.x1) [t+", "], {r};", LIMIT32),
        ("@mma(f16) [d+", "], a, b, i, p;", LIMIT32),
        ("@mma(f16) [d], [a+", "], b, i, p;", LIMIT32),
        ("@mma.sp(f16) [d], a, b, [m+", "], i, p;", LIMIT32),
    ]
    .map(|(front, back, limit)| (long(front), back, limit))
    .into()
}

fn number_of(s: &Statement) -> i128 {
    match s {
        Statement::Mov { value, .. } => (*value).into(),
        Statement::Alloc { columns, .. } | Statement::Dealloc { columns, .. } => (*columns).into(),
        Statement::Ld { address, .. } | Statement::St { address, .. } => address.offset.into(),
        Statement::Mma { d, a, meta, .. } => {
            let a = if let Operand::Address(address) = a { address.offset } else { 0 };
            (d.offset + a + meta.map_or(0, |address| address.offset)).into()
        }
        _ => panic!("{s:?} has no number"),
    }
}

/// What the reader says of a text in a place, counted in the same way.
fn found(front: &str, text: &str, back: &str) -> Result<i128, (u32, usize)> {
    match read_placed(format!("{front}{text}{back}").as_bytes()) {
        Ok((statement, _)) => Ok(number_of(&statement)),
        Err(verdict) => Err((verdict.reason, verdict.column - 1 - front.len())),
    }
}

#[track_caller]
fn agree(text: &str) {
    for (front, back, limit) in places() {
        assert_eq!(found(&front, text, back), expected(text, limit), "{front}{text}");
    }
}

/// The text has this value in every place that takes it.
#[track_caller]
fn is(text: &str, value: i128) {
    for (front, back, limit) in places() {
        let want = if value > limit { Err((4, 0)) } else { Ok(value) };
        assert_eq!(found(&front, text, back), want, "{front}{text}");
    }
}

/// The text is refused in every place; a `^` stands before the byte that is named.
#[track_caller]
fn refused(marked: &str, reason: u32) {
    let at = marked.find('^').expect("the byte is marked");
    for (front, back, _) in places() {
        assert_eq!(found(&front, &marked.replace('^', ""), back), Err((reason, at)), "{front}{marked}");
    }
}

/// Reason, line, column, held, peak of the lines behind a good first one.
#[track_caller]
fn gives(lines: &[&str], want: [usize; 5]) {
    let answer = judge(&sheet(lines), &mut [0; 100]);
    let found = [answer.reason as usize, answer.line, answer.column, answer.held as usize, answer.peak as usize];
    assert_eq!(found, want, "{lines:?}");
}

/// So many of a mark around a number.
fn nested(opens: &str) -> String {
    let closes = opens.matches('(').count();
    format!("{opens}1{}", ")".repeat(closes))
}

// What is taken.

#[test]
fn precedence_and_association() {
    is("(32*65536)+4", 2_097_156);
    is("10-4-3", 3);
    is("10-(4-3)", 9);
    is("2*3*4", 24);
    is("2+3*4", 14);
    is("2*3+4", 10);
    is("(2+3)*4", 20);
    is("20-2*3-4", 10);
    is("1+2-3+4", 4);
    is("7-2*-3", 13);
    is("2*(3-(4-5))*6", 48);
}

#[test]
fn doubled_signs() {
    is("--5", 5);
    is("1--2", 3);
    is("5+-2", 3);
    refused("^1+-2", 4);
    refused("^2*-3", 4);
    is("-2*-3", 6);
    is("----5", 5);
    refused("^---5", 4);
    is("1---1+1", 1);
}

#[test]
fn what_is_not_taken() {
    refused("^+1", 3);
    refused("1+^+2", 3);
    refused("-^+2", 3);
    refused("(^+2)", 3);
    for text in ["4^/2", "4^%2", "4 ^% 2", "1^<<2", "1^>>2", "1^<2", "1^==1", "1^&1", "1^|1", "1^!", "1^.5", "1^:1", "1^?1:2"] {
        refused(text, 3);
    }
    for text in ["^~1", "^!1", "^x", "1+^x", "-^x", "2*^%r", "(^x)", "^*2", "2*^*2", "1-^*2", "(^*2)", "^)", "1^)", "(1)^)", "^08", "1+^08"]
    {
        refused(text, 3);
    }
    for text in ["(^)", "1 ^2", "(1 ^2)", "(1)^(2)", "2^(3)", "(2)^3", "1+(^)", "-(^)", "(1+^)", "(1^,)"] {
        refused(text, 3);
    }
}

#[test]
fn an_end_that_comes_too_early() {
    for (front, _, _) in places() {
        for text in ["(1", "(", "-", "1+", "1*", "1-", "((1)", "(1)", "1", "-1", "(1  ", "1 + "] {
            assert_eq!(found(&front, text, ""), Err((3, text.len())), "{front}{text}");
        }
    }
    gives(&["0|mov.b32 x, (1"], [3, 2, 16, 0, 0]);
    refused("1+^", 3);
    refused("(1^", 3);
    refused("-^", 3);
    refused("^", 3);
}

#[test]
fn spaces_at_every_token() {
    is("- ( 3 ) + 5", 2);
    is("  (  2  -  1  )  *  7  ", 7);
    is("2-1", 1);
    is("2 -1", 1);
    is("2- 1", 1);
    refused("  ^- 1", 4);
}

#[test]
fn numbers_of_every_base() {
    is("0x10+0b11", 19);
    is("040*2U", 64);
    is("-0XaU+0B1010U", 0);
    refused("^0U-1", 4);
    refused("1+^0b2", 3);
    refused("1+^0x", 3);
}

#[test]
fn each_offset_has_its_own_levels() {
    let deep = nested(&"(".repeat(16));
    let text = long(&format!("@mma.sp(f16) [d+{deep}], [a+{deep}], b, [m+{deep}], i, p;"));
    assert!(read(text.as_bytes()).is_ok());
    let text = long("@mma.sp(f16) [d+1], [a+-1], b, [m+-1], i, p;");
    assert_eq!(judge_alone(text.as_bytes()), Verdict { reason: 4, column: text.find("-1").unwrap() + 1, operand: Some(1) });
}

#[test]
fn the_plus_of_an_address() {
    gives(&["0|@ld(32x32b.x1) {r}, [t+(65536)*65536];"], [4, 2, 49, 0, 0]);
    gives(&["0|@ld(32x32b.x1) {r}, [t-4];"], [3, 2, 48, 0, 0]);
    gives(&["0|@ld(32x32b.x1) {r}, [t++4];"], [3, 2, 49, 0, 0]);
    gives(&["0|@ld(32x32b.x1) {r}, [t*4];"], [3, 2, 48, 0, 0]);
    gives(&["0|@ld(32x32b.x1) {r}, [(t)+4];"], [3, 2, 47, 0, 0]);
    gives(&["0|@ld(32x32b.x1) {r}, [4+t];"], [3, 2, 47, 0, 0]);
    gives(&["0|@ld(32x32b.x1) {r}, [t+(4];"], [3, 2, 51, 0, 0]);
    gives(&["0|@ld(32x32b.x1) {r}, ([t+4]);"], [3, 2, 46, 0, 0]);
    gives(&["0|@alloc [t+4], 32;"], [3, 2, 49, 0, 0]);
}

#[test]
fn values_are_what_is_kept() {
    let becomes = |text: &str, want: &str| {
        let mut room = [0; 200];
        let length = canonical(long(text).as_bytes(), &mut room).unwrap();
        assert_eq!(room[..length], *long(want).as_bytes());
    };
    becomes("@ld(32x32b.x1) {r}, [t+2*2];", "@ld(32x32b.x1) {r}, [t+4];");
    becomes("@ld(32x32b.x1) {r}, [t+2-2];", "@ld(32x32b.x1) {r}, [t];");
    becomes("@ld(32x32b.x1) {r}, [t+-0];", "@ld(32x32b.x1) {r}, [t];");
    becomes("@alloc [t], -(-32);", "@alloc [t], 32;");
    becomes("mov.b64 x, 9223372036854775806 + 1;", "mov.b64 x, 9223372036854775807;");
}

// How large partial results may be.

#[test]
fn a_number_alone() {
    is("18446744073709551615", LIMIT64);
    is("9223372036854775808 ", 1 << 63);
    for text in
        ["^(18446744073709551615)", "^(9223372036854775808)", "^--9223372036854775808", "^9223372036854775808+0", "^0+9223372036854775808"]
    {
        refused(text, 4);
    }
    is("(9223372036854775807)", MOST);
    is("9223372036854775807+0", MOST);
    is("0+9223372036854775807", MOST);
}

#[test]
fn both_ends_of_the_range() {
    let wide = "mov.b64 x, ";
    let four = |text: &str| assert_eq!(found(wide, text, ";"), Err((4, 0)), "{text}");
    let reads = |text: &str, value: i128| assert_eq!(found(wide, text, ";"), Ok(value), "{text}");
    reads("-9223372036854775807-1+9223372036854775807+1", 0);
    four("-9223372036854775807-2+9223372036854775807+2");
    four("-9223372036854775808");
    four("-9223372036854775808+9223372036854775807+1");
    four("9223372036854775807+1");
    reads("9223372036854775807-1+1", MOST);
    four("9223372036854775807+1-1");
    reads("-4611686018427387904*2+9223372036854775807+1", 0);
    four("4611686018427387904*2-1");
    reads("9223372036854775807+4611686018427387904*-2+1", 0);
    four("-(-9223372036854775807-1)");
    reads("-(-9223372036854775807)", MOST);
    four("(-9223372036854775807-1)*-1");
    reads("(-9223372036854775807-1)*1+9223372036854775807+2", 1);
    reads("3037000499*3037000499", 9_223_372_030_926_249_001);
    four("3037000500*3037000500");
    four("4294967296*4294967296");
    four("18446744073709551616*0");
    four(&format!("1{}-1{}", "0".repeat(900), "0".repeat(900)));
}

#[test]
fn a_product_with_0_does_not_excuse() {
    refused("^0*9223372036854775808", 4);
    refused("^9223372036854775808*0", 4);
    refused("^4294967296*4294967296*0", 4);
    refused("^0*(4294967296*4294967296)", 4);
    refused("^(9223372036854775807+1)*0", 4);
    is("0*4294967296*4294967296", 0);
    is("4294967296*0*4294967296", 0);
}

#[test]
fn the_limit_of_the_place() {
    for (front, back, limit) in places() {
        let edge = limit.min(MOST);
        for (text, value) in [
            (format!("{}+1", edge - 1), Some(edge)),
            (format!("{edge}+1"), None),
            (format!("({edge})"), Some(edge)),
            (format!("--{edge}"), Some(edge)),
            ("-1".into(), None),
            ("0-1".into(), None),
            ("-0".into(), Some(0)),
            ("-(0)".into(), Some(0)),
            ("0*-1".into(), Some(0)),
            ("1-1".into(), Some(0)),
        ] {
            assert_eq!(found(&front, &text, back), value.ok_or((4, 0)), "{front}{text}");
        }
    }
    gives(&["0|mov.b32 x, -1;"], [4, 2, 14, 0, 0]);
    gives(&["0|@alloc [t], -32;"], [4, 2, 52, 0, 0]);
    gives(&["0|@ld(32x32b.x1) {r}, [t+-1];"], [4, 2, 49, 0, 0]);
    gives(&["0|mov.b32 x, -4611686018427387904*2+9223372036854775807+1;", "0|exit;"], [0, 3, 0, 0, 0]);
}

#[test]
fn three_before_four() {
    refused("4294967296*4294967296*4294967296+^", 3);
    refused("-1 -1 -1 ^)", 3);
    refused("(18446744073709551616 ^1)", 3);
    refused("-1 ^x", 3);
    gives(&["0|@mma(f16) [t+-1], [u+1 2], b, i, p;"], [3, 2, 51, 0, 0]);
}

// Levels.

#[test]
fn sixteen_levels() {
    for (count, good) in [(15, true), (16, true), (17, false), (18, false), (100, false)] {
        for unit in ["(", "-", "(-", "-(", "((-", "--("] {
            let opens: String = unit.chars().cycle().take(count).collect();
            let text = nested(&opens);
            let minuses = opens.matches('-').count();
            for (front, back, _) in places() {
                let want = match (good, minuses % 2) {
                    (false, _) => Err((3, 16)),
                    (true, 1) => Err((4, 0)),
                    (true, _) => Ok(1),
                };
                assert_eq!(found(&front, &text, back), want, "{front}{text}");
            }
        }
    }
    gives(&[&format!("0|mov.b32 x, {};", nested(&"(".repeat(17)))], [3, 2, 30, 0, 0]);
}

#[test]
fn depth_is_not_count() {
    is(&["(1)"; 20].join("+"), 20);
    is(&["-(-1)"; 40].join("+"), 40);
    is(&format!("5{}", "--1".repeat(40)), 45);
    is(&format!("-1+{}", nested(&"(".repeat(16)).replace('1', "2")), 1);
    is(&format!("2-{}", nested(&"(".repeat(16))), 1);
    refused(&format!("2--{}", nested(&"(".repeat(16))).replacen("(1", "^(1", 1), 3);
    is(&format!("{}*{}", nested(&"(".repeat(16)), nested(&"-".repeat(16))), 1);
    // what is closed can be opened again
    is(&format!("{}1{}+(1){}", "(".repeat(15), "+(1)", ")".repeat(15)), 3);
    refused(&format!("{}1+(1)+(^(1)){}", "(".repeat(15), ")".repeat(15)), 3);
}

/// An expression costs as much as its bytes.
#[test]
fn long_expressions() {
    let text = "1+".repeat(1 << 20);
    let start = std::time::Instant::now();
    for text in [format!("{text}1"), text.replace('+', "*") + "1", text.replace("1+", "(") + "1", format!("1{}", " - 1".repeat(1 << 20))] {
        assert_eq!(read(format!("mov.b32 x, {text};").as_bytes()), Err(3));
    }
    assert!(start.elapsed().as_secs() < 20);
    let most = (LONGEST_STATEMENT - "mov.b32 x, 1;".len()) / 2;
    is(&format!("1{}", "+1".repeat(most - 40)), most as i128 - 39);
}

// Against the second reader.

/// Calls `each` with every word of the alphabet that has this length.
fn every_word(alphabet: &[u8], length: usize, word: &mut String, each: &mut impl FnMut(&str)) {
    if length == 0 {
        return each(word);
    }
    for &byte in alphabet {
        word.push(byte.into());
        every_word(alphabet, length - 1, word, each);
        word.pop();
    }
}

#[test]
fn every_short_text() {
    let (front, back, limit) = &places()[0];
    let mut counts = [0; 3];
    for length in 1..=6 {
        every_word(b"1 2+-*()", length, &mut String::new(), &mut |text| {
            let want = expected(text, *limit);
            assert_eq!(found(front, text, back), want, "{text}");
            counts[match want {
                Ok(_) => 0,
                Err((3, _)) => 1,
                Err(_) => 2,
            }] += 1;
        });
    }
    assert!(counts[0] > 4_000 && counts[1] > 100_000 && counts[2] > 1_000, "{counts:?}");
}

struct Random(u64);

impl Random {
    fn below(&mut self, n: u64) -> u64 {
        self.0 = self.0.wrapping_mul(6_364_136_223_846_793_005).wrapping_add(1_442_695_040_888_963_407);
        (self.0 >> 33) % n
    }

    fn number(&mut self) -> i128 {
        let edges = [0, 1, 2, LIMIT32, 1 << 32, 1 << 62, MOST - 1, MOST, MOST + 1, LIMIT64, LIMIT64 + 1, 3_037_000_500];
        match self.below(3) {
            0 => edges[self.below(edges.len() as u64) as usize],
            1 => 1 << self.below(65),
            _ => self.below(100).into(),
        }
    }

    fn text(&mut self) -> String {
        let mut text = String::new();
        for _ in 0..1 + self.below(24) {
            match self.below(9) {
                0 => text.push('+'),
                1 | 2 => text.push('-'),
                3 => text.push('*'),
                4 => text.push('('),
                5 => text.push(')'),
                6 => text.push(' '),
                _ => text.push_str(&format!("{} ", self.number())),
            }
        }
        text
    }

    /// Mostly one that reads.
    fn tree(&mut self, depth: u64) -> String {
        match self.below(if depth == 0 { 1 } else { 7 }) {
            0 | 1 => self.number().to_string(),
            2 => format!("({})", self.tree(depth - 1)),
            3 => format!("-{}", self.tree(depth - 1)),
            4 => format!("{}+{}", self.tree(depth - 1), self.tree(depth - 1)),
            5 => format!("{}-{}", self.tree(depth - 1), self.tree(depth - 1)),
            _ => format!("{}*{}", self.tree(depth - 1), self.tree(depth - 1)),
        }
    }
}

#[test]
fn random_texts() {
    let mut random = Random(7);
    let mut counts = [0; 3];
    for turn in 0..30_000 {
        let text = if turn % 3 == 0 { random.text() } else { random.tree(5) };
        agree(&text);
        counts[match expected(&text, LIMIT64) {
            Ok(_) => 0,
            Err((3, _)) => 1,
            Err(_) => 2,
        }] += 1;
    }
    assert!(counts.iter().all(|&count| count > 2_500), "{counts:?}");
}

// Sheets.

#[test]
fn expressions_in_sheets() {
    let sheet = ["0|@alloc [t], 2*16;", "1|@ld(32x32b.x1) {r}, [t+(32*65536)+31];", "1|@wait::ld;", "0|@dealloc t, (64-32);", "0|exit;"];
    gives(&sheet, [0, 6, 0, 0, 32]);
    gives(&["0|@alloc [t], (32+1);"], [9, 2, 52, 0, 0]);
    gives(&["0|@alloc [t], 32;", "0|@dealloc t,  -(-64);"], [9, 3, 53, 32, 32]);
    gives(&["0|@alloc [t], 32;", "0|@ld(32x32b.x1) {r}, [t+31+1];"], [14, 3, 46, 32, 32]);
    gives(&["0|exit;", "0|mov.b32 x, -1;"], [4, 3, 14, 0, 0]);
    gives(&["0|exit;", "0|mov.b32 x, 1+;"], [3, 3, 16, 0, 0]);
}
