//! Statements: each text is read and written in its canonical form by both sides, in rooms of several lengths. Numbers and
//! expressions have comparisons of their own (numbers.rs, expressions.rs), which are run behind this one.

use crate::sheets::{Proved, Reference, Side};
use crate::spelling::Spelling;
use crate::trees::{is_in_range, spaced as joined, Style, Tree};
use staplehorn_difftest::counts::Counts;
use staplehorn_difftest::random::Random;
use staplehorn_reference::statement as reference;

/// What stands in the room before a call, to see what was touched.
const BEFORE: u8 = 0xA5;
const ROOM: usize = 4096;

/// Compares a side with the reference on one text.
pub struct Comparison<'a, S: Side> {
    pub side: &'a S,
    pub counts: Counts,
    /// What the side wrote last in a room that takes all.
    pub written: Vec<u8>,
    ours: Vec<u8>,
    theirs: Vec<u8>,
}

impl<'a, S: Side> Comparison<'a, S> {
    pub fn new(side: &'a S) -> Self {
        let (ours, theirs) = (vec![BEFORE; ROOM], vec![BEFORE; ROOM]);
        Comparison { side, counts: Counts::new(), written: Vec::new(), ours, theirs }
    }

    /// The canonical text in a room of `room` bytes: answer, length, and every byte of the room and past it.
    fn canonical(&mut self, text: &[u8], room: usize) -> usize {
        let (reason, length) = self.side.canonical(text, &mut self.ours[..room]);
        let theirs = Reference.canonical(text, &mut self.theirs[..room]);
        let same = self.ours[..room] == self.theirs[..room];
        self.counts.compare("canonical", theirs.0, (reason, length, same), (theirs.0, theirs.1, true), || shown(text));
        if room == ROOM {
            self.written.clear();
            self.written.extend_from_slice(&self.ours[..length.min(room)]);
        }
        let used = length.max(theirs.1).min(room);
        self.ours[..used].fill(BEFORE);
        self.theirs[..used].fill(BEFORE);
        if self.ours[..room.min(64)].iter().any(|&b| b != BEFORE) {
            self.ours[..room].fill(BEFORE);
        }
        theirs.1
    }

    /// Answers the reason and the column that the reference gives.
    pub fn text(&mut self, text: &[u8]) -> (u32, usize) {
        self.counts.seen("texts", 0);
        let (reason, column) = Reference.statement(text);
        self.counts.compare("reason", reason, self.side.statement(text), (reason, column), || shown(text));
        self.counts.seen(column_name(text, reason, column), reason);
        if let Ok(s) = &reference::read(text) {
            self.counts.seen("form", reference::form(s));
        }
        let length = self.canonical(text, ROOM);
        if length > 0 {
            self.canonical(text, length);
            self.canonical(text, length - 1);
        }
        (reason, column)
    }
}

/// What stands at the column.
fn column_name(text: &[u8], reason: u32, column: usize) -> &'static str {
    if reason == 0 || reason == 5 {
        return "column by the reason";
    }
    match text.get(column.wrapping_sub(1)) {
        None => "column past the end",
        Some(_) if column == 1 => "column of the opcode",
        Some(b' ') => "column of a space",
        Some(b'[' | b']' | b'{' | b'}' | b'+' | b'-' | b'*' | b'(' | b')' | b',' | b';') => "column of a mark",
        Some(b'0'..=b'9') => "column of a digit",
        Some(b) if b.is_ascii_alphabetic() || matches!(b, b'_' | b'$' | b'%') => "column of a word",
        Some(_) => "column of a byte",
    }
}

pub fn shown(text: &[u8]) -> String {
    format!("{:?} ({} bytes)", String::from_utf8_lossy(&text[..text.len().min(300)]), text.len())
}

const SHAPES: [&str; 4] = ["32x32b", "16x64b", "16x128b", "16x256b"];
const KINDS: [&str; 4] = ["f16", "tf32", "f8f6f4", "i8"];
const HEADS: &[u8] = b"abcdefghijklmnopqrstuvwxyzABCDEFGHIJKLMNOPQRSTUVWXYZ";
const INNER: &[u8] = b"abcdefghijklmnopqrstuvwxyzABCDEFGHIJKLMNOPQRSTUVWXYZ0123456789_$";

fn name(r: &mut Random) -> String {
    let sigil = r.below(4) == 0;
    let first = if sigil { r.pick(b"_$%") } else { r.pick(HEADS) };
    let longest = if r.below(8) == 0 { 16 } else { 5 };
    let more = if sigil { 1 + r.below(longest - 1) } else { r.below(longest) };
    std::iter::once(first).chain((0..more).map(|_| r.pick(INNER))).map(char::from).collect()
}

/// A number in one of its spellings, or an expression; `over` asks for one past the limit's end.
fn number(r: &mut Random, wide: bool, over: bool) -> String {
    let limit = if wide { u64::MAX } else { u64::from(u32::MAX) };
    let value: u128 = if over {
        u128::from(limit) + 1 + u128::from(r.below(1000))
    } else {
        match r.below(6) {
            0 => 0,
            1 => u128::from(limit),
            2 => u128::from(r.below(1 << 20)),
            3 => 1 << r.below(32),
            _ => u128::from(r.next() & limit),
        }
    };
    match r.below(6) {
        0 | 1 => format!("{value}"),
        2 => expression(r, value, over),
        _ => Spelling::any(r).of(value),
    }
}

/// An expression of this value where it can have it; `over` makes it a negative one now and then.
fn expression(r: &mut Random, value: u128, over: bool) -> String {
    let value = i128::try_from(value).unwrap_or(i128::MAX);
    let value = if over && r.below(2) == 0 { -value } else { value };
    let size = r.below(6) as u32;
    let tree = if is_in_range(value) { Tree::of(r, value, size) } else { Tree::group(Tree::Number(value.unsigned_abs())) };
    let tokens = tree.written(r, Style { needless: 8, spellings: true }).tokens;
    joined(r, &tokens, 8).0.trim_start().into()
}

fn list(r: &mut Random, tokens: &mut Vec<String>, count: u64) {
    tokens.push("{".into());
    for i in 0..count {
        if i > 0 {
            tokens.push(",".into());
        }
        tokens.push(name(r));
    }
    tokens.push("}".into());
}

fn address(r: &mut Random, tokens: &mut Vec<String>, over: bool) {
    tokens.extend(["[".into(), name(r)]);
    if over || r.below(3) > 0 {
        tokens.extend(["+".into(), number(r, false, over)]);
    }
    tokens.push("]".into());
}

/// The tokens of a statement of a form, the opcode first. `over` puts one number out of range where the form has one.
fn statement(r: &mut Random, form: u64, over: bool) -> Vec<String> {
    let mut t: Vec<String> = Vec::new();
    let comma = || String::from(",");
    match form {
        0 | 1 => {
            t.extend([if form == 0 { "mov.b32" } else { "mov.b64" }.into(), name(r), comma(), number(r, form == 1, over)]);
        }
        2 => {
            let shared = r.pick(&["", ".shared::cta"]);
            t.extend([
                format!("tcgen05.alloc.cta_group::1.sync.aligned{shared}.b32"),
                "[".into(),
                name(r),
                "]".into(),
                comma(),
                number(r, false, over),
            ]);
        }
        3 => t.extend(["tcgen05.dealloc.cta_group::1.sync.aligned.b32".into(), name(r), comma(), number(r, false, over)]),
        4 => t.push("tcgen05.relinquish_alloc_permit.cta_group::1.sync.aligned".into()),
        5 | 6 => {
            let shape = r.below(4) as usize;
            let power = r.below(8);
            let wanted = (1u64 << power) * [1, 1, 2, 4][shape];
            let count = match r.below(8) {
                0 => 1 + r.below(128),
                1 => r.pick(&[1, 127, 128, 129]),
                _ => wanted.min(130),
            };
            let op = if form == 5 { "ld" } else { "st" };
            t.push(format!("tcgen05.{op}.sync.aligned.{}.x{}.b32", SHAPES[shape], 1 << power));
            if form == 5 {
                list(r, &mut t, count);
                t.push(comma());
                address(r, &mut t, over);
            } else {
                address(r, &mut t, over);
                t.push(comma());
                list(r, &mut t, count);
            }
        }
        7 => t.push("tcgen05.wait::ld.sync.aligned".into()),
        8 => t.push("tcgen05.wait::st.sync.aligned".into()),
        9 => t.push("tcgen05.fence::before_thread_sync".into()),
        10 => t.push("tcgen05.fence::after_thread_sync".into()),
        11 => {
            let (ws, sp) = (r.pick(&["", ".ws"]), r.pick(&["", ".sp"]));
            t.push(format!("tcgen05.mma{ws}{sp}.cta_group::1.kind::{}", r.pick(&KINDS)));
            let far = if over { r.below(3) } else { 9 };
            address(r, &mut t, far == 0);
            t.push(comma());
            if far == 1 || r.below(2) == 0 {
                address(r, &mut t, far == 1);
            } else {
                t.push(name(r));
            }
            t.extend([comma(), name(r)]);
            if !sp.is_empty() {
                t.push(comma());
                address(r, &mut t, far == 2);
            }
            t.extend([comma(), name(r), comma(), name(r)]);
        }
        _ => t.push("exit".into()),
    }
    t.push(";".into());
    t
}

/// Two tokens side by side that would run into one another need a space.
fn glued(a: &str, b: &str) -> bool {
    let inner = |c: char| c.is_ascii_alphanumeric() || c == '_' || c == '$';
    let opcode = |c: char| c.is_ascii_alphanumeric() || matches!(c, '_' | '.' | ':');
    a.contains("tcgen05") && b.starts_with(opcode) || a.ends_with(inner) && b.starts_with(inner)
}

/// The text of tokens with some number of spaces before each but the first.
fn spaced(tokens: &[String], mut spaces: impl FnMut(usize) -> usize) -> Vec<u8> {
    let mut text = String::new();
    for (i, token) in tokens.iter().enumerate() {
        if i > 0 {
            let n = spaces(i).max(usize::from(
                glued(&tokens[i - 1], token) || tokens[i - 1].starts_with("mov.") || tokens[i - 1] == "exit" && token != ";",
            ));
            text.extend(std::iter::repeat_n(' ', n));
        }
        text.push_str(token);
    }
    text.into_bytes()
}

/// Each way to leave a token out, double one, or exchange two neighbours, and a space in each place.
fn changes(c: &mut Comparison<Proved>, tokens: &[String]) {
    for i in 0..tokens.len() {
        let mut less = tokens.to_vec();
        less.remove(i);
        c.text(&spaced(&less, |_| 1));
        let mut more = tokens.to_vec();
        more.insert(i, tokens[i].clone());
        c.text(&spaced(&more, |_| 1));
        if i + 1 < tokens.len() {
            let mut other = tokens.to_vec();
            other.swap(i, i + 1);
            c.text(&spaced(&other, |_| 1));
        }
        c.text(&spaced(tokens, |j| 3 * usize::from(i == j)));
    }
}

/// One byte exchanged, left out or put in, anywhere.
fn damage(c: &mut Comparison<Proved>, r: &mut Random, text: &[u8]) {
    if text.is_empty() {
        return;
    }
    let mut t = text.to_vec();
    let at = r.below(t.len() as u64) as usize;
    let byte = if r.below(3) == 0 { r.next() as u8 } else { r.pick(b" ;,[]{}+-*()0xbU189aZ_$%.:\t\n~") };
    match r.below(3) {
        0 => t[at] = byte,
        1 => {
            t.remove(at);
        }
        _ => t.insert(at, byte),
    }
    c.text(&t);
}

/// Lengths at their limits.
fn limits(c: &mut Comparison<Proved>) {
    for n in 14..20 {
        for head in ["r", "_", "%", "$"] {
            c.text(format!("mov.b32 {head}{}, 1;", "a".repeat(n - 1)).as_bytes());
        }
    }
    for n in [1, 2, 126, 127, 128, 129, 130, 400] {
        let names = vec!["r"; n].join(", ");
        c.text(format!("tcgen05.ld.sync.aligned.32x32b.x128.b32 {{{names}}}, [t];").as_bytes());
        c.text(format!("tcgen05.st.sync.aligned.16x64b.x1.b32 [t+1], {{{names}}};").as_bytes());
    }
    for n in 4080..4110 {
        let blanks = " ".repeat(n - "exit;".len());
        c.text(format!("exit{blanks};").as_bytes());
        c.text(format!("mov.b64 x, {};", "9".repeat(n - "mov.b64 x, ;".len())).as_bytes());
        c.text(format!("mov.b64 x, 0x{}1;", "0".repeat(n - "mov.b64 x, 0x1;".len())).as_bytes());
        c.text(format!("mov.b64 x, {}1U;", "0".repeat(n - "mov.b64 x, 1U;".len())).as_bytes());
    }
    for edge in [
        "4294967295",
        "4294967296",
        "18446744073709551615",
        "18446744073709551616",
        "0xffffffff",
        "0x100000000",
        "0xFFFFFFFFFFFFFFFF",
        "0x10000000000000000",
        "037777777777",
        "040000000000",
        "01777777777777777777777",
        "02000000000000000000000",
        "0b11111111111111111111111111111111",
        "0b100000000000000000000000000000000U",
        "00",
        "064",
        "08",
        "0x",
        "0X",
        "0b",
        "0b1",
        "0B1U",
        "0b102",
        "64U",
        "64u",
        "64UU",
        "-1",
        "+1",
        "0",
    ] {
        c.text(format!("mov.b32 x, {edge};").as_bytes());
        c.text(format!("mov.b64 x, {edge};").as_bytes());
        c.text(format!("tcgen05.alloc.cta_group::1.sync.aligned.b32 [t], {edge};").as_bytes());
        c.text(format!("tcgen05.ld.sync.aligned.32x32b.x1.b32 {{r}}, [t+{edge}];").as_bytes());
        c.text(format!("mov.b32 x, {edge}").as_bytes());
        c.text(format!("mov.b32 x, {edge};;").as_bytes());
    }
    for n in 0..=300 {
        c.text(format!("tcgen05.ld.sync.aligned.32x32b.x{n}.b32 {{r}}, [t];").as_bytes());
        c.text(format!("tcgen05.ld.sync.aligned.16x{n}b.x1.b32 {{r}}, [t];").as_bytes());
        c.text(format!("tcgen05.mma.cta_group::{n}.kind::f16 [d], a, b, i, p;").as_bytes());
    }
    for byte in 0..=255u8 {
        for text in [&b"exit"[..], b"exit;", b"mov.b32 x,1;"] {
            for at in 0..=text.len() {
                let mut t = text.to_vec();
                t.insert(at, byte);
                c.text(&t);
            }
        }
    }
}

/// Statements of each form, each byte of which is exchanged for every other, and left out.
const GOOD: [&str; 20] = [
    "mov.b32 x, 4294967295;",
    "mov.b32 x, 040U;",
    "mov.b64 x ,0B101U ;",
    "tcgen05.dealloc.cta_group::1.sync.aligned.b32 t0, 0b100000;",
    "mov.b64 %r1 , 0x1F;",
    "mov.b64 x, -(2 - 65536*3)+4;",
    "tcgen05.ld.sync.aligned.32x32b.x1.b32 {r}, [t0+(32*65536)+4];",
    "tcgen05.alloc.cta_group::1.sync.aligned.b32 [t0], 64;",
    "tcgen05.alloc.cta_group::1.sync.aligned.shared::cta.b32[ t ],0x20 ;",
    "tcgen05.dealloc.cta_group::1.sync.aligned.b32 t0, 512;",
    "tcgen05.relinquish_alloc_permit.cta_group::1.sync.aligned;",
    "tcgen05.ld.sync.aligned.32x32b.x2.b32 {r0, %r1}, [t0+2097152];",
    "tcgen05.st.sync.aligned.16x64b.x1.b32 [ t0 + 0x10 ] , { _1 };",
    "tcgen05.wait::ld.sync.aligned;",
    "tcgen05.wait::st.sync.aligned ;",
    "tcgen05.fence::before_thread_sync;",
    "tcgen05.fence::after_thread_sync;",
    "tcgen05.mma.cta_group::1.kind::f16 [d+64], a, b, i, p;",
    "tcgen05.mma.ws.sp.cta_group::1.kind::f8f6f4 [d], [a+0], b, [m + 2], $i, %p;",
    "exit;",
];

fn single_bytes(c: &mut Comparison<Proved>) {
    for text in GOOD {
        for at in 0..text.len() {
            let mut t = text.as_bytes().to_vec();
            for byte in 0..=255 {
                t[at] = byte;
                c.text(&t);
            }
            t.remove(at);
            c.text(&t);
            // and cut there
            t.truncate(at);
            c.text(&t);
        }
    }
}

pub fn run() -> bool {
    let mut c = Comparison::new(&Proved);
    let mut r = Random::new(2);
    crate::readings::run(&mut c.counts);
    limits(&mut c);
    single_bytes(&mut c);
    for turn in 0..20_000u64 {
        for form in 0..13 {
            let over = r.below(6) == 0;
            let tokens = statement(&mut r, form, over);
            let text = spaced(&tokens, |_| 1);
            c.text(&text);
            let mut blanks = Random::new(turn * 13 + form);
            c.text(&spaced(&tokens, |_| blanks.below(4) as usize));
            for _ in 0..2 {
                damage(&mut c, &mut r, &text);
            }
            if turn % 40 == 0 && tokens.len() < 60 || turn % 2000 == 0 {
                changes(&mut c, &tokens);
            }
        }
        // bytes that are no statement
        let n = r.below(40) as usize;
        let noise: Vec<u8> =
            (0..n).map(|_| if turn % 2 == 0 { r.next() as u8 } else { r.pick(b"exit mov.b32 tcgen05;,[]{}+-*()0x1U") }).collect();
        c.text(&noise);
    }
    let mut wanted = vec![
        ("texts", 0, 1_000_000),
        ("readings", 0, 790),
        ("readings", 3, 1_100),
        ("readings", 4, 300),
        ("readings", 5, 3),
        ("readings, written", 0, 790),
        ("reason", 0, 200_000),
        ("reason", 3, 200_000),
        ("reason", 4, 20_000),
        ("reason", 5, 5_000),
        ("column past the end", 3, 2_000),
        ("column of the opcode", 3, 10_000),
        ("column of a space", 3, 2_000),
        ("column of a mark", 3, 10_000),
        ("column of a digit", 3, 5_000),
        ("column of a word", 3, 10_000),
        ("column of a byte", 3, 10_000),
        ("column of a digit", 4, 20_000),
        ("column of a mark", 4, 2_000),
        ("canonical", 0, 400_000),
        ("canonical", 3, 200_000),
        ("canonical", 4, 20_000),
        ("canonical", 19, 200_000),
    ];
    wanted.extend((0..13).map(|form| ("form", form, 10_000)));
    let good = c.counts.finish("statements", &wanted);
    let numbers = crate::numbers::run();
    crate::expressions::run() && numbers && good
}
