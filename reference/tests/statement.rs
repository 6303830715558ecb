use staplehorn_reference::descriptor::request;
use staplehorn_reference::statement::*;

const ALLOC: &str = "tcgen05.alloc.cta_group::1.sync.aligned.b32";
const DEALLOC: &str = "tcgen05.dealloc.cta_group::1.sync.aligned.b32";
const RELINQUISH: &str = "tcgen05.relinquish_alloc_permit.cta_group::1.sync.aligned";
const LD1: &str = "tcgen05.ld.sync.aligned.32x32b.x1.b32";
const ST1: &str = "tcgen05.st.sync.aligned.32x32b.x1.b32";
const MMA: &str = "tcgen05.mma.cta_group::1.kind::f16";
const MMA_SP: &str = "tcgen05.mma.sp.cta_group::1.kind::f16";

fn name(text: &str) -> Name {
    Name::new(text.as_bytes()).unwrap()
}

fn address(text: &str, offset: u32) -> Address {
    Address { name: name(text), offset }
}

fn names(list: &[&str]) -> Vec<Name> {
    list.iter().map(|text| name(text)).collect()
}

fn mov32(text: &str, value: u64) -> Statement {
    Statement::Mov { wide: false, name: name(text), value }
}

fn mov64(text: &str, value: u64) -> Statement {
    Statement::Mov { wide: true, name: name(text), value }
}

fn ld1(register: &str, from: Address) -> Statement {
    Statement::Ld { shape: Shape::S32x32b, num: 1, address: from, registers: names(&[register]) }
}

#[track_caller]
fn reads(text: &str, want: Statement) {
    assert_eq!(read(text.as_bytes()), Ok(want), "{text}");
}

#[track_caller]
fn refused(text: &str, reason: u32) {
    assert_eq!(read(text.as_bytes()), Err(reason), "{text}");
}

/// The canonical form of the text, and that it is its own canonical form.
#[track_caller]
fn becomes(text: &str, want: &str) {
    for start in [text, want] {
        let mut room = [b'#'; LONGEST_STATEMENT];
        let length = canonical(start.as_bytes(), &mut room).unwrap();
        assert_eq!(std::str::from_utf8(&room[..length]), Ok(want));
        assert!(room[length..].iter().all(|&byte| byte == b'#'));
    }
}

fn written(s: &Statement) -> String {
    let mut room = [0; LONGEST_STATEMENT];
    let length = write(s, &mut room).unwrap();
    String::from_utf8(room[..length].to_vec()).unwrap()
}

#[track_caller]
fn not_written(s: &Statement) {
    let mut room = [b'#'; LONGEST_STATEMENT];
    assert_eq!(write(s, &mut room), Err(19), "{s:?}");
    assert!(room.iter().all(|&byte| byte == b'#'));
}

/// A small generator of 64-bit numbers (splitmix).
struct Random(u64);

impl Random {
    fn next(&mut self) -> u64 {
        self.0 = self.0.wrapping_add(0x9e3779b97f4a7c15);
        let mut z = self.0;
        z = (z ^ (z >> 30)).wrapping_mul(0xbf58476d1ce4e5b9);
        z = (z ^ (z >> 27)).wrapping_mul(0x94d049bb133111eb);
        z ^ (z >> 31)
    }

    fn below(&mut self, n: usize) -> usize {
        (self.next() % n as u64) as usize
    }

    fn flag(&mut self) -> bool {
        self.below(2) == 1
    }

    fn from<T: Copy>(&mut self, list: &[T]) -> T {
        list[self.below(list.len())]
    }

    fn name(&mut self) -> Name {
        let letters = b"azAZ";
        let others = b"azAZ09_$";
        let mut text = Vec::new();
        if self.flag() {
            text.push(self.from(letters));
        } else {
            text.push(self.from(b"_$%"));
            text.push(self.from(others));
        }
        let length = text.len() + self.below(17 - text.len());
        while text.len() < length {
            text.push(self.from(others));
        }
        Name::new(&text).unwrap()
    }

    fn number(&mut self, limit: u64) -> u64 {
        let some = self.next() % limit;
        self.from(&[0, 1, 9, 10, 32, 64, limit - 1, limit, some])
    }

    fn number32(&mut self) -> u32 {
        self.number(u64::from(u32::MAX)) as u32
    }

    fn address(&mut self) -> Address {
        Address { name: self.name(), offset: self.number32() }
    }

    /// A statement such as reading gives.
    fn statement(&mut self) -> Statement {
        match self.below(13) {
            0 => Statement::Mov { wide: false, name: self.name(), value: u64::from(self.number32()) },
            1 => Statement::Mov { wide: true, name: self.name(), value: self.number(u64::MAX) },
            2 => Statement::Alloc { name: self.name(), columns: self.number32() },
            3 => Statement::Dealloc { name: self.name(), columns: self.number32() },
            4 => Statement::Relinquish,
            which @ (5 | 6) => {
                let shape = self.from(&Shape::ALL);
                let num = 1 << self.below(8);
                let address = self.address();
                let count = self.from(&[1, 2, 3, 127, 128]);
                let registers = (0..count).map(|_| self.name()).collect();
                if which == 5 {
                    Statement::Ld { shape, num, address, registers }
                } else {
                    Statement::St { shape, num, address, registers }
                }
            }
            7 => Statement::WaitLd,
            8 => Statement::WaitSt,
            9 => Statement::FenceBefore,
            10 => Statement::FenceAfter,
            11 => {
                let sp = self.flag();
                Statement::Mma {
                    ws: self.flag(),
                    sp,
                    kind: self.from(&Kind::ALL),
                    d: self.address(),
                    a: if self.flag() { Operand::Descriptor(self.name()) } else { Operand::Address(self.address()) },
                    b: self.name(),
                    meta: if sp { Some(self.address()) } else { None },
                    idesc: self.name(),
                    predicate: self.name(),
                }
            }
            _ => Statement::Exit,
        }
    }
}

/// Splits a canonical text into its tokens.
fn tokens(text: &str) -> Vec<String> {
    let end = text.find(|c: char| !(c.is_ascii_alphanumeric() || "_.:".contains(c))).unwrap();
    let mut all = vec![text[..end].to_string()];
    let mut word = String::new();
    for c in text[end..].chars() {
        if "[]{},;+ ".contains(c) {
            if !word.is_empty() {
                all.push(std::mem::take(&mut word));
            }
            if c != ' ' {
                all.push(c.to_string());
            }
        } else {
            word.push(c);
        }
    }
    assert!(word.is_empty());
    all
}

// Every form once.

#[test]
fn forms() {
    reads("mov.b32 x, 7;", mov32("x", 7));
    reads("mov.b64 x, 7;", mov64("x", 7));
    reads(&format!("{ALLOC} [t0], 64;"), Statement::Alloc { name: name("t0"), columns: 64 });
    reads(&format!("{DEALLOC} t0, 64;"), Statement::Dealloc { name: name("t0"), columns: 64 });
    reads(&format!("{RELINQUISH};"), Statement::Relinquish);
    reads("tcgen05.wait::ld.sync.aligned;", Statement::WaitLd);
    reads("tcgen05.wait::st.sync.aligned;", Statement::WaitSt);
    reads("tcgen05.fence::before_thread_sync;", Statement::FenceBefore);
    reads("tcgen05.fence::after_thread_sync;", Statement::FenceAfter);
    reads("exit;", Statement::Exit);
    reads(
        "tcgen05.st.sync.aligned.16x128b.x2.b32 [t+16], {a, b, c, d};",
        Statement::St { shape: Shape::S16x128b, num: 2, address: address("t", 16), registers: names(&["a", "b", "c", "d"]) },
    );
}

#[test]
fn forms_mma() {
    let kinds = [("f16", Kind::F16), ("tf32", Kind::Tf32), ("f8f6f4", Kind::F8f6f4), ("i8", Kind::I8)];
    for (word, kind) in kinds {
        for (flags, ws, sp) in [("", false, false), (".ws", true, false), (".sp", false, true), (".ws.sp", true, true)] {
            let meta = if sp { "[m+2], " } else { "" };
            for (a, operand) in [("da", Operand::Descriptor(name("da"))), ("[t+8]", Operand::Address(address("t", 8)))] {
                let text = format!("tcgen05.mma{flags}.cta_group::1.kind::{word} [d], {a}, db, {meta}i, p;");
                let want = Statement::Mma {
                    ws,
                    sp,
                    kind,
                    d: address("d", 0),
                    a: operand,
                    b: name("db"),
                    meta: if sp { Some(address("m", 2)) } else { None },
                    idesc: name("i"),
                    predicate: name("p"),
                };
                assert_eq!(written(&want), text);
                reads(&text, want);
            }
        }
    }
    // The meta address exactly with .sp.
    refused(&format!("{MMA} [d], a, b, [m], i, p;"), 3);
    refused(&format!("{MMA_SP} [d], a, b, i, p;"), 3);
    // d and meta are addresses, b, idesc and predicate names.
    refused(&format!("{MMA} d, a, b, i, p;"), 3);
    refused(&format!("{MMA} [d], a, [b], i, p;"), 3);
    refused(&format!("{MMA} [d], a, b, [i], p;"), 3);
    refused(&format!("{MMA} [d], a, b, i, [p];"), 3);
    refused(&format!("{MMA} [d], a, b, i;"), 3);
    refused(&format!("{MMA} [d], a, b, i, p, 1;"), 3);
    refused(&format!("{MMA} [d], 1, b, i, p;"), 3);
    refused(&format!("{MMA_SP} [d], a, b, m, i, p;"), 3);
}

#[test]
fn forms_access() {
    let shapes = [(".32x32b", Shape::S32x32b), (".16x64b", Shape::S16x64b), (".16x128b", Shape::S16x128b), (".16x256b", Shape::S16x256b)];
    for (word, shape) in shapes {
        for num in 0..=300 {
            let good = [1, 2, 4, 8, 16, 32, 64, 128].contains(&num);
            let load = format!("tcgen05.ld.sync.aligned{word}.x{num}.b32 {{r}}, [t];");
            let store = format!("tcgen05.st.sync.aligned{word}.x{num}.b32 [t], {{r}};");
            if good {
                let (address, registers) = (address("t", 0), names(&["r"]));
                reads(&load, Statement::Ld { shape, num, address, registers: registers.clone() });
                reads(&store, Statement::St { shape, num, address, registers });
            } else {
                refused(&load, 3);
                refused(&store, 3);
            }
        }
    }
    // Operands the other way round.
    refused(&format!("{LD1} [t], {{r}};"), 3);
    refused(&format!("{ST1} {{r}}, [t];"), 3);
    refused(&format!("{LD1} r, [t];"), 3);
    refused(&format!("{LD1} {{r}}, t;"), 3);
}

// The sheet that the rules give whole, statement by statement.

#[test]
fn sheet_given_whole() {
    let lines = [
        "tcgen05.alloc.cta_group::1.sync.aligned.b32 [t0], 64;",
        "tcgen05.alloc.cta_group::1.sync.aligned.b32 [t1], 32;",
        "tcgen05.dealloc.cta_group::1.sync.aligned.b32 t0, 64;",
        "tcgen05.alloc.cta_group::1.sync.aligned.b32 [t2], 32;",
        "tcgen05.ld.sync.aligned.32x32b.x2.b32 {r0, r1}, [t1+2097152];",
        "tcgen05.wait::ld.sync.aligned;",
        "tcgen05.dealloc.cta_group::1.sync.aligned.b32 t1, 32;",
        "tcgen05.dealloc.cta_group::1.sync.aligned.b32 t2, 32;",
        "exit;",
    ];
    for line in lines {
        becomes(line, line);
        assert_eq!(registers_reason(&read(line.as_bytes()).unwrap()), 0);
    }
    reads(lines[4], Statement::Ld { shape: Shape::S32x32b, num: 2, address: address("t1", 2_097_152), registers: names(&["r0", "r1"]) });
}

// Tokens, where the rules could be taken in two ways or a slip is near.

#[test]
fn where_the_opcode_ends() {
    reads("mov.b32%x,1;", mov32("%x", 1));
    reads("mov.b32$x,1;", mov32("$x", 1));
    refused("mov.b32_x,1;", 3);
    refused("mov.b32x,1;", 3);
    reads(&format!("{ALLOC}[t],32;"), Statement::Alloc { name: name("t"), columns: 32 });
    reads(&format!("{LD1}{{r}},[t];"), ld1("r", address("t", 0)));
    refused("mov.b32.x, 1;", 3);
    refused("mov.b32: x, 1;", 3);
    refused("mov .b32 x, 1;", 3);
    refused("mov. b32 x, 1;", 3);
}

#[test]
fn one_word_one_token() {
    refused("mov.b32 x, 64abc;", 3);
    refused(&format!("{LD1} {{rrrrrrrrrrrrrrrrr}}, [t];"), 3);
    refused("mov.b32 x, 0x1g;", 3);
    refused("mov.b32 x, 6 4;", 3);
    refused("mov.b32 x y, 4;", 3);
    refused("mov.b32 x, 64%;", 3);
    refused("mov.b32 % x, 64;", 3);
}

#[test]
fn spaces_between_tokens() {
    reads(&format!("{LD1} {{ r }} , [ t + 3 ] ;"), ld1("r", address("t", 3)));
    reads("exit ;", Statement::Exit);
    reads(&format!("{ALLOC}  [ t ] , 32 ;"), Statement::Alloc { name: name("t"), columns: 32 });
    refused(" exit;", 3);
    refused("exit; ", 3);
    refused("tcgen05 .wait::ld.sync.aligned;", 3);
    refused("tcgen05.wait: :ld.sync.aligned;", 3);
    refused("mov.b32 x, 0 x1;", 3);
}

#[test]
fn what_a_space_is() {
    reads("exit     ;", Statement::Exit);
    for byte in (0..=255u8).filter(|&byte| byte != b' ') {
        let text = [b"mov.b32 x,".as_slice(), &[byte], b"1;"].concat();
        let want = match byte {
            // 01 is octal, and 1 too
            b'0'..=b'9' => Ok(mov32("x", u64::from(byte - b'0') * 10 + 1)),
            b'-' => Err(4),
            _ => Err(3),
        };
        assert_eq!(read(&text), want, "{byte}");
        let text = [b"exit".as_slice(), &[byte], b";"].concat();
        assert_eq!(read(&text), Err(3), "{byte}");
    }
}

#[test]
fn three_before_four() {
    refused("mov.b32 x, 4294967296", 3);
    refused("mov.b32 x, 4294967296;;", 3);
    refused("mov.b32 x, 4294967296;", 4);
    refused("mov.b32 x, 4294967296 ;", 4);
    refused("mov.b32 x, 4294967296; ", 3);
    refused("mov.b32 1, 4294967296;", 3);
    refused(&format!("{ST1} [t+4294967296], {{r}};"), 4);
    refused(&format!("{ST1} [t+4294967296], {{}};"), 3);
    refused(&format!("{ST1} [t+4294967296], {{%}};"), 3);
    refused(&format!("{MMA} [d+4294967296], a, b, i, p;"), 4);
    refused(&format!("{MMA} [d+4294967296], a, b, i, _;"), 3);
    refused(&format!("{MMA} [d], [a+4294967296], b, i, p;"), 4);
    refused(&format!("{MMA_SP} [d], a, b, [m+4294967296], i, p;"), 4);
    refused(&format!("{MMA_SP} [d], a, b, [m+4294967296], i, p"), 3);
    refused("tcgen05.ld.sync.aligned.32x32b.x3.b32 {r}, [t+4294967296];", 3);
}

#[test]
fn which_names() {
    for good in ["%r0", "%1", "_1", "$$", "__", "%_", "%$", "_$", "a", "Z", "a$", "a_", "a0"] {
        reads(&format!("mov.b32 {good}, 1;"), mov32(good, 1));
        assert!(name(good).is_proper());
    }
    for bad in ["%%", "_%", "a%", "_", "$", "%", "", "1", "1a", "a.b", "a:b", "a-b", "%%r", "é"] {
        refused(&format!("mov.b32 {bad}, 1;"), 3);
        assert!(!name(bad).is_proper());
    }
    for first in ["a", "_", "$", "%"] {
        let sixteen = format!("{first}{}", "1".repeat(15));
        reads(&format!("mov.b32 {sixteen}, 1;"), mov32(&sixteen, 1));
        refused(&format!("mov.b32 {sixteen}1, 1;"), 3);
        assert_eq!(Name::new(format!("{sixteen}1").as_bytes()), None);
    }
}

#[test]
fn nothing_is_reserved() {
    for word in ["exit", "mov", "sheet", "x1"] {
        reads(&format!("mov.b32 {word}, 1;"), mov32(word, 1));
    }
    refused("EXIT;", 3);
    refused("Mov.b32 x, 1;", 3);
    refused("mov.B32 x, 1;", 3);
    assert_ne!(read(b"mov.b32 t, 1;"), read(b"mov.b32 T, 1;"));
}

#[test]
fn numbers() {
    for (text, value) in [
        ("0X00fF", 255),
        ("0x0", 0),
        ("0x00", 0),
        ("0", 0),
        ("10", 10),
        ("0xabcdef", 0xabcdef),
        ("0XABCDEF", 0xabcdef),
        ("0x12345678", 0x12345678),
        ("1234567890", 1234567890),
        ("00", 0),
        ("01", 1),
        ("064", 52),
        ("64U", 64),
        ("0b1", 1),
    ] {
        reads(&format!("mov.b32 x, {text};"), mov32("x", value));
    }
    for bad in [
        "08", "0x", "0X", "64u", "0b2", "-", "+1", "", "1_0", "0x_1", "0xg", "x1", "1.0", "1e3", "0 x1", "$1", "%1", "0x1.0", "00x1", "'1'",
    ] {
        refused(&format!("mov.b32 x, {bad};"), 3);
        refused(&format!("mov.b64 x, {bad};"), 3);
        refused(&format!("{ALLOC} [t], {bad};"), 3);
        refused(&format!("{DEALLOC} t, {bad};"), 3);
        refused(&format!("{LD1} {{r}}, [t+{bad}];"), 3);
    }
}

#[test]
fn four_goes_by_value() {
    let long_one = format!("0x{}1", "0".repeat(900));
    let long_zero = format!("0x{}", "0".repeat(900));
    let nines = "9".repeat(900);
    let long_hex = format!("0x{}", "f".repeat(900));
    let power = format!("0x1{}", "0".repeat(900));
    for op in ["mov.b32", "mov.b64"] {
        let wide = op == "mov.b64";
        reads(&format!("{op} x, {long_one};"), Statement::Mov { wide, name: name("x"), value: 1 });
        reads(&format!("{op} x, {long_zero};"), Statement::Mov { wide, name: name("x"), value: 0 });
        for big in [&nines, &long_hex, &power] {
            refused(&format!("{op} x, {big};"), 4);
            refused(&format!("{op} x, {big}g;"), 3);
        }
        refused(&format!("{op} x, 0{nines};"), 3);
    }
    let max = u64::from(u32::MAX);
    reads("mov.b32 x, 4294967295;", mov32("x", max));
    reads("mov.b32 x, 0xffffffff;", mov32("x", max));
    refused("mov.b32 x, 0x100000000;", 4);
    reads("mov.b64 x, 4294967296;", mov64("x", max + 1));
    reads("mov.b64 x, 18446744073709551615;", mov64("x", u64::MAX));
    reads("mov.b64 x, 0xffffffffffffffff;", mov64("x", u64::MAX));
    for over in [
        "18446744073709551616",
        "0x10000000000000000",
        "18446744073709551617",
        "36893488147419103232",
        "340282366920938463463374607431768211456",
        "340282366920938463463374607431768211457",
        "0x100000000000000000000000000000000",
        "0x100000000000000000000000000000001",
    ] {
        refused(&format!("mov.b64 x, {over};"), 4);
        refused(&format!("mov.b32 x, {over};"), 4);
    }
    refused(&format!("{ALLOC} [t], 4294967296;"), 4);
    reads(&format!("{ALLOC} [t], 4294967295;"), Statement::Alloc { name: name("t"), columns: u32::MAX });
    assert_eq!(request(u32::MAX), 9);
    refused(&format!("{DEALLOC} t, 4294967296;"), 4);
    reads(&format!("{DEALLOC} t, 4294967295;"), Statement::Dealloc { name: name("t"), columns: u32::MAX });
    refused(&format!("{LD1} {{r}}, [t+4294967296];"), 4);
    reads(&format!("{LD1} {{r}}, [t+4294967295];"), ld1("r", address("t", u32::MAX)));
    refused("tcgen05.ld.sync.aligned.32x32b.x4294967296.b32 {r}, [t];", 3);
}

// Forms and writing, likewise.

#[test]
fn length_of_a_list() {
    let list = |count: usize| vec!["r"; count].join(", ");
    let load = |count| format!("tcgen05.ld.sync.aligned.32x32b.x128.b32 {{{}}}, [t];", list(count));
    let store = |count| format!("tcgen05.st.sync.aligned.32x32b.x128.b32 [t], {{{}}};", list(count));
    for text in [load(0), store(0), load(129), store(129), load(200)] {
        refused(&text, 3);
    }
    for count in [1, 2, 127, 128] {
        for text in [load(count), store(count)] {
            let s = read(text.as_bytes()).unwrap();
            assert_eq!(registers_reason(&s), if count == 128 { 0 } else { 5 });
        }
    }
    for bad in ["r,", ",r", "r,,r", "r r", ",", "{r}", "r;", "1", "[r]"] {
        refused(&format!("{LD1} {{{bad}}}, [t];"), 3);
    }
    refused(&format!("{LD1} {{r, [t];"), 3);
    refused(&format!("{LD1} r}}, [t];"), 3);
}

#[test]
fn operand_of_alloc() {
    refused(&format!("{ALLOC} [t+0], 32;"), 3);
    refused(&format!("{ALLOC} [t+4294967296], 32;"), 3);
    refused(&format!("{ALLOC} t, 32;"), 3);
    refused(&format!("{DEALLOC} [t], 32;"), 3);
}

#[test]
fn shape_and_num() {
    for access in [
        ".32x32b.x3",
        ".32x32b.x256",
        ".32x32b.x01",
        ".16x32bx2.x1",
        ".16x32bx2",
        ".32x32b",
        ".x1",
        ".32x32b.x",
        ".32x32b.1",
        ".32x32bx1",
        ".32X32b.x1",
        ".32x32b.X1",
        ".16x32b.x1",
        ".32x64b.x1",
        ".32x32b.x1.x1",
        ".32x32b.x0",
        ".32x32b.x1.pack::16b",
        "..32x32b.x1",
        ".32x32b.x1.",
        ".x1.32x32b",
    ] {
        refused(&format!("tcgen05.ld.sync.aligned{access}.b32 {{r}}, [t];"), 3);
        refused(&format!("tcgen05.st.sync.aligned{access}.b32 [t], {{r}};"), 3);
    }
    refused("tcgen05.ld.sync.aligned.32x32b.x1 {r}, [t];", 3);
    refused("tcgen05.ld.sync.aligned.32x32b.x1.b64 {r}, [t];", 3);
    refused("tcgen05.ld.sync.aligned.32x32b.x1.b32.b32 {r}, [t];", 3);
    for access in [".16x128b.x128", ".16x256b.x64", ".16x256b.x128"] {
        let text = format!("tcgen05.ld.sync.aligned{access}.b32 {{r}}, [t];");
        assert_eq!(registers_reason(&read(text.as_bytes()).unwrap()), 5);
    }
}

#[test]
fn over_the_largest() {
    let full = vec![name("r"); 128];
    for shape in Shape::ALL {
        for num in [1, 2, 4, 8, 16, 32, 64, 128] {
            for count in 1..=128 {
                let s = Statement::St { shape, num, address: address("t", 0), registers: full[..count].to_vec() };
                let want = if count as u32 == registers(shape, num) { 0 } else { 5 };
                assert_eq!(registers_reason(&s), want);
                if num > largest(shape) {
                    assert_eq!(want, 5);
                }
            }
        }
    }
}

#[test]
fn optional_parts() {
    let long = "tcgen05.alloc.cta_group::1.sync.aligned.shared::cta.b32 [t], 32;";
    reads(long, Statement::Alloc { name: name("t"), columns: 32 });
    becomes(long, &format!("{ALLOC} [t], 32;"));
    refused("tcgen05.alloc.cta_group::1.shared::cta.sync.aligned.b32 [t], 32;", 3);
    refused("tcgen05.alloc.cta_group::1.sync.aligned.shared::cta.shared::cta.b32 [t], 32;", 3);
    refused("tcgen05.alloc.cta_group::1.sync.aligned.b32.shared::cta [t], 32;", 3);
    refused("tcgen05.dealloc.cta_group::1.sync.aligned.shared::cta.b32 t, 32;", 3);
    for flags in [".sp.ws", ".ws.ws", ".sp.sp", ".ws.sp.ws", ".ws.sp.sp", "."] {
        refused(&format!("tcgen05.mma{flags}.cta_group::1.kind::f16 [d], a, b, i, p;"), 3);
        refused(&format!("tcgen05.mma{flags}.cta_group::1.kind::f16 [d], a, b, [m], i, p;"), 3);
    }
    refused("tcgen05.mma.cta_group::1.ws.kind::f16 [d], a, b, i, p;", 3);
    refused("tcgen05.mma.cta_group::1.kind::f16.ws [d], a, b, i, p;", 3);
    refused("tcgen05.mma{.ws}.cta_group::1.kind::f16 [d], a, b, i, p;", 3);
}

#[test]
fn outside_the_base() {
    for text in [
        "tcgen05.alloc.cta_group::2.sync.aligned.b32 [t], 32;",
        "tcgen05.mma.cta_group::2.kind::f16 [d], a, b, i, p;",
        "tcgen05.mma.cta_group::1.kind::mxf8f6f4 [d], a, b, i, p;",
        "tcgen05.mma.cta_group::1.kind::F16 [d], a, b, i, p;",
        "tcgen05.mma.cta_group::1.kind:: [d], a, b, i, p;",
        "tcgen05.mma.cta_group::1.kind::f16.collector::a::fill [d], a, b, i, p;",
        "tcgen05.ld.sync.aligned.32x32b.x2.pack::16b.b32 {r}, [t];",
        "tcgen05.st.sync.aligned.32x32b.x2.unpack::16b.b32 [t], {r};",
        "tcgen05.cp.cta_group::1.128x256b [t], s;",
        "tcgen05.shift.cta_group::1.down [t];",
        "tcgen05.commit.cta_group::1.mbarrier::arrive::one.b64 [m];",
        "bra x;",
        "ret;",
        "mov.u32 x, 1;",
        "mov.b16 x, 1;",
        "mov x, 1;",
        "tcgen05.wait::ld;",
        "tcgen05.wait::mma.sync.aligned;",
        "tcgen05.fence::before_thread_sync.sync.aligned;",
    ] {
        refused(text, 3);
    }
}

#[test]
fn one_statement() {
    for text in ["exit;;", "exit; exit;", "exit; // done", "// done", "exit/**/;", "@p exit;", "x: exit;", "x:exit;", "exit"] {
        refused(text, 3);
    }
    refused("exit x;", 3);
    refused("exit ,;", 3);
    refused("tcgen05.wait::ld.sync.aligned 1;", 3);
}

#[test]
fn empty_text() {
    for text in ["", " ", "     ", ";", " ;", ".", ","] {
        refused(text, 3);
    }
}

#[test]
fn bytes_and_length_read_alone() {
    for byte in (0..32u8).chain(127..=255) {
        for text in [
            vec![byte],
            [&[byte], b"exit;".as_slice()].concat(),
            [b"exit;".as_slice(), &[byte]].concat(),
            [b"exit".as_slice(), &[byte], b";"].concat(),
            [b"mov.b32 x".as_slice(), &[byte], b", 1;"].concat(),
            [b"mov.b32 x".as_slice(), &[byte], b", 4294967296;"].concat(),
        ] {
            assert_eq!(read(&text), Err(3), "{byte}");
        }
    }
    let spaced = |length: usize| format!("exit{};", " ".repeat(length - 5));
    reads(&spaced(4096), Statement::Exit);
    refused(&spaced(4097), 3);
    refused(&spaced(100_000), 3);
    let large = |length: usize| format!("mov.b32 x, {};", "9".repeat(length - 12));
    refused(&large(4096), 4);
    refused(&large(4097), 3);
}

#[test]
fn writer_and_register_count() {
    let s = Statement::Ld { shape: Shape::S32x32b, num: 4, address: address("t", 0), registers: names(&["r"]) };
    assert_eq!(written(&s), "tcgen05.ld.sync.aligned.32x32b.x4.b32 {r}, [t];");
    assert_eq!(registers_reason(&s), 5);
    for (count, good) in [(0, false), (1, true), (128, true), (129, false), (1000, false)] {
        let registers = vec![name("r"); count];
        let load = Statement::Ld { shape: Shape::S16x256b, num: 128, address: address("t", 0), registers: registers.clone() };
        let store = Statement::St { shape: Shape::S16x256b, num: 1, address: address("t", 0), registers };
        for s in [load, store] {
            if good {
                assert_eq!(read(written(&s).as_bytes()), Ok(s));
            } else {
                not_written(&s);
            }
        }
    }
}

#[test]
fn what_is_not_written() {
    for num in (0..=300).chain([1 << 8, 1 << 31, u32::MAX]) {
        let s = Statement::Ld { shape: Shape::S32x32b, num, address: address("t", 0), registers: names(&["r"]) };
        if [1, 2, 4, 8, 16, 32, 64, 128].contains(&num) {
            assert_eq!(read(written(&s).as_bytes()), Ok(s));
        } else {
            not_written(&s);
        }
    }
    not_written(&mov32("x", 1 << 32));
    not_written(&mov32("x", u64::MAX));
    assert_eq!(written(&mov32("x", (1 << 32) - 1)), "mov.b32 x, 4294967295;");
    assert_eq!(written(&mov64("x", u64::MAX)), "mov.b64 x, 18446744073709551615;");

    let mma = |sp, d, a, b, meta, idesc, predicate| Statement::Mma {
        ws: false,
        sp,
        kind: Kind::F16,
        d: address(d, 0),
        a,
        b: name(b),
        meta,
        idesc: name(idesc),
        predicate: name(predicate),
    };
    let a = Operand::Descriptor(name("a"));
    let m = Some(address("m", 0));
    assert_eq!(written(&mma(true, "d", a, "b", m, "i", "p")), format!("{MMA_SP} [d], a, b, [m], i, p;"));
    assert_eq!(written(&mma(false, "d", a, "b", None, "i", "p")), format!("{MMA} [d], a, b, i, p;"));
    not_written(&mma(false, "d", a, "b", m, "i", "p"));
    not_written(&mma(true, "d", a, "b", None, "i", "p"));

    for bad in ["", "_", "%", "$", "1", "1a", "a%", "%%", "a b", "a\t", "a;", "\0", "a\0"] {
        let bad_a = Operand::Descriptor(name(bad));
        let bad_address = Operand::Address(address(bad, 0));
        for s in [
            mov32(bad, 1),
            mov64(bad, 1),
            Statement::Alloc { name: name(bad), columns: 32 },
            Statement::Dealloc { name: name(bad), columns: 32 },
            ld1(bad, address("t", 0)),
            ld1("r", address(bad, 0)),
            Statement::St { shape: Shape::S32x32b, num: 2, address: address("t", 0), registers: names(&["r", bad]) },
            Statement::St { shape: Shape::S32x32b, num: 2, address: address(bad, 0), registers: names(&["r", "r"]) },
            mma(true, bad, a, "b", m, "i", "p"),
            mma(true, "d", bad_a, "b", m, "i", "p"),
            mma(true, "d", bad_address, "b", m, "i", "p"),
            mma(true, "d", a, bad, m, "i", "p"),
            mma(true, "d", a, "b", Some(address(bad, 0)), "i", "p"),
            mma(true, "d", a, "b", m, bad, "p"),
            mma(true, "d", a, "b", m, "i", bad),
        ] {
            not_written(&s);
        }
    }
}

#[test]
fn room_lent() {
    let mut random = Random(3);
    for _ in 0..300 {
        let s = random.statement();
        let text = written(&s);
        for short in [0, text.len() / 2, text.len() - 1] {
            let mut room = vec![b'#'; short];
            assert_eq!(write(&s, &mut room), Err(19));
            assert_eq!(canonical(text.as_bytes(), &mut room), Err(19));
            assert!(room.iter().all(|&byte| byte == b'#'));
        }
        for more in 0..3 {
            let mut room = vec![b'#'; text.len() + more];
            assert_eq!(write(&s, &mut room), Ok(text.len()));
            assert_eq!(&room[..text.len()], text.as_bytes());
            assert!(room[text.len()..].iter().all(|&byte| byte == b'#'));
        }
    }
    // Reading faults come before the room.
    assert_eq!(canonical(b"exit", &mut []), Err(3));
    assert_eq!(canonical(b"mov.b32 x, 4294967296;", &mut []), Err(4));
    assert_eq!(canonical(b"exit;", &mut []), Err(19));
}

#[test]
fn longest_text() {
    let long = "r".repeat(16);
    let s = Statement::Ld { shape: Shape::S16x256b, num: 128, address: address(&long, u32::MAX), registers: vec![name(&long); 128] };
    let text = written(&s);
    assert!(text.len() < 2400, "{}", text.len());
    assert_eq!(read(text.as_bytes()), Ok(s));
}

#[test]
fn same_statements() {
    let same = |a: &str, b: &str| assert_eq!(read(a.as_bytes()).unwrap(), read(b.as_bytes()).unwrap());
    let other = |a: &str, b: &str| assert_ne!(read(a.as_bytes()).unwrap(), read(b.as_bytes()).unwrap());
    same("tcgen05.alloc.cta_group::1.sync.aligned.shared::cta.b32 [t],32;", "tcgen05.alloc.cta_group::1.sync.aligned.b32 [ t ] , 0x20 ;");
    same(&format!("{LD1} {{r}}, [t+0];"), &format!("{LD1} {{r}}, [t];"));
    same(&format!("{LD1} {{r}}, [t+0x0];"), &format!("{LD1} {{r}}, [t];"));
    same("mov.b32 x, 064;", "mov.b32 x, 52;");
    same("mov.b32 x, 0b110100U;", "mov.b32 x, 52;");
    other("mov.b32 x, 064;", "mov.b32 x, 64;");
    other("mov.b32 x, 1;", "mov.b64 x, 1;");
    other("mov.b32 x, 1;", "mov.b32 y, 1;");
    other(&format!("{LD1} {{r}}, [t];"), &format!("{ST1} [t], {{r}};"));
    other(&format!("{LD1} {{r}}, [t];"), "tcgen05.ld.sync.aligned.32x32b.x2.b32 {r}, [t];");
    other(&format!("{LD1} {{r}}, [t];"), "tcgen05.ld.sync.aligned.16x64b.x1.b32 {r}, [t];");
    other(&format!("{LD1} {{r}}, [t];"), &format!("{LD1} {{r, r}}, [t];"));
    other(&format!("{MMA} [d], a, b, i, p;"), &format!("{MMA} [d], [a], b, i, p;"));
    other(&format!("{MMA} [d], a, b, i, p;"), "tcgen05.mma.ws.cta_group::1.kind::f16 [d], a, b, i, p;");
    other(&format!("{MMA} [d], a, b, i, p;"), "tcgen05.mma.cta_group::1.kind::i8 [d], a, b, i, p;");
    other(&format!("{MMA} [d], a, b, i, p;"), &format!("{MMA_SP} [d], a, b, [m], i, p;"));
    other("tcgen05.wait::ld.sync.aligned;", "tcgen05.wait::st.sync.aligned;");
    other("tcgen05.fence::before_thread_sync;", "tcgen05.fence::after_thread_sync;");
}

#[test]
fn canonical_forms() {
    becomes("mov.b32%x,0x10;", "mov.b32 %x, 16;");
    becomes("mov.b64   x  ,  0XFFFFFFFFFFFFFFFF  ;", "mov.b64 x, 18446744073709551615;");
    becomes("mov.b32 x, 0b100000U;", "mov.b32 x, 32;");
    becomes("mov.b64 x, 01777777777777777777777;", "mov.b64 x, 18446744073709551615;");
    becomes(&format!("{DEALLOC} t, 040U;"), &format!("{DEALLOC} t, 32;"));
    becomes(&format!("{LD1} {{r}}, [t+00U];"), &format!("{LD1} {{r}}, [t];"));
    becomes(&format!("{MMA_SP} [d+0b1], [a+07], b, [m+8U], i, p;"), &format!("{MMA_SP} [d+1], [a+7], b, [m+8], i, p;"));
    becomes("exit   ;", "exit;");
    becomes(&format!("{RELINQUISH}  ;"), &format!("{RELINQUISH};"));
    becomes(&format!("{DEALLOC}   t,0x20;"), &format!("{DEALLOC} t, 32;"));
    becomes(&format!("{LD1}{{a,b , c}},[t+0x0];"), &format!("{LD1} {{a, b, c}}, [t];"));
    becomes(&format!("{ST1}[ t + 0x200000 ],{{a}};"), &format!("{ST1} [t+2097152], {{a}};"));
    becomes(
        "tcgen05.mma.ws.sp.cta_group::1.kind::f8f6f4[d+0],[a+1],b,[m+0x2],i,p;",
        "tcgen05.mma.ws.sp.cta_group::1.kind::f8f6f4 [d], [a+1], b, [m+2], i, p;",
    );
}

// The table of shapes.

#[test]
fn table_of_shapes() {
    for num in [1, 2, 4, 8, 16, 32, 64, 128] {
        let row = |shape| (registers(shape, num), lanes(shape), columns(shape, num), largest(shape));
        assert_eq!(row(Shape::S32x32b), (num, 32, num, 128));
        assert_eq!(row(Shape::S16x64b), (num, 16, 2 * num, 128));
        assert_eq!(row(Shape::S16x128b), (2 * num, 16, 4 * num, 64));
        assert_eq!(row(Shape::S16x256b), (4 * num, 16, 8 * num, 32));
    }
    // The cells of an access are 32-bit and a warp has 32 threads.
    for shape in Shape::ALL {
        assert_eq!(lanes(shape) * columns(shape, 1), 32 * registers(shape, 1));
        assert_eq!(registers(shape, largest(shape)), 128);
    }
}

#[test]
fn numbers_of_forms() {
    let texts = [
        "mov.b32 x, 7;".to_string(),
        "mov.b64 x, 7;".to_string(),
        format!("{ALLOC} [t], 32;"),
        format!("{DEALLOC} t, 32;"),
        format!("{RELINQUISH};"),
        format!("{LD1} {{r}}, [t];"),
        format!("{ST1} [t], {{r}};"),
        "tcgen05.wait::ld.sync.aligned;".to_string(),
        "tcgen05.wait::st.sync.aligned;".to_string(),
        "tcgen05.fence::before_thread_sync;".to_string(),
        "tcgen05.fence::after_thread_sync;".to_string(),
        format!("{MMA} [d], a, b, i, p;"),
        "exit;".to_string(),
    ];
    assert_eq!(texts.len(), FORMS as usize);
    for (number, text) in texts.iter().enumerate() {
        let s = read(text.as_bytes()).unwrap();
        assert_eq!(form(&s), number as u32);
        if number != 5 && number != 6 {
            assert_eq!(registers_reason(&s), 0);
        }
    }
}

// Random statements.

#[test]
fn written_text_reads_back() {
    let mut random = Random(4);
    for _ in 0..20_000 {
        let s = random.statement();
        let text = written(&s);
        assert_eq!(read(text.as_bytes()), Ok(s));
        assert!(!text.contains("  ") && !text.contains(" ;") && !text.contains("+0]"));
    }
}

#[test]
fn spaces_and_tokens() {
    let mut random = Random(5);
    for _ in 0..2_000 {
        let s = random.statement();
        let all = tokens(&written(&s));

        // Any number of spaces in any gap; between the opcode and a name that the
        // opcode's run would swallow, at least one.
        let mut text = all[0].clone();
        for (place, token) in all.iter().enumerate().skip(1) {
            let first = token.as_bytes()[0];
            let needed = place == 1 && (first.is_ascii_alphanumeric() || first == b'_');
            let spaces = random.below(3) + usize::from(needed);
            text.push_str(&" ".repeat(spaces));
            text.push_str(token);
        }
        assert_eq!(read(text.as_bytes()), Ok(s), "{text}");
        refused(&format!(" {text}"), 3);
        refused(&format!("{text} "), 3);

        // One token dropped, doubled, or a strange one put in: no form matches.
        let place = random.below(all.len());
        let mut fewer = all.clone();
        fewer.remove(place);
        refused(&fewer.join(" "), 3);
        let mut more = all.clone();
        more.insert(place, all[place].clone());
        refused(&more.join(" "), 3);
        for strange in [".", "\t", "%", "@", "\"", "-", "(", "=", "<", "\u{7f}"] {
            let mut other = all.clone();
            other.insert(place, strange.to_string());
            let makes_negative = strange == "-" && place > 0 && all[place].starts_with(|c: char| c.is_ascii_digit());
            if makes_negative {
                assert_ne!(read(other.join(" ").as_bytes()), Err(3));
            } else {
                refused(&other.join(" "), 3);
            }
        }
    }
}

#[test]
fn cut_short() {
    let mut random = Random(6);
    for _ in 0..200 {
        let text = written(&random.statement());
        for end in 0..text.len() {
            refused(&text[..end], 3);
        }
    }
}
