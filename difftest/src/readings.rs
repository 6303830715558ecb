//! Statements and sheets with their answers, where the rules can be read in two ways: each is asked of both sides. A `^`
//! stands before the byte that a refusal names and is itself no byte of the text.

mod expressions;

use crate::sheets::{Proved, Reference, Side};
use staplehorn_difftest::counts::Counts;
use staplehorn_reference::statement as reference;

/// A statement with its mark, its reason, and its canonical text where it reads.
type Row = (Vec<u8>, u32, String);

fn mov(number: &str) -> Vec<u8> {
    format!("mov.b32 x, {number};").into()
}

fn load(list: &str, address: &str) -> Vec<u8> {
    format!("tcgen05.ld.sync.aligned.32x32b.x1.b32 {list}, {address};").into()
}

/// The text without its mark, and the column of the mark: 0 if there is none.
fn unmarked(text: &[u8]) -> (Vec<u8>, usize) {
    let column = text.iter().position(|&byte| byte == b'^').map_or(0, |place| place + 1);
    (text.iter().copied().filter(|&byte| byte != b'^').collect(), column)
}

/// `count` names in braces, with a mark where a list is too long.
fn names(count: usize) -> String {
    let mut list = String::from("{");
    for i in 0..count {
        list.push_str(match i {
            0 => "r",
            128 => "^, r",
            _ => ", r",
        });
    }
    list + "}"
}

fn rows() -> Vec<Row> {
    let mut t: Vec<Row> = Vec::new();
    let mut good = |text: &str, canonical: &str| t.push((text.into(), 0, canonical.into()));
    // where the opcode ends, and spaces
    good("mov.b32%x,1;", "mov.b32 %x, 1;");
    good("mov.b32$x,1;", "mov.b32 $x, 1;");
    good("tcgen05.alloc.cta_group::1.sync.aligned.b32[t],32;", "tcgen05.alloc.cta_group::1.sync.aligned.b32 [t], 32;");
    good("tcgen05.ld.sync.aligned.32x32b.x1.b32 { r } , [ t + 3 ] ;", "tcgen05.ld.sync.aligned.32x32b.x1.b32 {r}, [t+3];");
    good("exit ;", "exit;");
    good("exit     ;", "exit;");
    // names: both sorts, 16 bytes, nothing reserved
    good("mov.b32 %r0, 1;", "mov.b32 %r0, 1;");
    good("mov.b32 %1, 1;", "mov.b32 %1, 1;");
    good("mov.b32 _1, 1;", "mov.b32 _1, 1;");
    good("mov.b32 $$, 1;", "mov.b32 $$, 1;");
    good("mov.b32 abcdefghijklmnop, 1;", "mov.b32 abcdefghijklmnop, 1;");
    good("mov.b32 %bcdefghijklmnop, 1;", "mov.b32 %bcdefghijklmnop, 1;");
    good("mov.b32 exit, 1;", "mov.b32 exit, 1;");
    good("mov.b32 mov, 1;", "mov.b32 mov, 1;");
    good("mov.b32 sheet, 1;", "mov.b32 sheet, 1;");
    good("mov.b32 x1, 1;", "mov.b32 x1, 1;");
    // numbers go by value
    good("mov.b32 x, 0X00fF;", "mov.b32 x, 255;");
    good("mov.b32 x, 4294967295;", "mov.b32 x, 4294967295;");
    good("mov.b64 x, 18446744073709551615;", "mov.b64 x, 18446744073709551615;");
    good("tcgen05.alloc.cta_group::1.sync.aligned.b32 [t], 4294967295;", "tcgen05.alloc.cta_group::1.sync.aligned.b32 [t], 4294967295;");
    // what is gone after reading
    good("tcgen05.alloc.cta_group::1.sync.aligned.shared::cta.b32 [t], 0x20;", "tcgen05.alloc.cta_group::1.sync.aligned.b32 [t], 32;");
    good("tcgen05.ld.sync.aligned.32x32b.x1.b32 {r}, [t+0];", "tcgen05.ld.sync.aligned.32x32b.x1.b32 {r}, [t];");
    for head in ["0x", "0", "0b"] {
        t.push((mov(&format!("{head}{}1", "0".repeat(900))), 0, "mov.b32 x, 1;".into()));
    }
    number_rows(&mut t);
    expressions::rows(&mut t);
    // a wrong count of registers reads and is written
    t.push(("^tcgen05.ld.sync.aligned.32x32b.x4.b32 {r}, [t];".into(), 5, "tcgen05.ld.sync.aligned.32x32b.x4.b32 {r}, [t];".into()));
    t.push((load("{a, b}", "[t]"), 5, "tcgen05.ld.sync.aligned.32x32b.x1.b32 {a, b}, [t];".into()));
    t.last_mut().expect("one is there").0.insert(0, b'^');
    let mut refused = |text: Vec<u8>, reason: u32| t.push((text, reason, String::new()));
    for n in ["128", "64"] {
        refused(format!("^tcgen05.ld.sync.aligned.16x256b.x{n}.b32 {}, [t];", names(128)).into(), 5);
        refused(format!("^tcgen05.st.sync.aligned.16x128b.x128.b32 [t], {};", names(128)).into(), 5);
    }
    refused(mov(&format!("^{}", "9".repeat(900))), 4);
    refused(mov(&format!("^0{}U", "7".repeat(900))), 4);
    refused(mov("^4294967296"), 4);
    refused(mov("   ^0x100000000"), 4);
    refused("mov.b64 x, ^18446744073709551616;".into(), 4);
    refused("tcgen05.alloc.cta_group::1.sync.aligned.b32 [t], ^4294967296;".into(), 4);
    refused("tcgen05.dealloc.cta_group::1.sync.aligned.b32 t, ^4294967296;".into(), 4);
    refused(load("{r}", "[t+^4294967296]"), 4);
    refused(load("{r, r}", "[ t + ^4294967296 ]"), 4);
    refused("tcgen05.st.sync.aligned.32x32b.x1.b32 [t+^0x100000000], {r};".into(), 4);
    // of two numbers that are over, the first; one that is not does not count
    refused("tcgen05.mma.cta_group::1.kind::f16 [t+^4294967296], [t+4294967296], b, i, p;".into(), 4);
    refused("tcgen05.mma.cta_group::1.kind::f16 [t+1], [t+^4294967296], b, i, p;".into(), 4);
    refused("tcgen05.mma.sp.cta_group::1.kind::f16 [t+1], [t], b, [t+^4294967296], i, p;".into(), 4);
    for text in THREE {
        refused(text.into(), 3);
    }
    refused(b"exit^\xa0;".to_vec(), 3);
    refused(load("{^rrrrrrrrrrrrrrrrr}", "[t]"), 3);
    refused(load("{^}", "[t]"), 3);
    // a list goes on with a comma up to its 128th name
    refused(format!("tcgen05.ld.sync.aligned.32x32b.x128.b32 {}, [t];", names(129)).into(), 3);
    refused(format!("tcgen05.st.sync.aligned.32x32b.x1.b32 [t], {};", names(400)).into(), 3);
    // too long: where no form can go on, else one past the end
    refused(format!("mov.b32 x,{}4294967296;^", " ".repeat(4096)).into(), 3);
    refused(format!("exit{};^", " ".repeat(4092)).into(), 3);
    refused(format!("exit{};^;", " ".repeat(4092)).into(), 3);
    refused(format!("exit {}^", " ".repeat(4096)).into(), 3);
    refused(format!("mov.b32 ^1,{}1;", " ".repeat(4096)).into(), 3);
    refused(format!("^exiit{};", " ".repeat(4096)).into(), 3);
    t
}

/// What stands before and behind a number in each place that takes one, written in the canonical form.
const AROUND: [(&str, &str); 9] = [
    ("mov.b32 x, ", ";"),
    ("mov.b64 x, ", ";"),
    ("tcgen05.alloc.cta_group::1.sync.aligned.b32 [t], ", ";"),
    ("tcgen05.dealloc.cta_group::1.sync.aligned.b32 t, ", ";"),
    ("tcgen05.ld.sync.aligned.32x32b.x1.b32 {r}, [t+", "];"),
    ("tcgen05.st.sync.aligned.32x32b.x1.b32 [t+", "], {r};"),
    ("tcgen05.mma.cta_group::1.kind::f16 [d+", "], a, b, i, p;"),
    ("tcgen05.mma.cta_group::1.kind::f16 [d], [a+", "], b, i, p;"),
    ("tcgen05.mma.sp.cta_group::1.kind::f16 [d], a, b, [m+", "], i, p;"),
];

/// Numbers and what is none, in every place.
fn number_rows(t: &mut Vec<Row>) {
    for (before, after) in AROUND {
        for (number, value) in NUMBERS {
            let canonical = match before.strip_suffix('+') {
                Some(address) if value == "0" => format!("{address}{after}"),
                _ => format!("{before}{value}{after}"),
            };
            t.push((format!("{before}{number}{after}").into(), 0, canonical));
        }
        for run in NO_NUMBERS {
            t.push((format!("{before}^{run}{after}").into(), 3, String::new()));
        }
        // the largest number that is taken, and the next one
        let wide = before.starts_with("mov.b64");
        for (number, over, value) in if wide { WIDE } else { NARROW } {
            t.push((format!("{before}{number}{after}").into(), 0, format!("{before}{value}{after}")));
            t.push((format!("{before}^{over}{after}").into(), 4, String::new()));
        }
    }
}

/// Numbers with their values.
const NUMBERS: [(&str, &str); 46] = [
    ("0", "0"),
    ("0U", "0"),
    ("00", "0"),
    ("000", "0"),
    ("00U", "0"),
    ("000U", "0"),
    ("0x0", "0"),
    ("0X00", "0"),
    ("0x0U", "0"),
    ("0b0", "0"),
    ("0B00", "0"),
    ("0b0U", "0"),
    ("1U", "1"),
    ("64U", "64"),
    ("4294967295U", "4294967295"),
    // octal, and never decimal
    ("01", "1"),
    ("07", "7"),
    ("012", "10"),
    ("0012", "10"),
    ("040", "32"),
    ("040U", "32"),
    ("064", "52"),
    ("064U", "52"),
    ("0064", "52"),
    ("0100", "64"),
    ("0777", "511"),
    ("01000", "512"),
    ("0b1", "1"),
    ("0B1", "1"),
    ("0b1U", "1"),
    ("0B1U", "1"),
    ("0b10", "2"),
    ("0b0001", "1"),
    ("0b100000", "32"),
    ("0B100000", "32"),
    ("0b100000U", "32"),
    ("0b1000000", "64"),
    ("0x40", "64"),
    ("0x40U", "64"),
    ("0X40U", "64"),
    ("0x0040U", "64"),
    // letters that are digits here
    ("0xb1", "177"),
    ("0x0b1", "177"),
    ("0xB", "11"),
    ("0XbU", "11"),
    ("0xfeU", "254"),
];

/// Runs that only start like numbers, or not even that: none of their bytes is used, and the column is their first.
const NO_NUMBERS: [&str; 60] = [
    "08",
    "09",
    "019",
    "0189",
    "008",
    "08U",
    "0778",
    "0b",
    "0B",
    "0b2",
    "0B2",
    "0b12",
    "0b102",
    "0b1002U",
    "0bU",
    "0BU",
    "0b_1",
    "0b0b1",
    "0b0x1",
    "0bb1",
    "00b1",
    "0x",
    "0X",
    "0xU",
    "0XU",
    "0xg",
    "0x1G",
    "0x0x1",
    "0xx1",
    "00x1",
    "0o7",
    "0O7",
    "0d1",
    "0f00000000",
    "0a",
    "U",
    "UU",
    "U64",
    "U0",
    "0UU",
    "00UU",
    "64UU",
    "0x40UU",
    "0b1UU",
    "0u",
    "00u",
    "64u",
    "0x40u",
    "0b1u",
    "64uU",
    "64Uu",
    "64U1",
    "0U1",
    "00U0",
    "0U0",
    "64L",
    "64UL",
    "6_4",
    "64abc",
    "1e5",
];

/// In each base the largest number of 32 bits, the next one, and the largest one's value.
const NARROW: [(&str, &str, &str); 8] = [
    ("4294967295", "4294967296", "4294967295"),
    ("4294967295U", "4294967296U", "4294967295"),
    ("037777777777", "040000000000", "4294967295"),
    ("00037777777777U", "00040000000000U", "4294967295"),
    ("0xFFFFFFFF", "0x100000000", "4294967295"),
    ("0XffffffffU", "0X100000000U", "4294967295"),
    ("0b11111111111111111111111111111111", "0b100000000000000000000000000000000", "4294967295"),
    ("0B0011111111111111111111111111111111U", "0B00100000000000000000000000000000000U", "4294967295"),
];

/// The same of 64 bits.
const WIDE: [(&str, &str, &str); 8] = [
    ("18446744073709551615", "18446744073709551616", "18446744073709551615"),
    ("18446744073709551615U", "18446744073709551616U", "18446744073709551615"),
    ("01777777777777777777777", "02000000000000000000000", "18446744073709551615"),
    ("0001777777777777777777777U", "0002000000000000000000000U", "18446744073709551615"),
    ("0xFFFFFFFFFFFFFFFF", "0x10000000000000000", "18446744073709551615"),
    ("0XffffffffffffffffU", "0X10000000000000000U", "18446744073709551615"),
    (
        "0b1111111111111111111111111111111111111111111111111111111111111111",
        "0b10000000000000000000000000000000000000000000000000000000000000000",
        "18446744073709551615",
    ),
    (
        "0B001111111111111111111111111111111111111111111111111111111111111111U",
        "0B0010000000000000000000000000000000000000000000000000000000000000000U",
        "18446744073709551615",
    ),
];

/// Statements of no form. A space is a byte like others where none may stand, and is passed over where a token may follow.
const THREE: [&str; 104] = [
    "^mov.b32_x,1;",
    "mov.b32 x, ^64abc;",
    "mov.b32 x, ^0x1g;",
    "mov.b32 x, ^08;",
    "mov.b32 x , ^08 ;",
    "exit^\t;",
    "exit^\r;",
    "exit^\x0c;",
    "exit^\n;",
    "exit;^\0",
    "exit^\x7f;",
    // what is over does not stop a form, and the column is that of the reason that counts
    "mov.b32 x, 4294967296^",
    "mov.b32 x, 4294967296  ^",
    "mov.b32 x, 4294967296;^;",
    "mov.b32 ^1x, 4294967296;",
    "tcgen05.ld.sync.aligned.32x32b.x1.b32 {r}, [t+4294967296^;",
    "mov.b32 ^%%, 1;",
    "mov.b32 ^%%a, 1;",
    "mov.b32 ^_%, 1;",
    "mov.b32 a^%, 1;",
    "mov.b32 a^%b, 1;",
    "mov.b32 a ^%b, 1;",
    "mov.b32 ^_, 1;",
    "mov.b32 ^$, 1;",
    "mov.b32 ^%, 1;",
    "mov.b32 ^% a, 1;",
    "mov.b32^%, 1;",
    "mov.b32 ^abcdefghijklmnopq, 1;",
    "mov.b32 ^%abcdefghijklmnop, 1;",
    "mov.b32 x^.y, 1;",
    "mov.b32 x^:y, 1;",
    "mov.b32 x, 1^.5;",
    "exit^$;",
    "^exit.;",
    "^EXIT;",
    "mov.b32 x, 64 ^u;",
    "mov.b32 x, 64 ^U;",
    "mov.b32 x, 0 ^x1;",
    "mov.b32 x, 0 ^b1;",
    "mov.b32 x, 0b1^.1;",
    "mov.b32 x, 0x1^%;",
    "mov.b32 x, 0b10 ^2;",
    "mov.b32 x, -^;",
    "mov.b32 x, ^+1;",
    "mov.b32 x, ^y;",
    "mov.b32 x, ^[y];",
    "mov.b32 x ^1;",
    "mov.b32 x, 1 ^1;",
    "mov.b32 x,^",
    "mov.b32 x^",
    "mov.b32^",
    "mov.b32 ^;",
    "tcgen05.alloc.cta_group::1.sync.aligned.b32 [t^+0], 32;",
    "tcgen05.alloc.cta_group::1.sync.aligned.b32 ^t, 32;",
    "^tcgen05.ld.sync.aligned.32x32b.x3.b32 {r}, [t];",
    "^tcgen05.ld.sync.aligned.32x32b.x256.b32 {r}, [t];",
    // what stands in an opcode is no number
    "^tcgen05.ld.sync.aligned.32x32b.x01.b32 {r}, [t];",
    "^tcgen05.ld.sync.aligned.32x32b.x1U.b32 {r}, [t];",
    "^tcgen05.ld.sync.aligned.32x32b.x0x1.b32 {r}, [t];",
    "^tcgen05.ld.sync.aligned.32x32b.x0b1.b32 {r}, [t];",
    "^tcgen05.ld.sync.aligned.020x32b.x1.b32 {r}, [t];",
    "^tcgen05.alloc.cta_group::01.sync.aligned.b32 [t], 32;",
    "^tcgen05.alloc.cta_group::1U.sync.aligned.b32 [t], 32;",
    "^mov.b040 x, 1;",
    "^tcgen05.ld.sync.aligned.16x32bx2.x1.b32 {r}, [t];",
    "^tcgen05.ld.sync.aligned.16x32bx2.b32 {r}, [t];",
    "^tcgen05.mma.sp.ws.cta_group::1.kind::f16 [d], a, b, [m], i, p;",
    "^tcgen05.alloc.cta_group::1.shared::cta.sync.aligned.b32 [t], 32;",
    "^tcgen05.dealloc.cta_group::1.sync.aligned.shared::cta.b32 t, 32;",
    "exit;^;",
    "exit;^ ;",
    "exit;^ exit;",
    "exit;^ // end",
    "exit;^  x",
    "exit;^x",
    "exit^",
    "exit  ^",
    "^@p exit;",
    "^[exit;",
    "^%exit;",
    "^;",
    "^l: exit;",
    "^",
    "^   ",
    "^ exit;",
    "exit;^ ",
    "^tcgen05.alloc.cta_group::2.sync.aligned.b32 [t], 32;",
    "^tcgen05.mma.cta_group::1.kind::mxf4 [d], a, b, i, p;",
    "^tcgen05.ld.sync.aligned.32x32b.x1.pack::16b.b32 {r}, [t];",
    "^tcgen05.cp.cta_group::1.128x256b [t], s;",
    "^tcgen05.shift.cta_group::1.down [t];",
    "^tcgen05.commit.cta_group::1.mbarrier::arrive::one.b64 [m];",
    "^bra l;",
    "tcgen05.mma.sp.cta_group::1.kind::f16 [d], a, b, ^i, p;",
    "tcgen05.mma.cta_group::1.kind::f16 [d], a, b, ^[m], i, p;",
    "tcgen05.mma.cta_group::1.kind::f16 [d], a^+1, b, i, p;",
    "tcgen05.mma.cta_group::1.kind::f16 [d], a, b, i^;",
    "tcgen05.mma.cta_group::1.kind::f16 [d+^x], a, b, i, p;",
    "tcgen05.ld.sync.aligned.32x32b.x1.b32 {r ^s}, [t];",
    "tcgen05.ld.sync.aligned.32x32b.x1.b32 {r,^}, [t];",
    "tcgen05.ld.sync.aligned.32x32b.x1.b32 {r}, [t^-1];",
    "tcgen05.ld.sync.aligned.32x32b.x1.b32 {r}, [t+1+^+1];",
    "tcgen05.ld.sync.aligned.32x32b.x1.b32 {r}, [t+^];",
    "tcgen05.st.sync.aligned.32x32b.x1.b32 [t]^;",
];

/// Asks both sides for each row's answer.
pub fn run(counts: &mut Counts) {
    for (marked, reason, canonical) in rows() {
        let (text, column) = unmarked(&marked);
        let bytes = text.as_slice();
        let shown = || format!("{:.120}", String::from_utf8_lossy(bytes));
        counts.compare("readings", reason, Proved.statement(bytes), (reason, column), shown);
        counts.compare("readings, reference", reason, Reference.statement(bytes), (reason, column), shown);
        let theirs = reference::read(bytes).map_or_else(|reason| reason, |s| reference::registers_reason(&s));
        counts.compare("readings, read", reason, theirs, reason, shown);
        if !canonical.is_empty() {
            for (what, side) in [("readings, written", &Proved as &dyn Side), ("readings, written, reference", &Reference)] {
                let mut room = [0; 4096];
                let (_, length) = side.canonical(bytes, &mut room);
                counts.compare(what, reason, &room[..length], canonical.as_bytes(), shown);
            }
        }
    }
}

/// Lines behind a good first one: the mark stands in the line that is refused. Reason, held and peak follow; the list that
/// is lent has room unless the reason is 16.
type Sheet = (Vec<String>, [u32; 3]);

/// In full: `|` is the tab, `@alloc`, `@dealloc`, `@load`, `@wait::ld`, `@mma` the opcodes.
fn long(line: &str) -> String {
    line.replace('|', "\t")
        .replace("@alloc", "tcgen05.alloc.cta_group::1.sync.aligned.b32")
        .replace("@dealloc", "tcgen05.dealloc.cta_group::1.sync.aligned.b32")
        .replace("@relinquish", "tcgen05.relinquish_alloc_permit.cta_group::1.sync.aligned")
        .replace("@load", "tcgen05.ld.sync.aligned.32x32b.x1.b32 {r},")
        .replace("@store", "tcgen05.st.sync.aligned.32x32b.x1.b32")
        .replace("@wait::ld", "tcgen05.wait::ld.sync.aligned")
        .replace("@wait::st", "tcgen05.wait::st.sync.aligned")
        .replace("@fence", "tcgen05.fence")
        .replace("@sparse", "tcgen05.mma.sp.cta_group::1.kind::f16")
        .replace("@integers", "tcgen05.mma.cta_group::1.kind::i8")
        .replace("@mma", "tcgen05.mma.cta_group::1.kind::f16")
}

const A32: &str = "0|@alloc [t], 32;";
const A64: &str = "0|@alloc [t], 64;";
const D32: &str = "0|@dealloc t, 32;";
const D64: &str = "0|@dealloc t, 64;";
const A512: &str = "0|@alloc [t], 512;";
const D512: &str = "0|@dealloc t, 512;";
const EXIT: &str = "0|exit;";
/// A shared memory descriptor that reads, an instruction descriptor that is listed.
const B: &str = "0|mov.b64 b, 0x0000400800100000;";
const I: &str = "0|mov.b32 i, 0x08100010;";
const MMA: &str = "0|@mma [t], b, b, i, p;";

fn sheet_rows() -> Vec<Sheet> {
    let mut t: Vec<Sheet> = Vec::new();
    let mut row = |lines: &[&str], reason: u32, held: u32, peak: u32| {
        t.push((lines.iter().map(|line| long(line)).collect(), [reason, held, peak]));
    };
    passed_rows(&mut row);
    form_rows(&mut row);
    name_rows(&mut row);
    booking_rows(&mut row);
    descriptor_rows(&mut row);
    n_rows(&mut row);
    cell_rows(&mut row);
    wait_rows(&mut row);
    wait_order_rows(&mut row);
    waits_between_rows(&mut row);
    spelling_rows(&mut row);
    expressions::sheet_rows(&mut row);
    t
}

type Put<'a> = &'a mut dyn FnMut(&[&str], u32, u32, u32);

fn passed_rows(row: Put) {
    row(&[A32, D32, EXIT], 0, 0, 32);
    row(&[A64, B, I, MMA, "3|@load [t+0x600000];", "3|@wait::ld;", D64, EXIT], 0, 0, 64);
    row(&[A32, D32, "^0|exit;"], 16, 0, 32);
    row(&[A32, "^0|exit;"], 15, 32, 32);
    row(&["^0|@alloc [t], 32;"], 15, 32, 32);
    row(&[A32, "^0|@dealloc t, 32;"], 15, 0, 32);
    row(&[EXIT, "^0|mov.b32 x, 1;"], 15, 0, 0);
    row(&[EXIT, "^0|exit;"], 15, 0, 0);
    row(&[EXIT, "0|mov.b32 ^1, 1;"], 3, 0, 0);
    row(&[EXIT, "0|mov.b32 x, ^4294967296;"], 4, 0, 0);
    row(&[A32, "^0|exit\x7f;"], 2, 32, 32);
    row(&["^0 exit;"], 2, 0, 0);
    row(&["^"], 2, 0, 0);
    row(&["^4|exit;"], 2, 0, 0);
}

fn form_rows(row: Put) {
    let lines = [
        "0|^ exit;",
        "0|exit;^ ",
        "0|exit;^  x",
        "0|exit;^;",
        "0|exit  ^",
        "0|^",
        "0|^   ",
        "0|^tcgen05.ld.sync.aligned.32x32b.x3.b32 {r}, [t];",
        "0|^[t];",
        "0|^%x;",
        "0|^@p exit;",
        "0|mov.b32 x, ^64abc;",
        "0|mov.b32 x, ^0x1g;",
        "0|mov.b32 ^abcdefghijklmnopq, 1;",
        "0|mov.b32 x, ^08;",
        "0|tcgen05.ld.sync.aligned.32x32b.x1.b32 {^}, [t];",
        "0|mov.b32 ^%%a, 1;",
        "0|mov.b32 a^%b, 1;",
        "0|mov.b32 ^%, 1;",
        "0|mov.b32 x, 4294967296^",
        "0|mov.b32 ^1x, 4294967296;",
        "0|mov.b32 x^.y, 1;",
        "0|mov.b32 x, 1^.5;",
        "0|exit^$;",
    ];
    for line in lines {
        row(&[line, EXIT], 3, 0, 0);
        row(&[A32, line], 3, 32, 32);
    }
    row(&[&format!("3|tcgen05.ld.sync.aligned.32x32b.x128.b32 {}, [t];", names(129))], 3, 0, 0);
    row(&["0|mov.b32 x, ^4294967296;"], 4, 0, 0);
    row(&["0|@mma [t+^4294967296], [t+4294967296], b, i, p;"], 4, 0, 0);
    row(&["0|@mma [t+1], [t+^4294967296], b, i, p;"], 4, 0, 0);
    row(&[A32, "0|@load [t+^4294967296];"], 4, 32, 32);
    row(&[A32, "0|^tcgen05.ld.sync.aligned.32x32b.x1.b32 {a, b}, [t];"], 5, 32, 32);
    row(&["0|^tcgen05.ld.sync.aligned.32x32b.x1.b32 {a, b}, [unbound];"], 5, 0, 0);
}

fn name_rows(row: Put) {
    row(&[A32, "0|mov.b32 ^t, 1;"], 6, 32, 32);
    row(&[A32, "0|mov.b32   ^t , 1;"], 6, 32, 32);
    row(&[A32, "0|@alloc [^t], 32;"], 6, 32, 32);
    row(&[A32, "1|@alloc [ ^t ], 33;"], 6, 32, 32);
    row(&["0|@dealloc ^t, 32;"], 6, 0, 0);
    row(&["0|@load [^t];"], 6, 0, 0);
    row(&["0|@store [^t+1], {t};"], 6, 0, 0);
    // names in a list and the predicate's are not looked up, even where they are those that are broken
    row(&["0|tcgen05.ld.sync.aligned.32x32b.x1.b32 {t}, [^t];"], 6, 0, 0);
    row(&[A64, B, I, "0|@mma [t], b, b, i, unbound;", D64, EXIT], 0, 0, 64);
    // of several names that are broken, the first; one that is not does not count
    row(&[A64, "0|@mma [t], ^x, y, i, p;"], 6, 64, 64);
    row(&[A64, B, "0|@mma [t], b, ^y, z, p;"], 6, 64, 64);
    row(&["0|@mma [^x], [x], b, i, p;"], 6, 0, 0);
    row(&[A64, "0|@mma [t], [^x], x, i, p;"], 6, 64, 64);
    row(&[A64, B, "0|@sparse [t], b, b, [^x], x, x;"], 6, 64, 64);
    row(&[A64, B, "0|@sparse [t], b, b, [t], ^b, p;"], 6, 64, 64);
    row(&[A64, B, "0|@mma [t], b, b, ^t, p;"], 6, 64, 64);
    row(&[A64, B, "0|@mma [t], ^t, b, t, p;"], 6, 64, 64);
    // of the wrong sort goes on as a form
    row(&[B, "0|@load [^b];"], 6, 0, 0);
    let values: Vec<String> = (0..128).map(|i| format!("0|mov.b32 v{i}, {i};")).collect();
    let mut lines: Vec<&str> = values.iter().map(String::as_str).collect();
    lines.push("0|mov.b64 ^v128, 1;");
    row(&lines, 7, 0, 0);
}

fn booking_rows(row: Put) {
    row(&[A32, "^1|@dealloc t, 32;"], 8, 32, 32);
    row(&[A32, "^1|@alloc [u], 32;"], 8, 32, 32);
    row(&[A32, "^1|@relinquish;"], 8, 32, 32);
    row(&[A32, "1|@load ^[t];"], 8, 32, 32);
    row(&[A32, "1|@store ^[t], {r};"], 8, 32, 32);
    row(&["0|@alloc [t], ^33;"], 9, 0, 0);
    row(&["0|@alloc [t],   ^0x60;"], 9, 0, 0);
    row(&[A64, "0|@dealloc t, ^32;"], 9, 64, 64);
    row(&["0|@relinquish;", "0|^@alloc [t], 32;"], 10, 0, 0);
    row(&["0|@alloc [t], 512;", "0|^@alloc [u], 32;"], 11, 512, 512);
}

fn descriptor_rows(row: Put) {
    let zero = "0|mov.b64 z, 0;";
    // the same bad name twice, a bad name before a bad idesc, a alone, idesc alone
    row(&[A64, I, zero, "0|@mma [t], ^z, z, i, p;"], 12, 64, 64);
    row(&[A64, "0|mov.b32 i, 3;", zero, "0|@mma [t], [t], ^z, i, p;"], 12, 64, 64);
    row(&[A64, "0|mov.b32 i, 3;", zero, B, "0|@mma [t], ^z, b, i, p;"], 12, 64, 64);
    row(&[A64, I, zero, B, "0|@mma [t], b, ^z, i, p;"], 12, 64, 64);
    row(&[A64, "0|mov.b32 i, 3;", B, "0|@mma [t], b, b, ^i, p;"], 12, 64, 64);
    row(&[A64, I, B, "0|@sparse [t], b, b, [t], ^i, p;"], 12, 64, 64);
    // M, N and types: the first of them that is not listed
    for (word, reason) in [
        ("0x0C000020", 13),
        ("0x0C100010", 13),
        ("0x0C000010", 13),
        ("0x08000020", 20),
        ("0x08000010", 20),
        ("0x08420010", 20),
        ("0x08100020", 21),
        // f16 with bf16, two bf16 into f16
        ("0x08100090", 21),
        ("0x08100410", 21),
        ("0x08100480", 21),
        // a dtype or a type that has no code
        ("0x08100030", 12),
        ("0x08100110", 12),
        ("0x08100810", 12),
    ] {
        let word = format!("0|mov.b32 i, {word};");
        row(&[A64, B, &word, "0|@mma [t], b, b, ^i, p;"], reason, 64, 64);
    }
    // before the cells: N 64 in a holding of 32
    row(&[A32, B, "0|mov.b32 i, 0x08100020;", "0|@mma [t], b, b, ^i, p;"], 21, 32, 32);
    row(&[A32, B, "0|mov.b32 i, 0x08100024;", "0|@sparse [t], b, b, [t], ^i, p;"], 21, 32, 32);
    // integers: N 40 at either M, N 48, a dtype of another kind
    for (word, reason) in [("0x080A00A0", 20), ("0x040A00A0", 20), ("0x080C0090", 21), ("0x080C0080", 21), ("0x0C0A0090", 13)] {
        let word = format!("0|mov.b32 i, {word};");
        row(&[A64, B, &word, "0|@integers [t], b, b, ^i, p;"], reason, 64, 64);
    }
    row(&[A64, B, "0|mov.b32 i, 0x080C00A0;", "0|@integers [t], b, b, i, p;", D64, EXIT], 0, 0, 64);
}

/// N 0, 8, .. 504 under every opcode: those that it takes pass, and every other is 20.
fn n_rows(row: Put) {
    let floats: Vec<u32> = (8..=256).step_by(8).collect();
    let integers = [8, 16, 24, 32, 48, 64, 80, 96, 112, 128, 144, 160, 176, 192, 208, 224, 240, 256];
    // M 128 and types that the kind lists
    for (kind, base) in [("f16", 0x08000010), ("tf32", 0x08000910), ("f8f6f4", 0x08000010), ("i8", 0x080000A0)] {
        for (ws, sp) in [(false, false), (false, true), (true, false), (true, true)] {
            let taken: &[u32] = match (ws, sp) {
                (true, true) => &[64, 128],
                (true, false) => &[64, 128, 256],
                _ if kind == "i8" => &integers,
                _ => &floats,
            };
            let ws = if ws { ".ws" } else { "" };
            let (sparse, metadata, bit) = if sp { (".sp", " [t],", 1 << 2) } else { ("", "", 0) };
            let mma = format!("0|tcgen05.mma{ws}{sparse}.cta_group::1.kind::{kind} [t], b, b,{metadata}");
            for n in (0..=504).step_by(8) {
                let word = format!("0|mov.b32 i, {:#010X};", base | bit | ((n / 8) << 17));
                if taken.contains(&n) {
                    row(&[A512, B, &word, &format!("{mma} i, p;"), D512, EXIT], 0, 0, 512);
                } else {
                    row(&[A512, B, &word, &format!("{mma} ^i, p;")], 20, 512, 512);
                }
            }
        }
    }
}

fn cell_rows(row: Put) {
    row(&[A64, "0|@load ^[t+64];"], 14, 64, 64);
    row(&[A64, "0|@load   ^[ t + 64 ];"], 14, 64, 64);
    row(&[A64, "0|@store ^[t+64], {r};"], 14, 64, 64);
    row(&[A64, B, I, "0|@mma ^[t+1], b, b, i, p;"], 14, 64, 64);
    row(&[A64, B, I, "0|@mma ^[t+1], [t+57], b, i, p;"], 14, 64, 64);
    row(&[A64, B, I, "0|@mma [t], ^[t+57], b, i, p;"], 14, 64, 64);
    row(&[A64, B, I, "0|@mma [t], ^[t+65536], b, i, p;"], 14, 64, 64);
    row(&[A64, B, "0|mov.b32 i, 0x08100014;", "0|@sparse [t], b, b, ^[t+63], i, p;"], 14, 64, 64);
    row(&[A64, B, "0|mov.b32 i, 0x08100014;", "0|@sparse [t], ^[t+57], b, [t+63], i, p;"], 14, 64, 64);
}

/// A load or store of one column at the warp's first lane.
fn access(op: &str, warp: u32, name: &str) -> String {
    let address = format!("[{name}+{}]", warp * 32 * 65_536);
    match op {
        "ld" => format!("{warp}|@load {address};"),
        _ => format!("{warp}|@store {address}, {{r}};"),
    }
}

fn wait(op: &str, warp: u32) -> String {
    format!("{warp}|@wait::{op};")
}

/// The dealloc that is refused, and a second allocation.
const OUTSTANDING: &str = "0|^@dealloc t, 32;";
const A32U: &str = "0|@alloc [u], 32;";
const D32U: &str = "0|@dealloc u, 32;";

/// Which wait clears what.
fn wait_rows(row: Put) {
    for (op, other) in [("ld", "st"), ("st", "ld")] {
        let [by_0, by_1, on_u] = [access(op, 0, "t"), access(op, 1, "t"), access(op, 0, "u")];
        let (by_0, by_1, on_u) = (by_0.as_str(), by_1.as_str(), on_u.as_str());
        let [wait_0, wait_1, other_0] = [wait(op, 0), wait(op, 1), wait(other, 0)];
        let (wait_0, wait_1, other_0) = (wait_0.as_str(), wait_1.as_str(), other_0.as_str());
        row(&[A32, by_0, OUTSTANDING], 18, 32, 32);
        row(&[A32, by_0, wait_0, D32, EXIT], 0, 0, 32);
        // one mark and no count: what comes after the wait is outstanding again
        row(&[A32, by_0, by_0, wait_0, D32, EXIT], 0, 0, 32);
        row(&[A32, by_0, wait_0, wait_0, by_0, OUTSTANDING, EXIT], 18, 32, 32);
        row(&[A32, wait_0, by_0, OUTSTANDING, wait_0, EXIT], 18, 32, 32);
        // its own warp's wait, and not the one of the warp that gives back
        row(&[A32, by_1, wait_0, OUTSTANDING, EXIT], 18, 32, 32);
        row(&[A32, by_1, wait_1, D32, EXIT], 0, 0, 32);
        row(&[A32, by_0, by_1, wait_1, OUTSTANDING, EXIT], 18, 32, 32);
        row(&[A32, by_0, by_1, wait_0, OUTSTANDING, EXIT], 18, 32, 32);
        row(&[A32, by_0, by_1, wait_1, wait_0, D32, EXIT], 0, 0, 32);
        // of its own sort
        row(&[A32, by_0, other_0, OUTSTANDING, EXIT], 18, 32, 32);
        row(&[A32, by_0, &access(other, 0, "t"), wait_0, OUTSTANDING, EXIT], 18, 32, 32);
        row(&[A32, by_0, &access(other, 0, "t"), wait_0, other_0, D32, EXIT], 0, 0, 32);
        // on all allocations, each of which has its own marks
        row(&[A32, A32U, by_0, on_u, wait_0, D32, D32U, EXIT], 0, 0, 64);
        row(&[A32, A32U, on_u, D32, wait_0, D32U, EXIT], 0, 0, 64);
        row(&[A32, A32U, by_0, D32U, OUTSTANDING], 18, 32, 64);
        row(&[A32, A32U, on_u, D32, "0|^@dealloc u, 32;"], 18, 32, 64);
        row(&[A32, A32U, by_0, wait_0, on_u, D32, wait_1, other_0, "0|^@dealloc u, 32;"], 18, 32, 64);
        // a star is warp 0
        let star = by_0.replacen('0', "*", 1);
        row(&[A32, &star, wait_0, D32, EXIT], 0, 0, 32);
        row(&[A32, by_0, &format!("*|@wait::{op};"), D32, EXIT], 0, 0, 32);
        row(&[A32, by_1, &format!("*|@wait::{op};"), OUTSTANDING], 18, 32, 32);
        row(&[A32, &star, wait_1, OUTSTANDING], 18, 32, 32);
        // a name that is used again
        row(&[A32, by_0, wait_0, D32, A32, D32, EXIT], 0, 0, 32);
        row(&[A32, by_0, wait_0, D32, A32, by_0, OUTSTANDING], 18, 32, 32);
    }
}

/// What is asked before 18, and held then.
fn wait_order_rows(row: Put) {
    for (op, outside) in [("ld", "0|@load ^[t+32];"), ("st", "0|@store ^[t+32], {r};")] {
        let access = access(op, 0, "t");
        row(&[A32, &access, "0|@dealloc ^u, 32;"], 6, 32, 32);
        row(&[A32, &access, "^1|@dealloc t, 32;"], 8, 32, 32);
        row(&[A32, &access, "^1|@dealloc t, 64;"], 8, 32, 32);
        row(&[A32, &access, "0|@dealloc t, ^64;"], 9, 32, 32);
        row(&[A32, &access, "^0|exit;"], 15, 32, 32);
        row(&[A32, &access, "0|^@dealloc   t , 32 ;"], 18, 32, 32);
        // the last line has a fault of its own, so no exit is asked for
        row(&[A32, &access, OUTSTANDING], 18, 32, 32);
        row(&[A512, &access, "0|^@dealloc t, 512;", EXIT], 18, 512, 512);
        row(&[A64, A32U, &access, D32U, "0|^@dealloc t, 64;", EXIT], 18, 64, 96);
        // refused or behind the exit, it is not noted
        row(&[A32, outside, D32], 14, 32, 32);
        row(&[EXIT, &format!("^{access}")], 15, 0, 0);
    }
    // the sheet of the rules, without its wait and with it
    let load = "1|tcgen05.ld.sync.aligned.32x32b.x2.b32 {r0, r1}, [t1+2097152];";
    let start = ["0|@alloc [t0], 64;", "0|@alloc [t1], 32;", "0|@dealloc t0, 64;", "0|@alloc [t2], 32;", load];
    let end = ["0|@dealloc t1, 32;", "0|@dealloc t2, 32;", EXIT];
    row(&[&start[..], &["0|^@dealloc t1, 32;"], &end[1..]].concat(), 18, 64, 96);
    row(&[&start[..], &["1|@wait::ld;"], &end].concat(), 0, 0, 96);
}

/// Lines between an access of each shape and its dealloc that wait for nothing.
fn waits_between_rows(row: Put) {
    let before = "3|@fence::before_thread_sync;";
    let after = "3|@fence::after_thread_sync;";
    let refused = "0|^@dealloc t, 64;";
    for (shape, list) in [("32x32b", "{a}"), ("16x64b", "{a}"), ("16x128b", "{a, b}"), ("16x256b", "{a, b, c, d}")] {
        let load = format!("3|tcgen05.ld.sync.aligned.{shape}.x1.b32 {list}, [t+6291456];");
        let store = format!("3|tcgen05.st.sync.aligned.{shape}.x1.b32 [t+6291456], {list};");
        for (access, wait) in [(load.as_str(), "3|@wait::ld;"), (&store, "3|@wait::st;")] {
            row(&[A64, access, before, after, refused], 18, 64, 64);
            row(&[A64, B, I, access, MMA, refused], 18, 64, 64);
            row(&[A64, B, I, access, MMA, wait, D64, EXIT], 0, 0, 64);
            row(&[A64, B, I, access, wait, MMA, before, D64, EXIT], 0, 0, 64);
        }
    }
    // an mma needs no wait, wherever its operands are
    row(&[A64, B, I, MMA, "0|@mma [t], [t+56], b, i, p;", D64, EXIT], 0, 0, 64);
    row(&[A64, B, "0|mov.b32 i, 0x08100014;", "0|@sparse [t], [t+56], b, [t+62], i, p;", D64, EXIT], 0, 0, 64);
}

/// A number's value is what counts, in whatever base.
fn spelling_rows(row: Put) {
    // 064 is 52: no request, not what is held, and inside where 64 is not
    row(&["0|@alloc [t], ^064;"], 9, 0, 0);
    row(&["0|@alloc [t],   ^064U ;"], 9, 0, 0);
    row(&[A64, "0|@dealloc t, ^064;"], 9, 64, 64);
    row(&[A64, "0|@load [t+064];", "0|@wait::ld;", D64, EXIT], 0, 0, 64);
    row(&[A64, "0|@load ^[t+0100];"], 14, 64, 64);
    row(&["0|@alloc [t], ^00;"], 9, 0, 0);
    for (spelled, others) in [
        ("040", ["0b100000", "0x20U", "32U"]),
        ("0B100000", ["040U", "32", "0X20"]),
        ("32U", ["0b100000U", "0x0020", "00040"]),
        ("0X20U", ["32", "0B00100000", "040"]),
    ] {
        for other in others {
            row(&[&format!("0|@alloc [t], {spelled};"), &format!("0|@dealloc t, {other};"), EXIT], 0, 0, 32);
        }
        row(&[A64, &format!("0|@dealloc t, ^{spelled};")], 9, 64, 64);
        row(&[A32, &format!("0|@load ^[t+{spelled}];")], 14, 32, 32);
    }
    // the words of descriptors
    let b = "0|mov.b64 b, 02000400004000000U;";
    let i = "0|mov.b32 i, 0b1000000100000000000000010000;";
    row(&[A64, b, i, MMA, "3|@load [t+030000000];", "3|@wait::ld;", D64, EXIT], 0, 0, 64);
    row(&[A64, B, "0|mov.b32 i, 0b11U;", "0|@mma [t], b, b, ^i, p;"], 12, 64, 64);
    for over in ["040000000000", "4294967296U", "0x100000000U", "0b100000000000000000000000000000000"] {
        row(&[&format!("0|mov.b32 x, ^{over};")], 4, 0, 0);
        row(&[A32, &format!("0|@load [t+^{over}];")], 4, 32, 32);
        row(&[&format!("0|@mma [t+^{over}], [t+{over}], b, i, p;")], 4, 0, 0);
        row(&[&format!("0|@mma [t+00U], [t+^{over}], b, i, p;")], 4, 0, 0);
        row(&[&format!("0|mov.b64 x, {over};"), EXIT], 0, 0, 0);
    }
    for run in ["08", "019", "0b", "0b2", "0b102", "0bU", "0x", "0xU", "0o7", "64u", "64UU", "0UU", "64U1", "U"] {
        row(&[&format!("0|mov.b32 x, ^{run};")], 3, 0, 0);
        row(&[A32, &format!("0|@load [t+^{run}];")], 3, 32, 32);
        row(&[&format!("0|@alloc [t], ^{run};")], 3, 0, 0);
    }
    // what is no number in a sheet: the warp field
    for field in ["00", "0U", "0x0", "0b0", "01", "1U"] {
        row(&[&format!("^{field}|exit;")], 2, 0, 0);
    }
}

/// Asks both sides for the answer and the report of each sheet.
pub fn sheets(counts: &mut Counts) {
    for (lines, [reason, held, peak]) in sheet_rows() {
        let (mut sheet, mut place) = (b"sheet\t1\tsm_100a\n".to_vec(), [lines.len() as u32 + 1, 0]);
        // a sheet that only has no exit is refused at its last line
        if reason == 15 {
            place[1] = 1;
        }
        for (number, line) in (2..).zip(&lines) {
            let (bytes, column) = unmarked(line.as_bytes());
            if column > 0 {
                place = [number, column as u32];
            }
            sheet.extend([&bytes[..], b"\n"].concat());
        }
        let [line, column] = place;
        asked(counts, &sheet, [reason, line, column, held, peak]);
    }
    asked(counts, b"", [2, 1, 1, 0, 0]);
    asked(counts, b"sheet\t1\tsm_100b\n0\texit;\n", [2, 1, 1, 0, 0]);
    for version in ["01", "1U", "0x1", "0b1"] {
        asked(counts, format!("sheet\t{version}\tsm_100a\n0\texit;\n").as_bytes(), [2, 1, 1, 0, 0]);
    }
    asked(counts, b"sheet\t1\tsm_100a\n0\texit;", [2, 2, 1, 0, 0]);
    asked(counts, b"sheet\t1\tsm_100a\n", [15, 1, 1, 0, 0]);
    asked(counts, &[b' '; 65_537], [1, 0, 0, 0, 0]);
    asked(counts, &[b'\n'; 4_097], [1, 0, 0, 0, 0]);
    // 2,048 bytes in a line are no limit of a form
    let line = format!("sheet\t1\tsm_100a\n0\tmov.b32 x,{}y;\n", " ".repeat(2_034));
    asked(counts, line.as_bytes(), [3, 2, 2_047, 0, 0]);
}

fn asked(counts: &mut Counts, sheet: &[u8], wanted: [u32; 5]) {
    let [reason, line, column, held, peak] = wanted;
    let shown = || format!("{:.300}", String::from_utf8_lossy(sheet));
    for (what, side) in [("readings of columns", &Proved as &dyn Side), ("readings of columns, reference", &Reference)] {
        let mut list = [0; 8];
        let places = if reason == 16 { 0 } else { 8 };
        let (returned, answer) = side.judge(sheet, &mut list[..places]);
        counts.compare(what, reason, (returned, &answer[..5]), (reason, &wanted[..]), shown);
        if reason != 16 {
            let mut room = vec![0; ROOM];
            let (_, length) = side.report(sheet, &mut room);
            let first = format!("{reason}\t{line}\t{column}\t{held}\t{peak}\n");
            let report = &room[..length.min(ROOM)];
            counts.compare("readings of columns, report", reason, &report[..report.len().min(first.len())], first.as_bytes(), shown);
            if reason != 0 {
                counts.compare("readings of columns, report", reason, report.len(), first.len(), shown);
            }
        }
    }
}

/// The least room that takes any report.
const ROOM: usize = 102_391;
