//! Sheets with their answers, worked out by hand from the rules.
//!
//! Lines are written in a short hand. `|` stands for the tab behind the warp
//! field, and `@` opens a short opcode: `@alloc`, `@dealloc`, `@relinquish`,
//! `@ld(32x32b.x1)`, `@st(16x64b.x2)`, `@wait::ld`, `@mma.ws.sp(f16)`. `{#5}` is a
//! list of five names. A `^` stands before the byte that a refusal points at and is
//! itself no byte of the sheet.

mod expressions;
mod outstanding;

use crate::sheet::HEADER;

/// The length of the list that is lent unless an entry says another.
pub const PLACES: usize = 1024;

pub struct Entry {
    /// Letters, digits and hyphens; no two entries have the same.
    pub name: String,
    pub sheet: Vec<u8>,
    /// How long a list is lent.
    pub places: usize,
    /// Reason, line, column, held, peak.
    pub answer: [u32; 5],
    /// What the front of the list holds afterwards. The rest is untouched.
    pub starts: Vec<u16>,
}

/// All entries.
pub fn all() -> Vec<Entry> {
    let mut e = Entries { list: Vec::new() };
    worked_examples(&mut e);
    slips(&mut e);
    sheet_limits(&mut e);
    headers(&mut e);
    layout(&mut e);
    tokens(&mut e);
    numbers(&mut e);
    bases(&mut e);
    unsigned(&mut e);
    no_numbers(&mut e);
    expressions::all(&mut e);
    forms(&mut e);
    register_lists(&mut e);
    names_bound(&mut e);
    value_table(&mut e);
    warps(&mut e);
    requests(&mut e);
    placing(&mut e);
    accesses(&mut e);
    outstanding::all(&mut e);
    mma_names(&mut e);
    mma_descriptors(&mut e);
    mma_shapes(&mut e);
    mma_ws_and_sp(&mut e);
    mma_cells(&mut e);
    exits(&mut e);
    lent_list(&mut e);
    order(&mut e);
    e.list
}

struct Entries {
    list: Vec<Entry>,
}

impl Entries {
    /// A refused sheet: the lines behind a good first one, with reason, line, held
    /// and peak. The column is that of the `^`, or one that goes by the reason.
    fn refused<S: AsRef<str>>(&mut self, name: &str, lines: &[S], answer: [u32; 4]) {
        let [reason, line, held, peak] = answer;
        let marked = lines.get((line as usize).wrapping_sub(2)).and_then(|line| long(line.as_ref()).find('^'));
        let column = marked.map_or_else(|| plain_column(reason), |place| place as u32 + 1);
        self.add(name, sheet(&unmarked(lines)), PLACES, [reason, line, column, held, peak], &[]);
    }

    /// A passed sheet with its peak and starts.
    fn passed<S: AsRef<str>>(&mut self, name: &str, lines: &[S], peak: u32, starts: &[u16]) {
        let last = lines.len() as u32 + 1;
        self.raw(name, sheet(&unmarked(lines)), [0, last, 0, peak], starts);
    }

    /// For reasons whose column goes by the reason alone.
    fn raw(&mut self, name: &str, sheet: Vec<u8>, answer: [u32; 4], starts: &[u16]) {
        self.lent(name, sheet, PLACES, answer, starts);
    }

    fn lent(&mut self, name: &str, sheet: Vec<u8>, places: usize, answer: [u32; 4], starts: &[u16]) {
        let [reason, line, held, peak] = answer;
        self.add(name, sheet, places, [reason, line, plain_column(reason), held, peak], starts);
    }

    fn add(&mut self, name: &str, sheet: Vec<u8>, places: usize, answer: [u32; 5], starts: &[u16]) {
        let starts = starts.to_vec();
        self.list.push(Entry { name: name.into(), sheet, places, answer, starts });
    }
}

/// The column where it goes by the reason alone.
fn plain_column(reason: u32) -> u32 {
    match reason {
        0 | 1 => 0,
        2 | 15 | 16 => 1,
        5 | 10 | 11 | 18 => 3,
        _ => panic!("reason {reason} needs a mark"),
    }
}

/// The lines without the `^`.
fn unmarked<S: AsRef<str>>(lines: &[S]) -> Vec<String> {
    lines.iter().map(|line| line.as_ref().replace('^', "")).collect()
}

/// A sheet with a good first line and an LF behind each line.
pub fn sheet<S: AsRef<str>>(lines: &[S]) -> Vec<u8> {
    let mut bytes = HEADER.to_vec();
    bytes.push(b'\n');
    for line in lines {
        bytes.extend(long(line.as_ref()).into_bytes());
        bytes.push(b'\n');
    }
    bytes
}

/// A line of the short hand in full.
pub fn long(line: &str) -> String {
    let line = line.replacen('|', "\t", 1);
    let line = with_list(&line);
    let line = line
        .replace("@alloc", "tcgen05.alloc.cta_group::1.sync.aligned.b32")
        .replace("@dealloc", "tcgen05.dealloc.cta_group::1.sync.aligned.b32")
        .replace("@relinquish", "tcgen05.relinquish_alloc_permit.cta_group::1.sync.aligned")
        .replace("@wait::ld", "tcgen05.wait::ld.sync.aligned")
        .replace("@wait::st", "tcgen05.wait::st.sync.aligned")
        .replace("@fence", "tcgen05.fence");
    if line.contains("@mma") {
        line.replace("@mma", "tcgen05.mma").replacen('(', ".cta_group::1.kind::", 1).replacen(')', "", 1)
    } else if line.contains("@ld(") || line.contains("@st(") {
        line.replace("@ld(", "tcgen05.ld.sync.aligned.").replace("@st(", "tcgen05.st.sync.aligned.").replacen(')', ".b32", 1)
    } else {
        line
    }
}

/// `{#5}` becomes a list of five names.
fn with_list(line: &str) -> String {
    let Some((front, back)) = line.split_once("{#") else {
        return line.into();
    };
    let Some((count, end)) = back.split_once('}') else {
        return line.into();
    };
    let Ok(count) = count.parse::<usize>() else {
        return line.into();
    };
    let names: Vec<String> = (0..count).map(|place| format!("r{place}")).collect();
    format!("{front}{{{}}}{end}", names.join(", "))
}

/// Lines of two sorts in one list.
fn borrowed(lines: &[String]) -> Vec<&str> {
    lines.iter().map(String::as_str).collect()
}

/// `exit` with as many spaces before its end as make a line of this length.
fn long_exit(length: usize) -> String {
    format!("0|exit{};", " ".repeat(length - "0|exit;".len()))
}

/// A sheet of exactly this many bytes that passes but for its length.
fn sheet_of(bytes: usize) -> Vec<u8> {
    let mut sheet = sheet::<&str>(&[]);
    let end = b"0\texit;\n";
    let wait = b"0\ttcgen05.wait::ld.sync.aligned";
    while sheet.len() + end.len() < bytes {
        let left = bytes - sheet.len() - end.len();
        // what is left over behind this line must be long enough for another
        let length = if left <= 2_049 { left } else { 1_900 };
        sheet.extend_from_slice(wait);
        sheet.resize(sheet.len() + length - wait.len() - 2, b' ');
        sheet.extend_from_slice(b";\n");
    }
    sheet.extend_from_slice(end);
    sheet
}

/// A sheet of this many lines that passes but for their number.
fn sheet_of_lines(lines: usize) -> Vec<u8> {
    let mut list = vec!["0|mov.b32 x,1;"; lines - 2];
    list.push("0|exit;");
    sheet(&list)
}

fn worked_examples(e: &mut Entries) {
    let mut whole = vec![
        "0|@alloc [t0], 64;",
        "0|@alloc [t1], 32;",
        "0|@dealloc t0, 64;",
        "0|@alloc [t2], 32;",
        "1|@ld(32x32b.x2) {r0, r1}, [t1+2097152];",
        "0|@dealloc t1, 32;",
        "0|@dealloc t2, 32;",
        "0|exit;",
    ];
    e.refused("given-whole-without-wait", &whole, [18, 7, 64, 96]);
    whole.insert(5, "1|@wait::ld;");
    e.passed("given-whole", &whole, 96, &[0, 64, 0]);
    let mut lines: Vec<String> = (0..16).map(|i| format!("0|@alloc [t{i}], 32;")).collect();
    lines.extend((0..8).map(|i| format!("0|@dealloc t{}, 32;", 2 * i)));
    let mut fragments = borrowed(&lines);
    fragments.push("0|@alloc [u], 64;");
    e.refused("fragments-64", &fragments, [11, 26, 256, 512]);
    fragments.pop();
    fragments.push("0|@alloc [u], 512;");
    e.refused("fragments-512", &fragments, [11, 26, 256, 512]);
    fragments.pop();
    let mut all: Vec<String> = lines.clone();
    all.push("0|@alloc [u], 32;".into());
    all.push("0|@dealloc t3, 32;".into());
    all.push("0|@alloc [v], 64;".into());
    all.extend([1, 5, 7, 9, 11, 13, 15].map(|i| format!("0|@dealloc t{i}, 32;")));
    all.extend(["0|@dealloc u, 32;", "0|@dealloc v, 64;", "0|exit;"].map(String::from));
    let mut starts: Vec<u16> = (0..16).map(|i| 32 * i).collect();
    starts.extend([0, 64]);
    e.passed("fragments-filled", &all, 512, &starts);
    let inside = ["0|@alloc [t], 64;", "0|@ld(32x32b.x64) {#64}, [t];", "0|@wait::ld;", "0|@dealloc t, 64;", "0|exit;"];
    e.passed("access-fills-holding", &inside, 64, &[0]);
    let outside = ["0|@alloc [t], 64;", "0|@ld(32x32b.x64) {#64}, ^[t+1];"];
    e.refused("access-one-past", &outside, [14, 3, 64, 64]);
    e.refused::<&str>("header-alone", &[], [15, 1, 0, 0]);
    e.passed("header-and-exit", &["0|exit;"], 0, &[]);
}

fn slips(e: &mut Entries) {
    // an address is not cut down to the memory
    let whole = "0|@alloc [t], 512;";
    e.refused("column-512-not-masked", &[whole, "0|@ld(32x32b.x1) {r}, ^[t+512];"], [14, 3, 512, 512]);
    e.refused("column-65535-not-masked", &[whole, "0|@ld(32x32b.x1) {r}, ^[t+65535];"], [14, 3, 512, 512]);
    e.refused("lane-128-not-masked", &[whole, "0|@ld(32x32b.x1) {r}, ^[t+8388608];"], [8, 3, 512, 512]);
    e.refused("lane-65535-not-masked", &[whole, "0|@ld(32x32b.x1) {r}, ^[t+0xffff0000];"], [8, 3, 512, 512]);
    e.refused("lane-65535-mma", &with_mma("@mma(f16)", "^[t+0xffff0000], a, b, i, p"), [14, 6, 512, 512]);
    // an offset of 2 is column 2, not lane 2
    let small = ["0|@alloc [t], 32;", "0|@ld(32x32b.x1) {r}, [t+2];", "0|@wait::ld;", "0|@dealloc t, 32;", "0|exit;"];
    e.passed("offset-2-is-a-column", &small, 32, &[0]);
    let second = ["0|@alloc [t], 32;", "2|@ld(32x32b.x1) {r}, ^[t+2];"];
    e.refused("offset-2-is-no-lane", &second, [8, 3, 32, 32]);
    let lane_two = ["0|@alloc [t], 32;", "0|@ld(32x32b.x1) {r}, ^[t+131072];"];
    e.refused("lane-2-is-no-warps", &lane_two, [8, 3, 32, 32]);
    // 064 is 52 and never 64
    e.refused("alloc-064", &["0|@alloc [t], ^064;"], [9, 2, 0, 0]);
    e.refused("dealloc-064", &["0|@alloc [t], 64;", "0|@dealloc t, ^064;"], [9, 3, 64, 64]);
    e.passed("alloc-0100", &["0|@alloc [t], 0100;", "0|@dealloc t, 64;", "0|exit;"], 64, &[0]);
    // a part is not given back
    e.refused("dealloc-part", &["0|@alloc [t], 64;", "0|@dealloc t, ^32;"], [9, 3, 64, 64]);
    e.refused("dealloc-more", &["0|@alloc [t], 64;", "0|@dealloc t, ^128;"], [9, 3, 64, 64]);
    // one holding is left behind
    let mut lines: Vec<String> = (0..4).map(|i| format!("0|@alloc [t{i}], 128;")).collect();
    lines.extend((0..3).map(|i| format!("0|@dealloc t{i}, 128;")));
    lines.push("0|exit;".into());
    e.refused("four-taken-three-given-back", &lines, [15, 9, 128, 512]);
}

fn sheet_limits(e: &mut Entries) {
    let lines_of = |sheet: &[u8]| crate::sheet::count_lines(sheet) as u32;
    for bytes in [65_535, 65_536] {
        let sheet = sheet_of(bytes);
        let last = lines_of(&sheet);
        e.raw(&format!("bytes-{bytes}"), sheet, [0, last, 0, 0], &[]);
    }
    e.raw("bytes-65537", sheet_of(65_537), [1, 0, 0, 0], &[]);
    e.raw("bytes-65537-nonsense", vec![b'x'; 65_537], [1, 0, 0, 0], &[]);
    e.raw("bytes-65536-nonsense", vec![b'x'; 65_536], [2, 1, 0, 0], &[]);
    e.raw("lines-4095", sheet_of_lines(4_095), [0, 4_095, 0, 0], &[]);
    e.raw("lines-4096", sheet_of_lines(4_096), [0, 4_096, 0, 0], &[]);
    e.raw("lines-4097", sheet_of_lines(4_097), [1, 0, 0, 0], &[]);
    let mut open = sheet_of_lines(4_096);
    open.push(b'x');
    e.raw("lines-4096-and-a-byte", open, [1, 0, 0, 0], &[]);
    let mut open = sheet_of_lines(4_095);
    open.push(b'x');
    e.raw("lines-4095-and-a-byte", open, [2, 4_096, 0, 0], &[]);
    e.raw("lines-4096-empty", vec![b'\n'; 4_096], [2, 1, 0, 0], &[]);
    e.raw("lines-4097-empty", vec![b'\n'; 4_097], [1, 0, 0, 0], &[]);
    e.passed("line-2048", &[&long_exit(2_048)], 0, &[]);
    e.refused("line-2049", &[&long_exit(2_049)], [2, 2, 0, 0]);
    e.refused("line-2049-after-alloc", &["0|@alloc [t], 32;", &long_exit(2_049)], [2, 3, 32, 32]);
    let longest = format!("0|mov.b32 x, ^{};", "9".repeat(2_048 - "0|mov.b32 x, ;".len()));
    e.refused("line-2048-of-digits", &[&longest], [4, 2, 0, 0]);
    let longer = format!("0|mov.b32 x, {};", "9".repeat(2_049 - "0|mov.b32 x, ;".len()));
    e.refused("line-2049-of-digits", &[&longer], [2, 2, 0, 0]);
}

fn headers(e: &mut Entries) {
    let mut bad = |name: &str, sheet: &[u8]| e.raw(name, sheet.to_vec(), [2, 1, 0, 0], &[]);
    bad("empty", b"");
    bad("one-lf", b"\n");
    bad("header-without-lf", b"sheet\t1\tsm_100a");
    bad("header-cr-lf", b"sheet\t1\tsm_100a\r\n0\texit;\r\n");
    bad("header-version-2", b"sheet\t2\tsm_100a\n0\texit;\n");
    bad("header-target", b"sheet\t1\tsm_103a\n0\texit;\n");
    bad("header-more", b"sheet\t1\tsm_100a\t\n0\texit;\n");
    bad("header-space-end", b"sheet\t1\tsm_100a \n0\texit;\n");
    bad("header-space-front", b" sheet\t1\tsm_100a\n0\texit;\n");
    bad("header-spaces", b"sheet 1 sm_100a\n0\texit;\n");
    bad("header-bom", b"\xef\xbb\xbfsheet\t1\tsm_100a\n0\texit;\n");
    bad("header-upper", b"Sheet\t1\tsm_100a\n0\texit;\n");
    bad("header-short", b"sheet\t1\tsm_100\n0\texit;\n");
    bad("header-missing", b"0\texit;\n");
    bad("header-nul", b"sheet\t1\tsm_100a\0\n0\texit;\n");
    e.refused("header-twice", &["sheet\t1\tsm_100a", "0|exit;"], [2, 2, 0, 0]);
    e.refused("header-twice-after-exit", &["0|exit;", "sheet\t1\tsm_100a"], [2, 3, 0, 0]);
}

fn layout(e: &mut Entries) {
    for (name, line) in [
        ("layout-empty-line", ""),
        ("layout-warp-alone", "0"),
        ("layout-no-tab", "0 exit;"),
        ("layout-tab-first", "\texit;"),
        ("layout-no-warp", "exit;"),
        ("layout-warp-4", "4|exit;"),
        ("layout-warp-slash", "/|exit;"),
        ("layout-warp-letter", "a|exit;"),
        ("layout-warp-00", "00|exit;"),
        ("layout-warp-space", "0 |exit;"),
        ("layout-two-tabs", "0|\texit;"),
        ("layout-tab-inside", "0|exit\t;"),
        ("layout-tab-at-end", "0|exit;\t"),
        ("layout-cr", "0|exit;\r"),
        ("layout-byte-0", "0|exit\0;"),
        ("layout-byte-31", "0|exit\x1f;"),
        ("layout-byte-127", "0|exit\x7f;"),
        ("layout-byte-127-alone", "0|\x7f"),
        ("layout-form-feed", "0|exit\x0c;"),
        ("layout-two-byte-letter", "0|mov.b32 \u{e4}, 1;"),
    ] {
        e.refused(name, &[line], [2, 2, 0, 0]);
        e.refused(&format!("{name}-after-alloc"), &["0|@alloc [t], 32;", line], [2, 3, 32, 32]);
    }
    e.refused("layout-byte-126", &["0|exit^~;"], [3, 2, 0, 0]);
    let mut high = sheet::<&str>(&[]);
    high.extend_from_slice(b"0\texit\xa0;\n");
    e.raw("layout-byte-160", high, [2, 2, 0, 0], &[]);
    for warp in ["0", "1", "2", "3", "*"] {
        let name = if warp == "*" { "star" } else { warp };
        e.passed(&format!("exit-by-warp-{name}"), &[&format!("{warp}|exit;")], 0, &[]);
    }
    // bytes behind the last LF
    for (name, tail) in
        [("open-line-exit", &b"0\texit;"[..]), ("open-line-one-byte", b"0"), ("open-line-header", HEADER), ("open-line-space", b" ")]
    {
        let mut after_exit = sheet(&["0|@alloc [t], 32;", "0|@dealloc t, 32;", "0|exit;"]);
        after_exit.extend_from_slice(tail);
        e.raw(&format!("{name}-after-exit"), after_exit, [2, 5, 0, 32], &[]);
        let mut before = sheet(&["0|@alloc [t], 32;"]);
        before.extend_from_slice(tail);
        e.raw(name, before, [2, 3, 32, 32], &[]);
    }
    e.refused("empty-line-after-exit", &["0|exit;", ""], [2, 3, 0, 0]);
    e.refused("empty-statement", &["0|^"], [3, 2, 0, 0]);
    e.refused("spaces-for-statement", &["0|^   "], [3, 2, 0, 0]);
}

fn tokens(e: &mut Entries) {
    let mut last = |name: &str, line: &str| e.refused(name, &[line], [15, 2, 0, 0]);
    last("opcode-ends-at-percent", "0|mov.b32%x,1;");
    last("opcode-ends-at-dollar", "0|mov.b32$x,1;");
    last("mov-with-spaces", "0|mov.b32   x   ,   1   ;");
    for name in ["%r0", "%1", "_1", "$$", "exit", "mov", "sheet", "x1", "abcdefghijklmnop", "%bcdefghijklmnop"] {
        let label = format!("name-{}", name.replace('%', "percent-").replace('_', "line-").replace('$', "dollar-"));
        last(&label, &format!("0|mov.b32 {name}, 1;"));
    }
    e.refused("alloc-without-space", &["0|@alloc[t],32;"], [15, 2, 32, 32]);
    let spaced = "0|@ld(32x32b.x1) { r } , [ t + 3 ] ;";
    e.passed("spaces-at-each-token", &["0|@alloc [t], 32;", spaced, "0|@wait::ld ;", "0|@dealloc t, 32;", "0|exit ;"], 32, &[0]);
    e.passed("exit-and-spaces", &["0|exit     ;"], 0, &[]);
    let mut three = |name: &str, line: &str| e.refused(name, &[line], [3, 2, 0, 0]);
    three("opcode-runs-into-name", "0|^mov.b32_x,1;");
    three("space-before-opcode", "0|^ exit;");
    three("space-after-end", "0|exit;^ ");
    three("upper-case-opcode", "0|^EXIT;");
    three("name-of-17", "0|mov.b32 ^abcdefghijklmnopq, 1;");
    three("name-of-17-percent", "0|mov.b32 ^%bcdefghijklmnopq, 1;");
    three("name-two-percents", "0|mov.b32 ^%%, 1;");
    three("name-line-percent", "0|mov.b32 ^_%, 1;");
    three("name-inner-percent", "0|mov.b32 a^%, 1;");
    three("name-line-alone", "0|mov.b32 ^_, 1;");
    three("name-dollar-alone", "0|mov.b32 ^$, 1;");
    three("name-percent-alone", "0|mov.b32 ^%, 1;");
    three("name-digit-first", "0|mov.b32 ^1x, 1;");
    three("number-and-letters", "0|mov.b32 x, ^64abc;");
    three("two-statements", "0|exit;^ exit;");
    three("two-ends", "0|exit;^;");
    three("no-end", "0|exit^");
    three("comment", "0|exit;^ // end");
    three("guard", "0|^@p exit;");
    three("label", "0|^l: exit;");
    three("missing-comma", "0|mov.b32 x ^1;");
    three("comma-too-many", "0|mov.b32 x,^, 1;");
}

fn numbers(e: &mut Entries) {
    let mut reads = |name: &str, line: &str| e.refused(name, &[line], [15, 2, 0, 0]);
    reads("mov32-largest", "0|mov.b32 x, 4294967295;");
    reads("mov32-largest-hex", "0|mov.b32 x, 0xffffFFFF;");
    reads("mov64-largest", "0|mov.b64 x, 18446744073709551615;");
    reads("mov64-largest-hex", "0|mov.b64 x, 0XFFFFFFFFFFFFFFFF;");
    reads("mov32-zero", "0|mov.b32 x, 0;");
    reads("hex-with-zeros", "0|mov.b32 x, 0X00fF;");
    reads("hex-with-900-zeros", &format!("0|mov.b32 x, 0x{}1;", "0".repeat(900)));
    let mut four = |name: &str, line: &str| e.refused(name, &[line], [4, 2, 0, 0]);
    four("mov32-over", "0|mov.b32 x, ^4294967296;");
    four("mov32-over-hex", "0|mov.b32 x, ^0x100000000;");
    four("mov64-over", "0|mov.b64 x, ^18446744073709551616;");
    four("mov64-over-hex", "0|mov.b64 x, ^0x10000000000000000;");
    four("number-of-900-nines", &format!("0|mov.b64 x, ^{};", "9".repeat(900)));
    four("alloc-over", "0|@alloc [t], ^4294967296;");
    four("dealloc-over", "0|@dealloc t, ^4294967296;");
    four("offset-over", "0|@ld(32x32b.x1) {r}, [t+^4294967296];");
    four("offset-over-mma", "0|@mma(f16) [t+^4294967296], a, b, i, p;");
    four("offset-over-2-to-64", "0|@st(32x32b.x1) [t+^18446744073709551616], {r};");
    let mut three = |name: &str, line: &str| e.refused(name, &[line], [3, 2, 0, 0]);
    three("over-without-end", "0|mov.b32 x, 4294967296^");
    three("over-with-two-ends", "0|mov.b32 x, 4294967296;^;");
    three("number-0x", "0|mov.b32 x, ^0x;");
    three("number-0x1g", "0|mov.b32 x, ^0x1g;");
    three("number-plus", "0|mov.b32 x, ^+1;");
    e.refused("alloc-largest-number", &["0|@alloc [t], ^4294967295;"], [9, 2, 0, 0]);
    e.passed("alloc-hex", &["0|@alloc [t], 0x40;", "0|@dealloc t, 0X040;", "0|exit;"], 64, &[0]);
}

/// Every base on both sides of both limits.
fn bases(e: &mut Entries) {
    let ones = "1".repeat(64);
    let zeros = "0".repeat(900);
    let mut reads = |name: &str, line: &str| e.refused(name, &[line], [15, 2, 0, 0]);
    for (name, zero) in [("00", "00"), ("000", "000"), ("0x00", "0x00"), ("0b0", "0b0"), ("0b00", "0B00")] {
        reads(&format!("number-{name}"), &format!("0|mov.b32 x, {zero};"));
    }
    reads("number-01", "0|mov.b32 x, 01;");
    reads("number-064", "0|mov.b32 x, 064;");
    reads("number-0b1", "0|mov.b32 x, 0b1;");
    reads("mov32-largest-octal", "0|mov.b32 x, 037777777777;");
    reads("mov64-largest-octal", "0|mov.b64 x, 01777777777777777777777;");
    reads("mov32-largest-binary", &format!("0|mov.b32 x, 0b{};", &ones[..32]));
    reads("mov64-largest-binary", &format!("0|mov.b64 x, 0B{ones};"));
    reads("octal-with-900-zeros", &format!("0|mov.b32 x, {zeros}37777777777;"));
    reads("binary-with-900-zeros", &format!("0|mov.b32 x, 0b{zeros}{};", &ones[..32]));
    let mut four = |name: &str, line: &str| e.refused(name, &[line], [4, 2, 0, 0]);
    four("mov32-over-octal", "0|mov.b32 x, ^040000000000;");
    four("mov64-over-octal", "0|mov.b64 x, ^02000000000000000000000;");
    four("mov32-over-binary", &format!("0|mov.b32 x, ^0b1{};", &zeros[..32]));
    four("mov64-over-binary", &format!("0|mov.b64 x, ^0b1{};", &zeros[..64]));
    // a remainder by 2^32 or 2^64 would be 32
    four("alloc-over-octal", "0|@alloc [t], ^040000000040;");
    four("alloc-over-binary", &format!("0|@alloc [t], ^0b1{}100000;", &zeros[..26]));
    four("alloc-over-64-octal", "0|@alloc [t], ^02000000000000000000040;");
    four("alloc-over-64-binary", &format!("0|@alloc [t], ^0b1{}100000;", &zeros[..58]));
    four("offset-over-octal", "0|@ld(32x32b.x1) {r}, [t + ^040000000000];");
    four("offset-over-binary", &format!("0|@st(32x32b.x1) [t+^0b1{}], {{r}};", &zeros[..32]));
    four("binary-of-900-ones", &format!("0|mov.b64 x, ^0b{};", "1".repeat(900)));
    four("octal-of-900-sevens", &format!("0|mov.b64 x, ^0{};", "7".repeat(900)));
    four("over-in-two-bases", "0|@mma(f16) [t+^040000000000], [t+0x100000000], b, i, p;");
    e.refused("alloc-largest-octal", &["0|@alloc [t], ^037777777777;"], [9, 2, 0, 0]);
    for (name, columns) in [("binary", "0b100000"), ("binary-capital", "0B100000"), ("octal", "040"), ("octal-zeros", "00040")] {
        let lines = [format!("0|@alloc [t], {columns};"), format!("0|@dealloc t, {columns};"), "0|exit;".into()];
        e.passed(&format!("alloc-{name}"), &lines, 32, &[0]);
    }
    for (name, columns) in [("binary", "0b100001"), ("octal", "041"), ("octal-32", "032"), ("binary-0", "0b0"), ("octal-0", "00")] {
        e.refused(&format!("request-{name}"), &[format!("0|@alloc [t], ^{columns};")], [9, 2, 0, 0]);
    }
    e.refused("dealloc-octal-differs", &["0|@alloc [t], 32;", "0|@dealloc t, ^032;"], [9, 3, 32, 32]);
    // lane 32 and the last column of the holding, then one more
    let last_column = ["0|@alloc [t], 32;", "1|@ld(32x32b.x1) {r}, [t+010000037];", "1|@wait::ld;", "0|@dealloc t, 32;", "0|exit;"];
    e.passed("offset-octal", &last_column, 32, &[0]);
    e.refused("offset-octal-past", &["0|@alloc [t], 32;", "1|@ld(32x32b.x1) {r}, ^[t+010000040];"], [14, 3, 32, 32]);
    e.refused("offset-zero-and-decimals", &["0|@alloc [t], 32;", "1|@ld(32x32b.x1) {r}, [t+^02097152];"], [3, 3, 32, 32]);
}

/// A `U` behind a number.
fn unsigned(e: &mut Entries) {
    let mut reads = |name: &str, line: &str| e.refused(name, &[line], [15, 2, 0, 0]);
    reads("number-64U", "0|mov.b32 x, 64U;");
    let numbers = ["0U", "00U", "0x40U", "0X40U", "040U", "0b1U", "0B1U", "4294967295U", "0xffffffffU", "037777777777U"];
    for (place, number) in numbers.iter().enumerate() {
        reads(&format!("unsigned-{place}-{number}"), &format!("0|mov.b32 x, {number};"));
    }
    let mut four = |name: &str, line: &str| e.refused(name, &[line], [4, 2, 0, 0]);
    for number in ["4294967296U", "0x100000000U", "040000000000U", "0b100000000000000000000000000000000U"] {
        four(&format!("over-{number}"), &format!("0|mov.b32 x, ^{number};"));
    }
    four("over-64-U", "0|mov.b64 x, ^18446744073709551616U;");
    e.refused("alloc-064U", &["0|@alloc [t], ^064U;"], [9, 2, 0, 0]);
    e.passed(
        "every-base-whole",
        &[
            "0|@alloc [t0], 0b1000000;",
            "0|@alloc [t1], 040U;",
            "0|mov.b64 b, 02000400004000000U;",
            "0|mov.b32 i, 0b1000000100000000000000010000;",
            "0|@mma(f16) [t0+0U], [t1+0b11000], b, i, p;",
            "0|@dealloc t0, 0x40U;",
            "0|@alloc [t2], 32U;",
            "1|@ld(32x32b.x2) {r0, r1}, [t1+010000000U];",
            "1|@wait::ld;",
            "0|@dealloc t1, 0B100000U;",
            "0|@dealloc t2, 0X20;",
            "0|exit;",
        ],
        96,
        &[0, 64, 0],
    );
}

/// Words that only begin or end as a number does: no part of them is read.
fn no_numbers(e: &mut Entries) {
    let words = [
        "08", "018", "019", "09", "0789", "0o7", "0b", "0B", "0bU", "0BU", "0b2", "0b12", "0b102", "0b1b", "0bx1", "0X", "0xU", "0XU",
        "0xg", "0xx1", "00x1", "00b1", "64u", "0u", "0x1u", "0b1u", "0UU", "64UU", "0x1UU", "01UU", "0b1UU", "64U1", "0U0", "0xU1", "U",
        "UU", "U1", "64L", "1f", "b1", "x1", "1b1", "1x1", "64UL",
    ];
    for (place, word) in words.iter().enumerate() {
        e.refused(&format!("no-number-{place}-{word}"), &[format!("0|mov.b32 x, ^{word};")], [3, 2, 0, 0]);
        let lines = ["0|@alloc [t], 32;".to_string(), format!("0|@ld(32x32b.x1) {{r}}, [t + ^{word}];")];
        e.refused(&format!("no-offset-{place}-{word}"), &lines, [3, 3, 32, 32]);
    }
    let mut three = |name: &str, line: &str| e.refused(name, &[line], [3, 2, 0, 0]);
    three("space-before-U", "0|mov.b32 x, 64 ^U;");
    three("space-in-binary", "0|mov.b32 x, 0 ^b1;");
    three("binary-without-end", "0|mov.b32 x, 0b100000^");
    three("over-binary-without-end", &format!("0|mov.b32 x, 0b{}^", "1".repeat(33)));
    three("bad-digit-behind-900", &format!("0|mov.b32 x, ^0{}8;", "7".repeat(900)));
    // these digits are no numbers
    three("num-1U", "0|^@ld(32x32b.x1U) {r}, [t];");
    three("num-0x1", "0|^@ld(32x32b.x0x1) {r}, [t];");
    three("num-0b1", "0|^@ld(32x32b.x0b1) {r}, [t];");
    three("cta-group-01", "0|^tcgen05.alloc.cta_group::01.sync.aligned.b32 [t], 32;");
    three("cta-group-1U", "0|^tcgen05.alloc.cta_group::1U.sync.aligned.b32 [t], 32;");
    for (name, digit) in [("01", "01"), ("1U", "1U"), ("0x1", "0x1"), ("0b1", "0b1")] {
        e.raw(&format!("header-{name}"), format!("sheet\t{digit}\tsm_100a\n0\texit;\n").into(), [2, 1, 0, 0], &[]);
    }
    // U is a name
    let named = ["0|@alloc [U], 32U;", "0|@ld(32x32b.x1) {b1}, [U+0U];", "0|@wait::ld;", "0|@dealloc U, 040;", "0|exit;"];
    e.passed("name-U", &named, 32, &[0]);
}

fn forms(e: &mut Entries) {
    let mut three = |name: &str, line: &str| e.refused(name, &[line], [3, 2, 0, 0]);
    three("alloc-with-offset", "0|@alloc [t^+0], 32;");
    three("alloc-without-brackets", "0|@alloc ^t, 32;");
    three("dealloc-with-brackets", "0|@dealloc ^[t], 32;");
    three("num-3", "0|^@ld(32x32b.x3) {#3}, [t];");
    three("num-256", "0|^@ld(32x32b.x256) {#128}, [t];");
    three("num-01", "0|^@ld(32x32b.x01) {r}, [t];");
    three("num-over", "0|^@ld(32x32b.x99999999999) {r}, [t];");
    three("num-0", "0|^@ld(32x32b.x0) {r}, [t];");
    three("shape-16x32bx2", "0|^@ld(16x32bx2.x1) {r}, [t];");
    three("shape-32x64b", "0|^@ld(32x64b.x1) {r}, [t];");
    three("pack", "0|^tcgen05.ld.sync.aligned.32x32b.x1.pack::16b.b32 {r}, [t];");
    three("sp-before-ws", "0|^@mma.sp.ws(f16) [t], a, b, [m], i, p;");
    three("ws-twice", "0|^@mma.ws.ws(f16) [t], a, b, i, p;");
    three("shared-cta-misplaced", "0|^tcgen05.alloc.cta_group::1.shared::cta.sync.aligned.b32 [t], 32;");
    three("shared-cta-twice", "0|^tcgen05.alloc.cta_group::1.sync.aligned.shared::cta.shared::cta.b32 [t], 32;");
    three("shared-cta-in-dealloc", "0|^tcgen05.dealloc.cta_group::1.sync.aligned.shared::cta.b32 t, 32;");
    three("cta-group-2", "0|^tcgen05.alloc.cta_group::2.sync.aligned.b32 [t], 32;");
    three("kind-mxf4", "0|^@mma(mxf4) [t], a, b, i, p;");
    three("cp", "0|^tcgen05.cp.cta_group::1.128x256b [t], s;");
    three("shift", "0|^tcgen05.shift.cta_group::1.down [t];");
    three("commit", "0|^tcgen05.commit.cta_group::1.mbarrier::arrive::one.b64 [m];");
    three("branch", "0|^bra l;");
    three("mma-sp-without-meta", "0|@mma.sp(f16) [t], a, b, ^i, p;");
    three("mma-dense-with-meta", "0|@mma(f16) [t], a, b, ^[m], i, p;");
    three("mma-b-address", "0|@mma(f16) [t], a, ^[b], i, p;");
    three("mma-without-predicate", "0|@mma(f16) [t], a, b, i^;");
    three("ld-operands-turned", "0|@ld(32x32b.x1) ^[t], {r};");
    three("st-operands-turned", "0|@st(32x32b.x1) ^{r}, [t];");
    three("exit-with-operand", "0|exit ^x;");
    three("list-of-none", "0|@ld(32x32b.x1) {^}, [t];");
    three("list-of-129", &long("0|@ld(32x32b.x128) {#129}, [t];").replace(", r128", "^, r128"));
    three("list-name-of-17", "0|@ld(32x32b.x1) {^rrrrrrrrrrrrrrrrr}, [t];");
    three("mov-b16", "0|^mov.b16 x, 1;");
    e.passed(
        "shared-cta",
        &["0|tcgen05.alloc.cta_group::1.sync.aligned.shared::cta.b32 [t], 32;", "0|@dealloc t, 32;", "0|exit;"],
        32,
        &[0],
    );
    e.passed(
        "waits-and-fences",
        &["0|@wait::ld;", "1|@wait::st;", "2|@fence::before_thread_sync;", "3|@fence::after_thread_sync;", "3|exit;"],
        0,
        &[],
    );
}

fn register_lists(e: &mut Entries) {
    let mut five = |name: &str, line: &str| e.refused(name, &["0|@alloc [t], 512;", line], [5, 3, 512, 512]);
    five("registers-too-few", "0|@ld(32x32b.x2) {r}, [t];");
    five("registers-too-many", "0|@ld(32x32b.x2) {#3}, [t];");
    five("registers-127-of-128", "0|@ld(32x32b.x128) {#127}, [t];");
    five("registers-16x128b", "0|@st(16x128b.x1) [t], {r};");
    five("registers-16x256b", "0|@st(16x256b.x1) [t], {#2};");
    five("n-over-16x128b", "0|@ld(16x128b.x128) {#128}, [t];");
    five("n-over-16x256b-64", "0|@ld(16x256b.x64) {#128}, [t];");
    five("n-over-16x256b-128", "0|@ld(16x256b.x128) {#128}, [t];");
    five("registers-before-names", "0|@ld(32x32b.x2) {r}, [unbound];");
    let largest = [
        "0|@alloc [t], 512;",
        "0|@ld(32x32b.x128) {#128}, [t];",
        "0|@st(16x64b.x128) [t+256], {#128};",
        "0|@ld(16x128b.x64) {#128}, [t+256];",
        "0|@st(16x256b.x32) [t+256], {#128};",
        "0|@wait::ld;",
        "0|@wait::st;",
        "0|@dealloc t, 512;",
        "0|exit;",
    ];
    e.passed("largest-n-of-each-shape", &largest, 512, &[0]);
}

fn names_bound(e: &mut Entries) {
    let a32 = "0|@alloc [t], 32;";
    e.refused("alloc-live-name", &[a32, "0|@alloc [^t], 32;"], [6, 3, 32, 32]);
    e.refused("alloc-value-name", &["0|mov.b32 t, 1;", "0|@alloc [^t], 32;"], [6, 3, 0, 0]);
    e.refused("mov-live-name", &[a32, "0|mov.b64 ^t, 1;"], [6, 3, 32, 32]);
    e.refused("dealloc-unbound", &["0|@dealloc ^t, 32;"], [6, 2, 0, 0]);
    e.refused("dealloc-twice", &[a32, "0|@dealloc t, 32;", "0|@dealloc ^t, 32;"], [6, 4, 0, 32]);
    e.refused("dealloc-value", &["0|mov.b32 t, 1;", "0|@dealloc ^t, 32;"], [6, 3, 0, 0]);
    e.refused("names-by-case", &[a32, "0|@dealloc ^T, 32;"], [6, 3, 32, 32]);
    e.refused("name-prefix", &["0|@alloc [tt], 32;", "0|@dealloc ^t, 32;"], [6, 3, 32, 32]);
    e.refused("names-of-16", &["0|@alloc [abcdefghijklmnop], 32;", "0|@dealloc ^abcdefghijklmnoq, 32;"], [6, 3, 32, 32]);
    e.refused("ld-names-of-16", &["0|@alloc [abcdefghijklmnop], 32;", "0|@ld(32x32b.x1) {r}, [^abcdefghijklmnoq];"], [6, 3, 32, 32]);
    e.refused("ld-unbound", &["0|@ld(32x32b.x1) {r}, [^t];"], [6, 2, 0, 0]);
    e.refused("st-value", &["0|mov.b64 t, 1;", "0|@st(32x32b.x1) [^t], {r};"], [6, 3, 0, 0]);
    e.refused("ld-freed", &[a32, "0|@dealloc t, 32;", "0|@ld(32x32b.x1) {r}, [^t];"], [6, 4, 0, 32]);
    let reuse = [a32, "0|@dealloc t, 32;", "0|@alloc [t], 64;", "0|@dealloc t, 64;", "0|exit;"];
    e.passed("name-used-again", &reuse, 64, &[0, 0]);
    e.passed("mov-freed-name", &[a32, "0|@dealloc t, 32;", "0|mov.b32 t, 1;", "0|exit;"], 32, &[0]);
    e.refused("value-name-stays", &[a32, "0|@dealloc t, 32;", "0|mov.b32 t, 1;", "0|@alloc [^t], 32;"], [6, 5, 0, 32]);
    let own_name = [a32, "0|@ld(32x32b.x2) {t, t}, [t];", "0|@wait::ld;", "0|@dealloc t, 32;", "0|exit;"];
    e.passed("registers-not-looked-up", &own_name, 32, &[0]);
}

fn value_table(e: &mut Entries) {
    let bind = |count: usize| (0..count).map(|i| format!("0|mov.b32 v{i}, {i};")).collect::<Vec<_>>();
    let full = bind(128);
    let mut lines = borrowed(&full);
    lines.push("0|exit;");
    e.passed("values-128", &lines, 0, &[]);
    lines.pop();
    lines.extend(["0|mov.b64 v127, 1;", "0|mov.b32 v0, 1;", "0|exit;"]);
    e.passed("values-128-bound-again", &lines, 0, &[]);
    let mut over = bind(128);
    over.push("0|mov.b32 ^v128, 128;".into());
    e.refused("values-129", &over, [7, 130, 0, 0]);
    let mut taken = vec!["0|@alloc [t], 32;"];
    taken.extend(borrowed(&full));
    taken.push("0|mov.b32 ^t, 1;");
    e.refused("values-full-and-live-name", &taken, [6, 131, 32, 32]);
    taken.pop();
    taken.push("0|mov.b32 ^u, 1;");
    e.refused("values-full-and-new-name", &taken, [7, 131, 32, 32]);
    taken.pop();
    taken.extend(["0|@alloc [u], 64;", "0|@dealloc t, 32;", "0|@dealloc u, 64;", "0|exit;"]);
    e.passed("values-full-holdings-free", &taken, 96, &[0, 32]);
}

fn warps(e: &mut Entries) {
    let a32 = "0|@alloc [t], 32;";
    e.refused("alloc-by-second-warp", &[a32, "^1|@alloc [u], 32;"], [8, 3, 32, 32]);
    e.refused("dealloc-by-second-warp", &[a32, "^1|@dealloc t, 32;"], [8, 3, 32, 32]);
    e.refused("relinquish-by-second-warp", &[a32, "^3|@relinquish;"], [8, 3, 32, 32]);
    e.refused("warp-stays-fixed", &[a32, "0|@dealloc t, 32;", "^1|@alloc [t], 32;"], [8, 4, 0, 32]);
    e.passed(
        "star-is-warp-0",
        &["*|@alloc [t], 32;", "0|@ld(32x32b.x1) {r}, [t];", "*|@ld(32x32b.x1) {r}, [t];", "*|@wait::ld;", "0|@dealloc t, 32;", "*|exit;"],
        32,
        &[0],
    );
    e.refused("star-is-not-warp-1", &["1|@alloc [t], 32;", "^*|@dealloc t, 32;"], [8, 3, 32, 32]);
    e.passed("warp-3-books", &["3|@alloc [t], 32;", "3|@relinquish;", "3|@dealloc t, 32;", "1|exit;"], 32, &[0]);
    e.refused("relinquish-fixes-the-warp", &["2|@relinquish;", "^1|@alloc [t], 32;"], [8, 3, 0, 0]);
    e.refused("relinquish-then-alloc", &["2|@relinquish;", "2|@alloc [t], 32;"], [10, 3, 0, 0]);
    e.refused("relinquish-twice-by-two", &["2|@relinquish;", "^1|@relinquish;", "0|exit;"], [8, 3, 0, 0]);
    e.passed("relinquish-twice", &["2|@relinquish;", "2|@relinquish;", "0|exit;"], 0, &[]);
    e.passed("dealloc-after-relinquish", &[a32, "0|@relinquish;", "0|@dealloc t, 32;", "0|exit;"], 32, &[0]);
    e.refused("alloc-after-relinquish", &[a32, "0|@relinquish;", "0|@alloc [u], 32;"], [10, 4, 32, 32]);
    e.refused("refused-alloc-fixes-nothing", &["1|@alloc [t], ^33;"], [9, 2, 0, 0]);
    e.passed(
        "others-by-any-warp",
        &[a32, "1|mov.b32 x, 1;", "2|@wait::ld;", "3|@fence::before_thread_sync;", "0|@dealloc t, 32;", "2|exit;"],
        32,
        &[0],
    );
}

fn requests(e: &mut Entries) {
    for columns in [32, 64, 128, 256, 512] {
        let lines = [format!("0|@alloc [t], {columns};"), format!("0|@dealloc t, {columns};"), "0|exit;".into()];
        e.passed(&format!("request-{columns}"), &lines, columns, &[0]);
    }
    for columns in [0u32, 1, 16, 31, 33, 48, 63, 65, 96, 192, 384, 511, 513, 544, 1_024, 65_536 + 32, 1 << 31] {
        e.refused(&format!("request-{columns}"), &[&format!("0|@alloc [t], ^{columns};")], [9, 2, 0, 0]);
    }
    for columns in [0, 33, 64, 1_024, u32::MAX] {
        let lines = ["0|@alloc [t], 32;".into(), format!("0|@dealloc t, ^{columns};")];
        e.refused(&format!("dealloc-32-as-{columns}"), &lines, [9, 3, 32, 32]);
    }
}

fn placing(e: &mut Entries) {
    let not_natural = ["0|@alloc [t], 32;", "0|@alloc [u], 64;", "0|@dealloc t, 32;", "0|@dealloc u, 64;", "0|exit;"];
    e.passed("start-no-multiple-of-request", &not_natural, 96, &[0, 32]);
    e.passed(
        "lowest-gap-that-fits",
        &[
            "0|@alloc [a], 32;",
            "0|@alloc [b], 32;",
            "0|@alloc [c], 64;",
            "0|@alloc [d], 32;",
            "0|@dealloc a, 32;",
            "0|@dealloc c, 64;",
            "0|@alloc [e], 64;",
            "0|@alloc [f], 128;",
            "0|@alloc [g], 32;",
            "0|@dealloc b, 32;",
            "0|@dealloc d, 32;",
            "0|@dealloc e, 64;",
            "0|@dealloc f, 128;",
            "0|@dealloc g, 32;",
            "0|exit;",
        ],
        288,
        &[0, 32, 64, 128, 64, 160, 0],
    );
    e.refused("full-memory", &["0|@alloc [t], 512;", "0|@alloc [u], 32;"], [11, 3, 512, 512]);
    e.refused("two-256-and-a-32", &["0|@alloc [t], 256;", "0|@alloc [u], 256;", "0|@alloc [v], 32;"], [11, 4, 512, 512]);
    e.refused("no-run-past-the-end", &["0|@alloc [t], 32;", "0|@alloc [u], 512;"], [11, 3, 32, 32]);
    e.refused("gap-not-at-the-end", &["0|@alloc [t], 32;", "0|@alloc [u], 256;", "0|@alloc [v], 256;"], [11, 4, 288, 288]);
    let growing = [
        "0|@alloc [t], 32;",
        "0|@alloc [u], 64;",
        "0|@alloc [v], 256;",
        "0|@dealloc v, 256;",
        "0|@dealloc u, 64;",
        "0|@dealloc t, 32;",
        "0|exit;",
    ];
    e.passed("requests-that-grow", &growing, 352, &[0, 32, 96]);
    let back_to_back = ["0|@alloc [t], 512;", "0|@dealloc t, 512;", "0|@alloc [u], 512;", "0|@dealloc u, 512;", "0|exit;"];
    e.passed("whole-memory-twice", &back_to_back, 512, &[0, 0]);
}

fn accesses(e: &mut Entries) {
    let a32 = "0|@alloc [t], 32;";
    // a holding of 32 and one behind it
    let next = [a32, "0|@alloc [u], 32;", "0|@ld(32x32b.x1) {r}, ^[t+32];"];
    e.refused("not-into-the-next-holding", &next, [14, 4, 64, 64]);
    let last = [a32, "0|@ld(32x32b.x1) {r}, [t+31];", "0|@wait::ld;", "0|@dealloc t, 32;", "0|exit;"];
    e.passed("last-column", &last, 32, &[0]);
    // a holding that does not start at 0
    let second =
        [a32, "0|@alloc [u], 64;", "0|@ld(32x32b.x64) {#64}, [u];", "0|@wait::ld;", "0|@dealloc t, 32;", "0|@dealloc u, 64;", "0|exit;"];
    e.passed("columns-from-the-holdings-start", &second, 96, &[0, 32]);
    e.refused("column-from-the-holdings-start-over", &[a32, "0|@alloc [u], 64;", "0|@ld(32x32b.x64) {#64}, ^[u+32];"], [14, 4, 96, 96]);
    for (shape, registers) in [("32x32b", 1), ("16x64b", 1), ("16x128b", 2), ("16x256b", 4)] {
        for warp in 0..4u32 {
            for lane in [0, 1, 15, 16, 17, 32, 48, 64, 80, 96, 111, 112, 113, 127, 128] {
                let good = lane == 32 * warp || shape != "32x32b" && lane == 32 * warp + 16;
                let access = format!("{warp}|@ld({shape}.x1) {{#{registers}}}, ^[t+{}];", lane * 65_536);
                let name = format!("lane-{lane}-of-{shape}-by-{warp}");
                if good {
                    let wait = format!("{warp}|@wait::ld;");
                    e.passed(&name, &[a32, &access, &wait, "0|@dealloc t, 32;", "0|exit;"], 32, &[0]);
                } else if lane % 48 == 0 || warp == 1 {
                    e.refused(&name, &[a32, &access], [8, 3, 32, 32]);
                }
            }
        }
    }
    for (shape, num, registers, columns) in [("32x32b", 8, 8, 8), ("16x64b", 8, 8, 16), ("16x128b", 4, 8, 16), ("16x256b", 2, 8, 16)] {
        for (column, good) in [(32 - columns, true), (33 - columns, false)] {
            let access = format!("0|@st({shape}.x{num}) ^[t+{column}], {{#{registers}}};");
            let name = format!("columns-of-{shape}-at-{column}");
            if good {
                e.passed(&name, &[a32, &access, "0|@wait::st;", "0|@dealloc t, 32;", "0|exit;"], 32, &[0]);
            } else {
                e.refused(&name, &[a32, &access], [14, 3, 32, 32]);
            }
        }
    }
    e.refused("lane-before-columns", &[a32, "1|@ld(32x32b.x1) {r}, ^[t+99];"], [8, 3, 32, 32]);
}

/// A shared memory descriptor that reads.
const SHARED: u64 = 0x0000_4008_0010_0000;
/// Kind f16, dense: f32 from f16 by f16, N 64, M 128.
const DENSE: u32 = 0x0810_0010;

/// An instruction descriptor without flags.
fn idesc(dtype: u32, atype: u32, btype: u32, n: u32, m: u32) -> u32 {
    dtype << 4 | atype << 7 | btype << 10 | n / 8 << 17 | m / 16 << 24
}

/// Lines 2 to 5 take all columns as t and bind a, b and i; line 6 is the mma.
fn with_words(opcode: &str, operands: &str, a: u64, b: u64, i: u32) -> Vec<String> {
    vec![
        "0|@alloc [t], 512;".into(),
        format!("0|mov.b64 a, {a:#x};"),
        format!("0|mov.b64 b, {b:#x};"),
        format!("0|mov.b32 i, {i:#x};"),
        format!("1|{opcode} {operands};"),
    ]
}

/// The same with good words for a dense mma of kind f16.
fn with_mma(opcode: &str, operands: &str) -> Vec<String> {
    with_words(opcode, operands, SHARED, SHARED, DENSE)
}

/// The same with an instruction descriptor and plain operands.
fn with_idesc(opcode: &str, i: u32) -> Vec<String> {
    let operands = if opcode.contains(".sp") { "[t], a, b, [t+256], ^i, p" } else { "[t], a, b, ^i, p" };
    with_words(opcode, operands, SHARED, SHARED, i)
}

impl Entries {
    /// Lines 2 to 6 are accepted: the holding is given back, and the sheet passes.
    fn mma_passes(&mut self, name: &str, lines: Vec<String>) {
        let end = ["0|@dealloc t, 512;", "3|exit;"].map(String::from);
        self.passed(name, &[lines, end.to_vec()].concat(), 512, &[0]);
    }

    /// Line 6 is refused.
    fn mma_refused(&mut self, name: &str, lines: Vec<String>, reason: u32) {
        self.refused(name, &lines, [reason, 6, 512, 512]);
    }
}

fn mma_names(e: &mut Entries) {
    e.mma_passes("mma-dense", with_mma("@mma(f16)", "[t], a, b, i, p"));
    e.mma_passes("mma-a-in-memory", with_mma("@mma(f16)", "[t], [t+504], b, i, p"));
    e.mma_passes("mma-operands-overlap", with_mma("@mma(f16)", "[t], [t], b, i, p"));
    e.mma_passes("mma-a-is-b", with_mma("@mma(f16)", "[t], b, b, i, p"));
    e.mma_passes("mma-predicate-not-looked-up", with_mma("@mma(f16)", "[t], a, b, i, t"));
    let mut six = |name: &str, operands: &str| e.mma_refused(name, with_mma("@mma(f16)", operands), 6);
    six("mma-d-unbound", "[^u], a, b, i, p");
    six("mma-d-value", "[^a], a, b, i, p");
    six("mma-a-unbound", "[t], ^x, b, i, p");
    six("mma-a-holding", "[t], ^t, b, i, p");
    six("mma-a-narrow", "[t], ^i, b, i, p");
    six("mma-a-address-unbound", "[t], [^u], b, i, p");
    six("mma-a-address-value", "[t], [^a], b, i, p");
    six("mma-b-unbound", "[t], a, ^x, i, p");
    six("mma-b-holding", "[t], a, ^t, i, p");
    six("mma-b-narrow", "[t], a, ^i, i, p");
    six("mma-idesc-unbound", "[t], a, b, ^x, p");
    six("mma-idesc-wide", "[t], a, b, ^a, p");
    six("mma-idesc-holding", "[t], a, b, ^t, p");
    let mut sparse = |name: &str, operands: &str| {
        e.mma_refused(name, with_words("@mma.sp(f16)", operands, SHARED, SHARED, DENSE | 4), 6);
    };
    sparse("mma-meta-unbound", "[t], a, b, [^m], i, p");
    sparse("mma-meta-value", "[t], a, b, [^a], i, p");
    // rebinding at the other width
    let mut again = with_mma("@mma(f16)", "[t], a, ^b, i, p");
    again.insert(4, "0|mov.b32 b, 1;".into());
    e.refused("mma-b-bound-again-narrow", &again, [6, 7, 512, 512]);
    let mut again = with_mma("@mma(f16)", "[t], a, b, ^i, p");
    again.insert(4, format!("0|mov.b64 i, {DENSE};"));
    e.refused("mma-idesc-bound-again-wide", &again, [6, 7, 512, 512]);
    // the last value counts
    again[4] = "0|mov.b32 i, 0;".into();
    e.refused("mma-idesc-bound-again", &again, [13, 7, 512, 512]);
}

fn mma_descriptors(e: &mut Entries) {
    // a number is judged where it is used
    let unused = ["0|mov.b64 b, 0;", "0|mov.b32 i, 0xffffffff;", "0|exit;"];
    e.passed("words-not-used", &unused, 0, &[]);
    let plain = "[t], a, b, i, p";
    let mut bad_a = |name: &str, a: u64| e.mma_refused(name, with_words("@mma(f16)", "[t], ^a, b, i, p", a, SHARED, DENSE), 12);
    bad_a("shared-a-zero", 0);
    bad_a("shared-bit-14", SHARED | 1 << 14);
    bad_a("shared-fixed-3", SHARED | 1 << 47);
    bad_a("shared-bit-60", SHARED | 1 << 60);
    bad_a("shared-swizzle-3", SHARED | 3 << 61);
    bad_a("shared-swizzle-5", SHARED | 5 << 61);
    let mut bad_b = |name: &str, b: u64| e.mma_refused(name, with_words("@mma(f16)", "[t], a, ^b, i, p", SHARED, b, DENSE), 12);
    bad_b("shared-b-zero", 0);
    bad_b("shared-bit-30", SHARED | 1 << 30);
    bad_b("shared-bit-53", SHARED | 1 << 53);
    bad_b("shared-base-without-swizzle", SHARED | 1 << 49);
    bad_b("shared-swizzle-7", SHARED | 7 << 61);
    for swizzle in [1, 2, 4, 6] {
        let word = SHARED | swizzle << 61 | 7 << 49 | 1 << 52 | 0x3fff;
        e.mma_passes(&format!("shared-swizzle-{swizzle}"), with_words("@mma(f16)", plain, word, SHARED, DENSE));
    }
    // a word behind an address is not looked at
    e.mma_passes("shared-a-not-used", with_words("@mma(f16)", "[t], [t], b, i, p", 0, SHARED, DENSE));
    let mut twelve = |name: &str, opcode: &str, i: u32| e.mma_refused(name, with_idesc(opcode, i), 12);
    twelve("idesc-bit-6", "@mma(f16)", DENSE | 1 << 6);
    twelve("idesc-bit-23", "@mma(f16)", DENSE | 1 << 23);
    twelve("idesc-bit-29", "@mma(f16)", DENSE | 1 << 29);
    twelve("idesc-selector-dense", "@mma(f16)", DENSE | 1);
    twelve("idesc-sparse-without-sp", "@mma(f16)", DENSE | 4);
    twelve("idesc-dense-with-sp", "@mma.sp(f16)", DENSE);
    twelve("idesc-saturate-f16", "@mma(f16)", DENSE | 8);
    twelve("idesc-dtype-3", "@mma(f16)", DENSE | 3 << 4);
    twelve("idesc-shift-without-ws", "@mma(f16)", DENSE | 1 << 30);
    twelve("idesc-negate-i8", "@mma(i8)", idesc(2, 0, 0, 64, 128) | 1 << 13);
    twelve("idesc-type-2-f16", "@mma(f16)", idesc(1, 2, 2, 64, 128));
    twelve("idesc-type-0-tf32", "@mma(tf32)", idesc(1, 0, 0, 64, 128));
    twelve("idesc-type-2-f8f6f4", "@mma(f8f6f4)", idesc(1, 2, 0, 64, 128));
    twelve("idesc-type-6-f8f6f4", "@mma(f8f6f4)", idesc(1, 0, 6, 64, 128));
    twelve("idesc-type-2-i8", "@mma(i8)", idesc(2, 0, 2, 64, 128));
    twelve("idesc-all-ones", "@mma(f16)", u32::MAX);
    let mut good = |name: &str, opcode: &str, i: u32| e.mma_passes(name, with_idesc(opcode, i));
    good("idesc-sparse", "@mma.sp(f16)", DENSE | 4 | 3);
    good("idesc-saturate-i8", "@mma(i8)", idesc(2, 1, 0, 48, 128) | 8);
    good("idesc-negate-and-transpose", "@mma(f16)", DENSE | 15 << 13);
    good("idesc-shift-with-ws", "@mma.ws(f16)", DENSE | 3 << 30);
}

fn mma_shapes(e: &mut Entries) {
    let mut good = |name: &str, opcode: &str, i: u32| e.mma_passes(name, with_idesc(opcode, i));
    good("shape-tf32-64-8", "@mma(tf32)", 0x0402_0910);
    good("shape-i8-128-48", "@mma(i8)", 0x080c_00a0);
    good("shape-i8-32", "@mma(i8)", idesc(2, 0, 1, 32, 64));
    good("shape-i8-256", "@mma(i8)", idesc(2, 1, 1, 256, 64));
    good("shape-f16-8", "@mma(f16)", idesc(1, 1, 1, 8, 128));
    good("shape-f16-256", "@mma(f16)", idesc(0, 0, 0, 256, 64));
    good("shape-f8f6f4-mixed", "@mma(f8f6f4)", idesc(0, 5, 3, 40, 64));
    good("shape-ws-32-64", "@mma.ws(f16)", idesc(1, 0, 0, 64, 32));
    good("shape-ws-128-256", "@mma.ws(i8)", idesc(2, 0, 1, 256, 128));
    let mut thirteen = |name: &str, opcode: &str, i: u32| e.mma_refused(name, with_idesc(opcode, i), 13);
    thirteen("shape-m-0", "@mma(f16)", idesc(1, 0, 0, 64, 0));
    thirteen("shape-m-32", "@mma(f16)", idesc(1, 0, 0, 64, 32));
    thirteen("shape-m-256", "@mma(f16)", idesc(1, 0, 0, 64, 256));
    thirteen("shape-ws-m-16", "@mma.ws(f16)", idesc(1, 0, 0, 64, 16));
    let mut twenty = |name: &str, opcode: &str, i: u32| e.mma_refused(name, with_idesc(opcode, i), 20);
    twenty("shape-i8-40", "@mma(i8)", 0x080a_00a0);
    twenty("shape-i8-56", "@mma(i8)", idesc(2, 0, 0, 56, 128));
    twenty("shape-n-0", "@mma(f16)", idesc(1, 0, 0, 0, 128));
    twenty("shape-n-264", "@mma(f16)", idesc(1, 0, 0, 264, 128));
    twenty("shape-n-504", "@mma(f16)", idesc(1, 0, 0, 504, 128));
    twenty("shape-ws-n-48", "@mma.ws(i8)", idesc(2, 0, 0, 48, 128));
    twenty("shape-ws-n-32", "@mma.ws(f16)", idesc(1, 0, 0, 32, 128));
    let mut types = |name: &str, opcode: &str, i: u32| e.mma_refused(name, with_idesc(opcode, i), 21);
    types("types-differ-f16", "@mma(f16)", idesc(1, 0, 1, 64, 128));
    types("types-f16-from-bf16", "@mma(f16)", idesc(0, 1, 1, 64, 128));
    types("types-s32-f16", "@mma(f16)", idesc(2, 0, 0, 64, 128));
    types("types-f16-tf32", "@mma(tf32)", idesc(0, 2, 2, 64, 128));
    types("types-s32-f8f6f4", "@mma(f8f6f4)", idesc(2, 0, 0, 64, 128));
    types("types-f32-i8", "@mma(i8)", idesc(1, 0, 0, 64, 128));
}

/// The kinds, each with a dtype and a code for the types of A and B that it lists.
const KINDS: [(&str, u32, u32); 4] = [("f16", 1, 0), ("tf32", 1, 2), ("f8f6f4", 1, 0), ("i8", 2, 0)];

/// N with `.ws` and `.sp`, in each kind.
fn mma_ws_and_sp(e: &mut Entries) {
    for (kind, dtype, code) in KINDS {
        let dense = |m, n| idesc(dtype, code, code, n, m);
        let sparse = |m, n| dense(m, n) | 4;
        for (flags, m, n, reason) in [
            (".sp", 64, 256, 0),
            (".sp", 128, 192, 0),
            (".sp", 128, 256, 0),
            (".ws", 32, 256, 0),
            (".ws", 64, 256, 0),
            (".ws", 128, 256, 0),
            (".ws", 128, 192, 20),
            (".ws.sp", 32, 64, 0),
            (".ws.sp", 64, 64, 0),
            (".ws.sp", 128, 64, 0),
            (".ws.sp", 32, 128, 0),
            (".ws.sp", 64, 128, 0),
            (".ws.sp", 128, 128, 0),
            (".ws.sp", 128, 192, 20),
            (".ws.sp", 32, 256, 20),
            (".ws.sp", 64, 256, 20),
            (".ws.sp", 128, 256, 20),
            (".ws.sp", 256, 256, 13),
        ] {
            let name = format!("shape-{kind}{}-{m}-{n}", flags.replace('.', "-"));
            let word = if flags.contains(".sp") { sparse(m, n) } else { dense(m, n) };
            let lines = with_idesc(&format!("@mma{flags}({kind})"), word);
            match reason {
                0 => e.mma_passes(&name, lines),
                _ => e.mma_refused(&name, lines, reason),
            }
        }
        let both = format!("@mma.ws.sp({kind})");
        // the sparse bit goes with the opcode before N is looked at
        e.mma_refused(&format!("shape-{kind}-ws-sp-256-dense"), with_idesc(&both, dense(128, 256)), 12);
        e.mma_refused(&format!("shape-{kind}-ws-256-sparse"), with_idesc(&format!("@mma.ws({kind})"), sparse(128, 256)), 12);
        // N comes before types and cells; no kind lists both f32 and s32
        let other_dtype = idesc(3 - dtype, code, code, 256, 128) | 4;
        e.mma_refused(&format!("shape-{kind}-ws-sp-256-and-types"), with_idesc(&both, other_dtype), 20);
        let past_the_end = with_words(&both, "[t+257], a, b, [t], ^i, p", SHARED, SHARED, sparse(128, 256));
        e.mma_refused(&format!("shape-{kind}-ws-sp-256-and-cells"), past_the_end, 20);
    }
    let (whole, back) = ("0|@alloc [t], 512;", "0|@dealloc t, 512;");
    let b = "0|mov.b64 b, 0x0000400800100000;";
    let sparse = "0|@mma.ws.sp(f16) [t], b, b, [t], ^i, p;";
    let dense = "0|@mma.ws(f16) [t], b, b, i, p;";
    e.refused("given-ws-sp-256", &[whole, b, "0|mov.b32 i, 0x08400014;", sparse], [20, 5, 512, 512]);
    e.passed("given-ws-sp-128", &[whole, b, "0|mov.b32 i, 0x08200014;", sparse, back, "0|exit;"], 512, &[0]);
    e.passed("given-ws-256", &[whole, b, "0|mov.b32 i, 0x08400010;", dense, back, "0|exit;"], 512, &[0]);
}

fn mma_cells(e: &mut Entries) {
    let sparse = DENSE | 4;
    let words = |opcode: &str, operands: &str| {
        let i = if opcode.contains(".sp") { sparse } else { DENSE };
        with_words(opcode, operands, SHARED, SHARED, i)
    };
    e.mma_passes("mma-d-to-the-end", words("@mma(f16)", "[t+448], a, b, i, p"));
    e.mma_passes("mma-a-to-the-end", words("@mma(f16)", "[t], [t+504], b, i, p"));
    e.mma_passes("mma-meta-to-the-end", words("@mma.sp(f16)", "[t], a, b, [t+510], i, p"));
    let mut outside = |name: &str, opcode: &str, operands: &str| e.mma_refused(name, words(opcode, operands), 14);
    outside("mma-d-one-past", "@mma(f16)", "^[t+449], a, b, i, p");
    outside("mma-a-one-past", "@mma(f16)", "[t], ^[t+505], b, i, p");
    outside("mma-meta-one-past", "@mma.sp(f16)", "[t], a, b, ^[t+511], i, p");
    outside("mma-d-lane-1", "@mma(f16)", "^[t+65536], a, b, i, p");
    outside("mma-d-lane-32", "@mma(f16)", "^[t+2097152], a, b, i, p");
    outside("mma-a-lane-16", "@mma(f16)", "[t], ^[t+1048576], b, i, p");
    outside("mma-meta-lane-64", "@mma.sp(f16)", "[t], a, b, ^[t+4194304], i, p");
    // a holding shorter than N
    let mut short = with_mma("@mma(f16)", "^[t], a, b, i, p");
    short[0] = "0|@alloc [t], 32;".into();
    e.refused("mma-d-holding-too-short", &short, [14, 6, 32, 32]);
}

fn exits(e: &mut Entries) {
    let a32 = "0|@alloc [t], 32;";
    let d32 = "0|@dealloc t, 32;";
    e.refused("exit-with-columns-held", &[a32, "0|exit;"], [15, 3, 32, 32]);
    e.refused("exit-with-all-columns-held", &["0|@alloc [t], 512;", "0|exit;"], [15, 3, 512, 512]);
    e.refused("no-exit", &[a32, d32], [15, 3, 0, 32]);
    e.refused("no-exit-columns-held", &[a32], [15, 2, 32, 32]);
    e.refused("no-exit-counts-last-line", &["0|@alloc [t], 32;", "0|@alloc [u], 256;"], [15, 3, 288, 288]);
    e.refused("dealloc-after-exit", &["0|exit;", d32], [15, 3, 0, 0]);
    e.refused("alloc-after-exit", &["0|exit;", a32], [15, 3, 0, 0]);
    e.refused("exit-twice", &[a32, d32, "0|exit;", "0|exit;"], [15, 5, 0, 32]);
    e.refused("layout-after-exit", &["0|exit;", "9|exit;"], [2, 3, 0, 0]);
    e.refused("no-form-after-exit", &["0|exit;", "0|^nothing;"], [3, 3, 0, 0]);
    e.refused("number-after-exit", &["0|exit;", "0|mov.b32 x, ^4294967296;"], [4, 3, 0, 0]);
    e.refused("registers-after-exit", &["0|exit;", "0|@ld(32x32b.x2) {r}, [t];"], [5, 3, 0, 0]);
    e.refused("unbound-after-exit", &["0|exit;", "0|@ld(32x32b.x1) {r}, [t];"], [15, 3, 0, 0]);
    e.refused("request-after-exit", &["0|exit;", "0|@alloc [t], 33;"], [15, 3, 0, 0]);
    e.refused("first-line-after-exit-counts", &["0|exit;", "0|exit;", "9|exit;"], [15, 3, 0, 0]);
    e.refused("earlier-line-first", &["0|@dealloc ^t, 32;", "9|exit;"], [6, 2, 0, 0]);
    e.refused("no-exit-and-bad-last-line", &[a32, "0|@dealloc t, ^64;"], [9, 3, 32, 32]);
    // the peak is over the accepted lines only
    e.refused("peak-of-accepted-lines", &[a32, d32, "0|@alloc [t], ^1024;"], [9, 4, 0, 32]);
}

fn lent_list(e: &mut Entries) {
    let two = sheet(&["0|@alloc [t], 32;", "0|@dealloc t, 32;", "0|@alloc [t], 64;", "0|@dealloc t, 64;", "0|exit;"]);
    e.lent("list-of-0-for-2", two.clone(), 0, [16, 6, 0, 64], &[]);
    e.lent("list-of-1-for-2", two.clone(), 1, [16, 6, 0, 64], &[]);
    e.lent("list-of-2-for-2", two.clone(), 2, [0, 6, 0, 64], &[0, 0]);
    e.lent("list-of-3-for-2", two.clone(), 3, [0, 6, 0, 64], &[0, 0]);
    e.lent("list-of-0-for-0", sheet(&["0|exit;"]), 0, [0, 2, 0, 0], &[]);
    // about as many allocs as the bytes allow
    let mut many = vec!["0|@alloc[k],64;"];
    for pair in 0..600 {
        many.extend(if pair % 2 == 0 { ["0|@alloc[t],32;", "0|@dealloc t,32;"] } else { ["0|@alloc[t],256;", "0|@dealloc t,256;"] });
    }
    many.extend(["0|@dealloc k,64;", "0|exit;"]);
    let (many, last) = (sheet(&many), many.len() as u32 + 1);
    let mut starts = vec![64; 601];
    starts[0] = 0;
    e.lent("list-of-600-for-601", many.clone(), 600, [16, last, 0, 320], &[]);
    e.lent("list-of-601-for-601", many.clone(), 601, [0, last, 0, 320], &starts);
    e.lent("list-of-602-for-601", many, 602, [0, last, 0, 320], &starts);
    let held = sheet(&["0|@alloc [t], 32;", "0|exit;"]);
    e.lent("list-too-short-and-held", held, 0, [15, 3, 32, 32], &[]);
    let outstanding = sheet(&["0|@alloc [t], 32;", "0|@ld(32x32b.x1) {r}, [t];", "0|@dealloc t, 32;", "0|exit;"]);
    e.lent("list-too-short-and-outstanding", outstanding, 0, [18, 4, 32, 32], &[]);
    let mut more = two;
    more.extend_from_slice(b"0\texit;\n");
    e.lent("list-too-short-and-line-after-exit", more, 0, [15, 7, 0, 64], &[]);
}

/// Two faults in one line: the lower number is given.
fn order(e: &mut Entries) {
    let a32 = "0|@alloc [t], 32;";
    let mut both = |name: &str, lines: &[&str], reason: u32, held: u32| {
        let line = lines.len() as u32 + 1;
        e.refused(name, lines, [reason, line, held, held]);
    };
    both("order-2-before-3", &["9|nothing;"], 2, 0);
    both("order-2-before-4", &["0|mov.b32 x, 4294967296\x7f;"], 2, 0);
    both("order-3-before-5", &["0|@ld(32x32b.x2) {r}, [t]^"], 3, 0);
    both("order-4-before-5", &["0|@ld(32x32b.x2) {r}, [t+^4294967296];"], 4, 0);
    both("order-5-before-8", &[a32, "1|@ld(32x32b.x2) {r}, [t];"], 5, 32);
    both("order-6-before-8-alloc", &[a32, "1|@alloc [^t], 32;"], 6, 32);
    both("order-6-before-9-alloc", &[a32, "0|@alloc [^t], 33;"], 6, 32);
    both("order-6-before-8-dealloc", &[a32, "1|@dealloc ^u, 32;"], 6, 32);
    both("order-6-before-8-access", &[a32, "0|@ld(32x32b.x1) {r}, [^u+65536];"], 6, 32);
    both("order-8-before-9-alloc", &[a32, "^1|@alloc [u], 33;"], 8, 32);
    both("order-8-before-9-dealloc", &[a32, "^1|@dealloc t, 64;"], 8, 32);
    both("order-8-before-10", &[a32, "0|@relinquish;", "^1|@alloc [u], 32;"], 8, 32);
    both("order-9-before-10", &[a32, "0|@relinquish;", "0|@alloc [u], ^33;"], 9, 32);
    both("order-9-before-11", &["0|@alloc [t], 512;", "0|@alloc [u], ^1024;"], 9, 512);
    both("order-10-before-11", &["0|@alloc [t], 512;", "0|@relinquish;", "0|@alloc [u], 32;"], 10, 512);
    both("order-6-before-11", &["0|@alloc [t], 512;", "0|@alloc [^t], 32;"], 6, 512);
    both("order-6-before-10", &[a32, "0|@relinquish;", "0|@alloc [^t], 32;"], 6, 32);
    let load = "0|@ld(32x32b.x1) {r}, [t];";
    both("order-6-before-18", &[a32, load, "0|@dealloc ^u, 32;"], 6, 32);
    both("order-8-before-18", &[a32, load, "^1|@dealloc t, 32;"], 8, 32);
    both("order-9-before-18", &[a32, load, "0|@dealloc t, ^64;"], 9, 32);
    // no exit is asked for where the last line is refused
    both("order-18-before-no-exit", &[a32, load, "0|@dealloc t, 32;"], 18, 32);
    let bad = 0xffff_ffff;
    let mut mma = |name: &str, operands: &str, a: u64, b: u64, i: u32, reason: u32| {
        e.mma_refused(name, with_words("@mma(f16)", operands, a, b, i), reason);
    };
    mma("order-6-before-12", "[t], a, ^x, i, p", 0, SHARED, bad, 6);
    mma("order-6-before-14", "[t+65536], a, b, ^x, p", SHARED, SHARED, DENSE, 6);
    mma("order-12-before-13-b", "[t], a, ^b, i, p", SHARED, 0, idesc(1, 0, 0, 0, 0), 12);
    mma("order-12-before-13-a", "[t], ^a, b, i, p", 0, SHARED, idesc(1, 0, 0, 0, 0), 12);
    mma("order-12-before-14", "[t+65536], a, b, ^i, p", SHARED, SHARED, bad, 12);
    mma("order-12-before-14-b", "[t+449], a, ^b, i, p", SHARED, 0, DENSE, 12);
    mma("order-13-before-14", "[t+65536], a, b, ^i, p", SHARED, SHARED, idesc(1, 0, 0, 40, 32), 13);
    mma("order-13-before-20", "[t], a, b, ^i, p", SHARED, SHARED, idesc(1, 0, 0, 504, 16), 13);
    mma("order-13-before-20-and-21", "[t], a, b, ^i, p", SHARED, SHARED, idesc(2, 0, 1, 0, 0), 13);
    mma("order-20-before-21", "[t], a, b, ^i, p", SHARED, SHARED, idesc(2, 0, 1, 0, 128), 20);
    mma("order-20-before-14", "[t], [t+505], b, ^i, p", SHARED, SHARED, idesc(1, 0, 0, 504, 128), 20);
    mma("order-21-before-14", "[t+65536], a, b, ^i, p", SHARED, SHARED, idesc(2, 0, 0, 64, 128), 21);
}
