//! The picture of a sheet.

use commands::explain::{answer_of, explain, Explanation};
use commands::history::Use;
use commands::picture::svg;
use commands::sheet::Sheet;
use std::fmt::Write;

const LEAK: &[u8] = include_bytes!("../../examples/leak.sheet");
const SPARSE: &[u8] = include_bytes!("../../examples/sparse.sheet");

const ALLOC: &str = "tcgen05.alloc.cta_group::1.sync.aligned.b32";
const DEALLOC: &str = "tcgen05.dealloc.cta_group::1.sync.aligned.b32";

fn drawn(name: &str, sheet: &[u8]) -> (String, Explanation) {
    let e = explain(sheet, sheet.len());
    (svg(name, &Sheet::new(sheet), &e), e)
}

/// Lines of a sheet, written one after the other.
struct Writer(String);

impl Writer {
    fn new() -> Writer {
        Writer("sheet\t1\tsm_100a\n".into())
    }

    fn line(&mut self, warp: usize, statement: &str) {
        writeln!(self.0, "{warp}\t{statement}").unwrap();
    }

    fn alloc(&mut self, name: &str, columns: u32) {
        self.line(0, &format!("{ALLOC} [{name}], {columns};"));
    }

    fn dealloc(&mut self, name: &str, columns: u32) {
        self.line(0, &format!("{DEALLOC} {name}, {columns};"));
    }

    /// A load or a store by each of the four warps.
    fn access(&mut self, store: bool, name: &str, columns: usize, from: usize) {
        let list = (0..columns).map(|i| format!("r{i}")).collect::<Vec<_>>().join(", ");
        for warp in 0..4 {
            let at = format!("[{name}+{}]", warp * 32 * 65_536 + from);
            if store {
                self.line(warp, &format!("tcgen05.st.sync.aligned.32x32b.x{columns}.b32 {at}, {{{list}}};"));
            } else {
                self.line(warp, &format!("tcgen05.ld.sync.aligned.32x32b.x{columns}.b32 {{{list}}}, {at};"));
            }
        }
    }

    /// Each of the four warps waits for its loads, or for its stores.
    fn wait(&mut self, store: bool) {
        let kind = if store { "st" } else { "ld" };
        (0..4).for_each(|warp| self.line(warp, &format!("tcgen05.wait::{kind}.sync.aligned;")));
    }

    fn fence(&mut self) {
        self.line(0, "tcgen05.fence::before_thread_sync;");
        self.line(0, "tcgen05.fence::after_thread_sync;");
    }
}

/// Two steps of attention: scores, probabilities in Tensor Memory, an output; then half of `probs` is given back.
fn attention() -> Vec<u8> {
    let mut w = Writer::new();
    w.line(0, "mov.b32 qk_desc, 0x08200010;");
    w.line(0, "mov.b32 pv_desc, 0x08200010;");
    for name in ["q", "k", "v"] {
        w.line(0, &format!("mov.b64 {name}, 0x0000400800100000;"));
    }
    for (name, columns) in [("scores", 128), ("out", 128), ("probs", 64), ("row_max", 32)] {
        w.alloc(name, columns);
    }
    for _ in 0..2 {
        for _ in 0..4 {
            w.line(0, "tcgen05.mma.cta_group::1.kind::f16 [scores], q, k, qk_desc, p;");
        }
        w.fence();
        for half in 0..2 {
            w.access(false, "scores", 64, 64 * half);
        }
        w.wait(false);
        w.access(true, "row_max", 2, 0);
        w.access(true, "probs", 64, 0);
        w.wait(true);
        w.fence();
        for k in 0..4 {
            w.line(0, &format!("tcgen05.mma.cta_group::1.kind::f16 [out], [probs+{}], v, pv_desc, p;", 16 * k));
        }
    }
    w.dealloc("scores", 128);
    w.alloc("stage", 64);
    w.access(false, "row_max", 2, 0);
    w.wait(false);
    w.dealloc("row_max", 32);
    w.access(false, "out", 64, 0);
    w.access(true, "stage", 32, 16);
    w.wait(false);
    w.wait(true);
    w.dealloc("stage", 64);
    w.line(0, "tcgen05.relinquish_alloc_permit.cta_group::1.sync.aligned;");
    w.dealloc("out", 128);
    w.dealloc("probs", 32);
    w.line(0, "exit;");
    w.0.into_bytes()
}

/// Some 3,900 lines that pass: moves, and now and then an allocation, a use of it or its end.
fn full() -> Vec<u8> {
    let mut w = Writer::new();
    let mut live: Vec<(String, u32)> = Vec::new();
    w.line(0, "mov.b32 i, 0x08080010;");
    w.line(0, "mov.b64 b, 0x0000400800100000;");
    for step in 0..3_846_usize {
        let at = step / 31;
        if step % 31 != 0 || step > 3_700 {
            match live.pop() {
                Some((name, columns)) if step > 3_700 && step % 9 == 0 => w.dealloc(&name, columns),
                Some(last) => {
                    live.push(last);
                    w.line(0, "mov.b32 a,1;");
                }
                None => w.line(0, "mov.b32 a,1;"),
            }
            continue;
        }
        match at % 11 {
            0 | 7 if live.iter().map(|l| l.1).sum::<u32>() <= 256 => {
                let (name, columns) = (format!("t{at}"), [64, 32, 128, 32][at % 4]);
                w.alloc(&name, columns);
                live.push((name, columns));
            }
            5 if live.len() > 2 => {
                let (name, columns) = live.remove(at % 3);
                w.dealloc(&name, columns);
            }
            k => {
                let (name, _) = &live[at % live.len()];
                match k % 3 {
                    0 => {
                        w.line(0, &format!("tcgen05.ld.sync.aligned.16x256b.x1.b32{{a,b,c,d}},[{name}+{}];", k * 2));
                        w.line(0, "tcgen05.wait::ld.sync.aligned;");
                    }
                    1 => {
                        w.line(0, &format!("tcgen05.st.sync.aligned.16x64b.x2.b32[{name}+{}],{{a,b}};", k * 2));
                        w.line(0, "tcgen05.wait::st.sync.aligned;");
                    }
                    _ => w.line(0, &format!("tcgen05.mma.cta_group::1.kind::f16[{name}],b,b,i,p;")),
                }
            }
        }
    }
    w.line(0, "exit;");
    w.0.into_bytes()
}

/// As many accesses as a sheet has room for.
fn dense() -> Vec<u8> {
    let mut w = Writer::new();
    w.line(0, "mov.b32 i,0x08100010;");
    w.line(0, "mov.b64 b,0x0000400800100000;");
    for name in ["a", "accumulator_left", "d"] {
        w.alloc(name, 128);
    }
    w.alloc("metadata_of_b", 32);
    for i in 0..1_160 {
        match i / 16 % 4 {
            0 => w.line(0, &format!("tcgen05.st.sync.aligned.32x32b.x1.b32[a+{}],{{r}};", i % 128)),
            1 => w.line(0, &format!("tcgen05.ld.sync.aligned.16x256b.x1.b32{{r,r,r,r}},[d+{}];", i * 4 % 120)),
            2 => w.line(0, "tcgen05.mma.cta_group::1.kind::f16[d],[a],b,i,p;"),
            _ => w.line(0, &format!("tcgen05.ld.sync.aligned.16x64b.x1.b32{{r}},[metadata_of_b+{}];", i % 16)),
        }
    }
    w.0.into_bytes()
}

/// As many allocations as a sheet has room for.
fn churn() -> Vec<u8> {
    let mut w = Writer::new();
    for i in 0..560 {
        w.line(0, &format!("{ALLOC}[n{i}],{};", [32, 64, 128][i % 3]));
        if i >= 4 {
            w.line(0, &format!("{DEALLOC} n{},{};", i - 4, [32, 64, 128][(i - 4) % 3]));
        }
    }
    w.line(0, "exit;");
    w.0.into_bytes()
}

/// An allocation with a mark on every line.
fn crowded() -> Vec<u8> {
    let mut w = Writer::new();
    w.alloc("acc", 128);
    for _ in 0..250 {
        w.access(false, "acc", 1, 0);
    }
    w.0.into_bytes()
}

/// The sheets of which pictures are looked at.
fn sheets() -> [(&'static str, Vec<u8>); 5] {
    [("leak", LEAK.to_vec()), ("attention", attention()), ("full", full()), ("dense", dense()), ("churn", churn())]
}

/// Each goes as far as it is meant to.
#[test]
fn reasons_of_the_sheets() {
    let found = sheets().map(|(name, sheet)| (name, answer_of(&sheet).reason.map_or(0, |reason| reason.number())));
    assert_eq!(found, [("leak", 15), ("attention", 9), ("full", 0), ("dense", 15), ("churn", 15)]);
}

/// Accepted lines that leave 128 to 191 and 320 to 383 held.
fn holes() -> Writer {
    let mut w = Writer::new();
    for (name, columns) in [("t0", 128), ("t1", 64), ("t2", 128), ("t3", 64)] {
        w.alloc(name, columns);
    }
    w.dealloc("t0", 128);
    w.dealloc("t2", 128);
    w
}

/// `holes` with a line more, which is refused, and what follows it.
fn refused(statement: &str) -> Vec<u8> {
    let mut w = holes();
    w.line(0, statement);
    w.line(0, "exit;");
    w.0.into_bytes()
}

/// Sheets that are refused for columns or space; the last has many lines.
fn asking() -> Vec<(&'static str, Vec<u8>)> {
    let mut many = holes();
    many.access(false, "t3", 1, 5);
    (0..250).for_each(|_| many.access(false, "t1", 2, 40));
    many.alloc("a_long_name_here", 256);
    vec![
        ("cells", refused("tcgen05.ld.sync.aligned.16x64b.x4.b32 {a, b, c, d}, [t1+60];")),
        ("far", refused("tcgen05.st.sync.aligned.32x32b.x1.b32 [t3+60000], {a};")),
        ("space", refused(&format!("{ALLOC} [big], 256;"))),
        ("many", many.0.into_bytes()),
    ]
}

/// Writes the pictures to the directory PICTURES.
#[test]
#[ignore]
fn write() {
    let to = std::path::PathBuf::from(std::env::var_os("PICTURES").expect("PICTURES names a directory"));
    for (name, sheet) in sheets().into_iter().chain([("crowded", crowded()), ("sparse", SPARSE.to_vec())]).chain(asking()) {
        let (picture, e) = drawn(&format!("{name}.sheet"), &sheet);
        println!("{name}: {} bytes, {:?}", sheet.len(), e.answer);
        std::fs::write(to.join(format!("{name}.svg")), picture).unwrap();
    }
}

/// An element: its name, its attributes, and the text directly after its start.
struct Element<'a> {
    name: &'a str,
    attributes: Vec<(&'a str, &'a str)>,
    text: &'a str,
}

impl Element<'_> {
    fn get(&self, name: &str) -> &str {
        self.attributes.iter().find(|a| a.0 == name).map_or("", |a| a.1)
    }

    fn number(&self, name: &str) -> f64 {
        self.get(name).parse().unwrap_or_else(|_| panic!("{} of {}", name, self.name))
    }

    fn is(&self, name: &str, class: &str) -> bool {
        self.name == name && self.get("class").split(' ').any(|c| c == class)
    }
}

/// The elements of a picture in order; panics unless it is well formed: balanced, quoted, escaped, ASCII.
fn elements(picture: &str) -> Vec<Element<'_>> {
    assert!(picture.bytes().all(|b| b == b'\n' || (32..127).contains(&b)), "a byte that XML or ASCII does not have");
    let mut found = Vec::new();
    let mut open: Vec<&str> = Vec::new();
    for piece in picture.split('<').skip(1) {
        let (tag, text) = piece.split_once('>').expect("a tag is closed");
        assert_escaped(text);
        if let Some(name) = tag.strip_prefix('/') {
            assert_eq!(open.pop(), Some(name));
            continue;
        }
        let (tag, closed) = tag.strip_suffix('/').map_or((tag, false), |tag| (tag, true));
        let (name, rest) = tag.split_once(' ').unwrap_or((tag, ""));
        if !closed {
            open.push(name);
        }
        found.push(Element { name, attributes: attributes(rest), text });
        assert!(!open.is_empty(), "one root");
    }
    assert!(open.is_empty(), "{open:?} is open");
    found
}

fn attributes(mut rest: &str) -> Vec<(&str, &str)> {
    let mut found: Vec<(&str, &str)> = Vec::new();
    while !rest.is_empty() {
        let (name, value) = rest.split_once("=\"").expect("a value is quoted");
        let (value, after) = value.split_once('"').expect("a quote is closed");
        assert!(name.bytes().all(|b| b.is_ascii_alphabetic() || b"-:".contains(&b)), "{name}");
        assert!(found.iter().all(|a| a.0 != name), "{name} stands once");
        assert_escaped(value);
        found.push((name, value));
        rest = after.trim_start();
    }
    found
}

fn assert_escaped(text: &str) {
    for part in text.split('&').skip(1) {
        let (entity, _) = part.split_once(';').expect("an entity");
        let digits = entity.strip_prefix("#x").is_some_and(|hex| u32::from_str_radix(hex, 16).is_ok_and(|c| c > 127));
        assert!(digits || ["amp", "lt", "gt", "quot", "#39"].contains(&entity), "&{entity};");
    }
}

/// The mark of the refused line, which starts left of the memory.
fn is_stop(e: &Element) -> bool {
    e.is("path", "stop") && e.get("d").starts_with("M50 ")
}

#[test]
fn the_leak() {
    let (picture, _) = drawn("leak.sheet", LEAK);
    let all = elements(&picture);
    let blocks: Vec<_> = all.iter().filter(|e| e.is("rect", "block") && e.get("y") != "-6").collect();
    let placed: Vec<_> = blocks.iter().map(|e| ["x", "y", "width", "height"].map(|name| e.number(name))).collect();
    // line 2 to line 5; line 3 to the middle of line 6
    assert_eq!(placed, [[55.0, 151.0, 94.0, 86.0], [151.0, 173.0, 46.0, 76.0]]);
    assert_eq!(blocks.iter().map(|e| e.is("rect", "leak")).collect::<Vec<_>>(), [false, true]);
    let stop: Vec<_> = all.iter().filter(|e| is_stop(e)).map(|e| e.get("d")).collect();
    assert_eq!(stop, ["M50 249H826"]);
    assert!(picture.contains("<title>t1: 32 columns, 64 to 95; taken at line 3, not given back</title>"));
    assert!(picture.contains("<title>line 4, warp 1: ld, columns 0 to 1 of t1</title>"));
    assert!(picture.contains("<title>peak: 96 columns held after line 3</title>"));
    assert!(picture.contains("<tspan dx=\"8\">reason 15, line 6, column 1; held 32, peak 96 of 512 columns</tspan>"));
    assert!(picture.contains("<title id=\"sheet-title\">leak.sheet: refused, reason 15, line 6, column 1; held 32"));
    assert!(all[0].get("role") == "img" && all[0].get("viewBox").starts_with("0 0 900 "));
    assert!(picture.contains("@media (prefers-color-scheme:dark){"));
    // nothing from outside, and nothing that runs
    assert!(["href", "url(", "@import", "<script", " on"].iter().all(|word| !picture.contains(word)));
    assert_eq!(picture.matches("://").count(), 1, "the namespace");
}

/// What is given back while a load of it is outstanding has a red edge, and nothing else has.
#[test]
fn given_back_too_early() {
    let mut w = Writer::new();
    w.alloc("t0", 64);
    w.alloc("t1", 32);
    w.access(false, "t0", 1, 0);
    w.dealloc("t0", 64);
    w.line(0, "exit;");
    let (picture, _) = drawn("x", w.0.as_bytes());
    let all = elements(&picture);
    let blocks = all.iter().filter(|e| e.is("rect", "block") && e.get("y") != "-6");
    assert_eq!(blocks.map(|e| e.is("rect", "leak")).collect::<Vec<_>>(), [true, false]);
    assert!(picture.contains("reason 18: `t0` is given back while loads by warps 0, 1, 2 and 3 are outstanding</text>"), "{picture}");
}

#[test]
fn each_allocation_has_its_block() {
    for (name, sheet) in sheets() {
        let (picture, e) = drawn(name, &sheet);
        let all = elements(&picture);
        let blocks = all.iter().filter(|e| e.is("rect", "block") && e.get("y") != "-6");
        let drawn: Vec<_> = blocks.map(|e| (e.number("x"), e.number("width"))).collect();
        let place = |start: u32, columns: u32| (55.0 + f64::from(start) * 1.5, f64::from(columns) * 1.5 - 2.0);
        let history = e.history.unwrap();
        assert!(!history.allocations.is_empty());
        assert_eq!(drawn, history.allocations.iter().map(|a| place(a.start.unwrap(), a.columns)).collect::<Vec<_>>(), "{name}");
        assert!(all.iter().filter(|e| e.is("rect", "block")).all(|e| e.number("height") >= 2.0));
    }
}

#[test]
fn each_access_has_its_mark() {
    let sheet = attention();
    let (picture, e) = drawn("attention", &sheet);
    let accesses = e.history.unwrap().accesses;
    let all = elements(&picture);
    for (kind, class, legend) in [(Use::Load, "ld", 1), (Use::Store, "st", 1), (Use::Mma, "mma", 1)] {
        let marks = all.iter().filter(|e| e.is("path", class) || e.is("rect", class)).count();
        assert_eq!(marks, accesses.iter().filter(|a| a.kind == kind).count() + legend, "{class}");
        assert!(marks > 1);
    }
    // many on a pixel are few
    let (picture, e) = drawn("dense", &dense());
    let marks = elements(&picture).iter().filter(|e| ["ld", "st", "mma"].contains(&e.get("class"))).count();
    assert!(marks * 3 < e.history.unwrap().accesses.len(), "{marks}");
    assert!(picture.contains("a mark stands for up to 6 lines"));
}

/// The first and the last column that the bar of a refused line covers, whether it goes on past the end, and what is said of it.
fn asked(sheet: &[u8]) -> Option<(f64, f64, bool, String)> {
    let (picture, _) = drawn("x", sheet);
    let all = elements(&picture);
    let bar = all.iter().find(|e| e.is("rect", "asked") && e.number("x") > 1.0)?;
    let stop = all.iter().find(|e| is_stop(e)).unwrap().get("d").split([' ', 'H']).nth(1).unwrap().parse::<f64>().unwrap();
    assert!((bar.number("y") + bar.number("height") / 2.0 - stop).abs() < 0.02, "on the red line");
    let column = |x: f64| (x - 54.0) / 1.5;
    let label = all.iter().find(|e| e.is("text", "refused") && e.is("text", "small") && !e.is("text", "mono")).unwrap();
    let goes_on = all.iter().any(|e| e.is("path", "refused"));
    Some((column(bar.number("x")), column(bar.number("x") + bar.number("width")) - 1.0, goes_on, label.text.into()))
}

#[test]
fn what_the_refused_line_asks_for() {
    let mma = |operands: &str| {
        let mut w = holes();
        w.line(0, "mov.b32 i, 0x08200014;");
        w.line(0, "mov.b64 b, 0x0000400800100000;");
        w.line(0, &format!("tcgen05.mma.sp.cta_group::1.kind::f16 {operands}, i, p;"));
        w.0.into_bytes()
    };
    let sheets = asking();
    let cases: [(&[u8], f64, f64, bool, &str); 7] = [
        (&sheets[0].1, 188.0, 195.0, false, "columns 60 to 67 of t1 asked for; it has 64 columns"),
        (&sheets[1].1, 510.0 + 2.0 / 3.0, 511.0, true, "column 60000 of t3 asked for; it has 64 columns"),
        (&sheets[2].1, 0.0, 255.0, false, "big asks for 256 columns; the longest free run has 128, 0 to 127"),
        (&mma("[t1], b, b, [t1]"), 128.0, 255.0, false, "columns 0 to 127 of t1 asked for; it has 64 columns"),
        (&mma("[t3+130], b, b, [t1]"), 450.0, 511.0, true, "columns 130 to 257 of t3 asked for; it has 64 columns"),
        (&mma("[t1], [t1+60], b, [t1]"), 128.0, 255.0, false, "columns 0 to 127 of t1 asked for; it has 64 columns"),
        (&refused(&format!("{ALLOC} [all], 512;")), 0.0, 511.0, false, "all asks for 512 columns; the longest free run has 128, 0 to 127"),
    ];
    for (sheet, from, to, goes_on, label) in cases {
        let found = asked(sheet).unwrap_or_else(|| panic!("no bar: {label}"));
        assert!((found.0 - from).abs() < 0.01 && (found.1 - to).abs() < 0.01, "{label}: {found:?}");
        assert_eq!((found.2, found.3.as_str()), (goes_on, label));
    }
    // the longest run is the last one: what would go past the end stands further left
    let head = format!("sheet\t1\tsm_100a\n0\t{ALLOC} [t], 256;\n0\t{ALLOC} [u], 64;\n");
    let found = asked(format!("{head}0\t{ALLOC} [v], 256;\n").as_bytes()).unwrap();
    assert_eq!((found.0, found.1, found.3.as_str()), (256.0, 511.0, "v asks for 256 columns; the longest free run has 192, 320 to 511"));
    let found = asked(format!("{head}0\t{ALLOC} [v], 128;\n0\t{ALLOC} [w], 64;\n0\t{ALLOC} [x], 32;\n").as_bytes()).unwrap();
    assert_eq!((found.0, found.1, found.3.as_str()), (0.0, 31.0, "x asks for 32 columns; none is free"));
    // the columns fit where it is the lane that is wrong
    let lane = mma("[t1+65536], b, b, [t1]").iter().map(|&b| char::from(b)).collect::<String>().replace("0x08200014", "0x08100014");
    assert_eq!(explain(lane.as_bytes(), lane.len()).answer.reason.map(|r| r.number()), Some(14));
    assert!(asked(lane.as_bytes()).is_none());
    // no other reason has one
    assert!(asked(LEAK).is_none() && asked(&attention()).is_none());
}

#[test]
fn small_marks_stand_apart() {
    let (picture, _) = drawn("sparse", SPARSE);
    let all = elements(&picture);
    let small = all.iter().filter(|e| e.is("rect", "mma") && e.number("x") > 150.0);
    let places: Vec<_> = small.map(|e| (e.number("x"), e.number("width"))).collect();
    assert_eq!(places, [(151.0, 2.0), (153.0, 3.0), (156.0, 3.0), (159.0, 3.0)]);
    assert_eq!(all.iter().filter(|e| e.is("path", "narrow")).count(), 4, "the stores of 2 columns");
}

#[test]
fn the_red_line_is_there_on_a_refusal_alone() {
    let head = b"sheet\t1\tsm_100a\n";
    let long = [&head[..], &b"0\texit;\n".repeat(4_096)].concat();
    let sheets: [(&[u8], u32, &str); 7] = [
        (b"sheet\t1\tsm_100a\n0\texit;\n", 0, ""),
        (b"sheet\t1\tsm_100a\n0\tmov.b32 x, 1;\n3\texit;\n", 0, ""),
        (b"", 2, ""),
        (b"sheet\t1\tsm_100a\n0\texit\n0\texit;\n", 3, "line 3 is not judged"),
        (b"sheet\t1\tsm_100a\n4\texit\n0\texit;\n0\texit;\n", 2, "lines 3 to 4 are not judged"),
        (head, 15, ""),
        (&long, 1, "no line is judged"),
    ];
    for (sheet, reason, rest) in sheets {
        let (picture, e) = drawn("x", sheet);
        assert_eq!(e.answer.reason.map_or(0, |r| r.number()), reason);
        let all = elements(&picture);
        assert_eq!(all.iter().filter(|e| is_stop(e)).count(), usize::from(reason > 0), "{reason}");
        let said = all.iter().filter(|e| e.is("text", "refused") && e.text.starts_with(&format!("reason {reason}: "))).count();
        assert_eq!(said, usize::from(reason > 0));
        assert_eq!(all.iter().filter(|e| e.name == "text" && e.text.ends_with(" judged")).map(|e| e.text).collect::<String>(), rest);
        assert_eq!(picture.contains(">passed</tspan>"), reason == 0);
    }
}

#[test]
fn what_a_last_line_took_is_drawn_where_exit_is_missing() {
    let (picture, _) = drawn("x", format!("sheet\t1\tsm_100a\n0\t{ALLOC} [t], 64;\n").as_bytes());
    let all = elements(&picture);
    let block = all.iter().find(|e| e.is("rect", "leak")).unwrap();
    assert_eq!((block.number("y"), block.number("height")), (151.0, 21.0));
    assert_eq!(all.iter().find(|e| is_stop(e)).unwrap().get("d"), "M50 172H826");
}

#[test]
fn places_that_are_not_known() {
    let sheet = Sheet::new(LEAK);
    let mut e = explain(LEAK, LEAK.len());
    let sentence = "The places of the allocations are not known.";
    assert!(!svg("x", &sheet, &e).contains(sentence));
    e.history.as_mut().unwrap().allocations[0].start = None;
    let unplaced = svg("x", &sheet, &e);
    e.history = None;
    let unknown = svg("x", &sheet, &e);
    for picture in [&unplaced, &unknown] {
        let all = elements(picture);
        assert!(picture.contains(sentence));
        assert_eq!(all.iter().filter(|e| e.is("rect", "block")).count(), 1, "the legend's alone");
        assert_eq!(all.iter().filter(|e| is_stop(e)).count(), 1);
    }
}

#[test]
fn a_peak_that_is_not_the_librarys_is_left_out() {
    let sheet = Sheet::new(LEAK);
    let mut e = explain(LEAK, LEAK.len());
    let peaks = |e: &Explanation| elements(&svg("x", &sheet, e)).iter().filter(|e| e.is("path", "peak")).count();
    assert_eq!(peaks(&e), 2);
    e.answer.peak += 32;
    assert_eq!(peaks(&e), 1, "the legend's alone");
}

#[test]
fn hostile_names() {
    let names = [
        "",
        "a<b>&\"'c",
        "]]><script>alert(1)</script>",
        "\u{0}\u{1}\u{7F}\u{FFFE}\n\t\r",
        "\u{1F600}\u{202E}x\u{E9}",
        "--><!--",
        "%s{}&#0;",
    ];
    for name in names.into_iter().map(String::from).chain([String::from_utf8_lossy(b"\xFF\xC0").into(), "x".repeat(5_000)]) {
        let (picture, mut e) = drawn(&name, LEAK);
        elements(&picture);
        assert!(!picture.contains("<script"));
        e.title = name.repeat(20);
        e.history.as_mut().unwrap().allocations[1].name = name;
        elements(&svg("x", &Sheet::new(LEAK), &e));
    }
    let long: String = "x".repeat(5_000);
    let (picture, _) = drawn(&long, LEAK);
    let shown = elements(&picture).iter().find(|e| e.is("text", "file")).map(|e| e.text.len());
    assert_eq!(shown, Some("&#x2026;".len() + 63));
}

/// Texts, as boxes of about their size: x, y, width, height.
fn boxes<'a>(all: &'a [Element]) -> Vec<(&'a str, [f64; 4])> {
    let texts = all.iter().filter(|e| e.name == "text" && e.get("transform").is_empty());
    let sized = texts.map(|e| {
        let width = e.text.len() as f64 * if e.is("text", "small") { 6.4 } else { 7.2 };
        let back = if e.is("text", "end") { width } else { 0.0 } + if e.is("text", "mid") { width / 2.0 } else { 0.0 };
        (e.text, [e.number("x") - back, e.number("y") - 9.0, width, 11.0])
    });
    sized.collect()
}

#[test]
fn texts_do_not_overlap() {
    for (name, sheet) in sheets().into_iter().chain(asking()) {
        let (picture, _) = drawn(name, &sheet);
        let all = elements(&picture);
        let boxes = boxes(&all);
        for (i, (text, a)) in boxes.iter().enumerate() {
            assert!(a[0] >= 0.0 && a[0] + a[2] <= 900.0, "{name}: {text}");
            for (other, b) in &boxes[i + 1..] {
                let apart = a[0] + a[2] <= b[0] || b[0] + b[2] <= a[0] || a[1] + a[3] <= b[1] || b[1] + b[3] <= a[1];
                assert!(apart, "{name}: {text} and {other}");
            }
        }
    }
}

#[test]
fn small_and_fast() {
    for (name, sheet) in sheets() {
        let e = explain(&sheet, sheet.len());
        let lines = Sheet::new(&sheet);
        let mut best = f64::MAX;
        let mut picture = String::new();
        for _ in 0..5 {
            let begin = std::time::Instant::now();
            picture = svg(name, &lines, &e);
            best = best.min(begin.elapsed().as_secs_f64());
        }
        println!("{name}: {} lines, {} bytes, {:.2} ms", lines.count(), picture.len(), best * 1e3);
        assert!(picture.len() < 1_000_000, "{name}: {}", picture.len());
        assert!(elements(&picture)[0].number("height") <= 1_620.0);
        assert!(cfg!(debug_assertions) || best < 0.020, "{name}: {best} s");
    }
}

#[test]
fn any_bytes_give_a_picture() {
    let sheets = sheets();
    let mut state = 0x9E37_79B9_7F4A_7C15_u64;
    let mut below = |n: usize| {
        state ^= state << 13;
        state ^= state >> 7;
        state ^= state << 17;
        (state >> 11) as usize % n.max(1)
    };
    let mut refused = 0;
    for round in 0..2_000 {
        // mostly the short ones
        let (name, sheet) = &sheets[if round % 40 == 0 { below(5) } else { below(2) }];
        let mut bytes = sheet.clone();
        for _ in 0..=below(3) {
            let at = below(bytes.len());
            match below(4) {
                0 => bytes[at] = below(256) as u8,
                1 => drop(bytes.drain(at..(at + below(60)).min(bytes.len()))),
                2 => bytes.insert(at, b"0123456789,;[]{}\t\n"[below(18)]),
                _ => bytes.truncate(at),
            }
            if bytes.is_empty() {
                break;
            }
        }
        let (picture, e) = drawn(name, &bytes);
        refused += usize::from(e.answer.reason.is_some());
        assert_eq!(elements(&picture).iter().filter(|e| is_stop(e)).count(), usize::from(e.answer.reason.is_some()));
    }
    assert!(refused > 1_500, "{refused}");
}

#[test]
fn a_label_among_marks_stands_on_a_plate() {
    let plates = |sheet: &[u8]| elements(&drawn("x", sheet).0).iter().filter(|e| e.is("rect", "plate")).count();
    assert_eq!(plates(&crowded()), 1);
    // where there is room, none is needed
    for (name, sheet) in sheets().into_iter().take(3) {
        assert_eq!(plates(&sheet), 0, "{name}");
    }
}
