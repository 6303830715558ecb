//! Over many sheets, good and damaged: an explanation always ends, never panics, says the library's answer in its first line, lists
//! allocations that add up to the columns held, and offers only edits with which the library answers something else. The waits that it offers for
//! reason 18 are those that are missing, all of them and no other.

use commands::explain::{answer_of, explain, Explanation};
use commands::picture;
use commands::render::{json, sarif, text};
use commands::sheet::Sheet;
use serde_json::Value;
use staplehorn::{Answer, Reason};
use std::collections::{BTreeMap, BTreeSet};

/// xorshift64*
struct Random(u64);

impl Random {
    fn next(&mut self) -> u64 {
        self.0 ^= self.0 >> 12;
        self.0 ^= self.0 << 25;
        self.0 ^= self.0 >> 27;
        self.0.wrapping_mul(0x2545_F491_4F6C_DD1D)
    }

    fn below(&mut self, n: usize) -> usize {
        (self.next() >> 16) as usize % n.max(1)
    }
}

/// Every sheet of data/ and examples/.
fn corpus() -> Vec<Vec<u8>> {
    let top = concat!(env!("CARGO_MANIFEST_DIR"), "/..");
    let mut files = Vec::new();
    for folder in ["data", "examples"] {
        let entries = std::fs::read_dir(format!("{top}/{folder}")).unwrap();
        files.extend(entries.map(|entry| entry.unwrap().path()).filter(|path| path.extension().is_some_and(|e| e == "sheet")));
    }
    files.sort();
    let sheets: Vec<_> = files.iter().map(|path| std::fs::read(path).unwrap()).collect();
    assert!(sheets.len() > 300);
    sheets
}

const PIECES: &[&str] = &[
    "",
    " ",
    "\t",
    "\n",
    "\r",
    ",",
    ";",
    "[",
    "]",
    "{",
    "}",
    "+",
    "0",
    "08",
    "64",
    "32",
    "0x",
    "0x10200010",
    "4294967296",
    "t",
    "_",
    "%",
    "@p ",
    "//",
    "\u{FEFF}",
    "sheet\t1\tsm_100a\n",
    "0\texit;\n",
    "*",
    "4",
    "\0",
    "\u{7f}",
    "\u{e9}",
    ".ws",
    ".sp",
    "::2",
    "-1",
    "0x08400014",
    "(",
    ")",
    "-",
    "+(2*3)",
    "*4294967296",
    "/2",
    "9223372036854775807+",
    "((((((((((((((((",
];

/// A number written out: what comes to the same, or to something else, or to nothing.
fn written_out(r: &mut Random, number: &str) -> String {
    match r.below(9) {
        0 => format!("({number})"),
        1 => format!("{number}+0"),
        2 => format!("2*{number} - {number}"),
        3 => format!("-(-{number})"),
        4 => format!("{number}-{}", r.below(99)),
        5 => format!("{number}*{}", 1u64 << r.below(64)),
        6 => format!("9223372036854775807+{number}-9223372036854775807"),
        7 => format!("{}{number}{}", "(-".repeat(r.below(11)), ")".repeat(r.below(11))),
        _ => format!("{}{number}", "-".repeat(r.below(20))),
    }
}

/// Where a number stands after a space or a `+`, from a place on.
fn number_at(bytes: &[u8], at: usize) -> Option<(usize, usize)> {
    let from = (at.max(1)..bytes.len()).find(|&i| bytes[i].is_ascii_digit() && b" +".contains(&bytes[i - 1]))?;
    Some((from, from + bytes[from..].iter().take_while(|b| b.is_ascii_alphanumeric()).count()))
}

/// One to three changes: a byte, a piece, a line left out, doubled or moved, an end cut off, a part of another sheet, a number written out.
fn damaged(r: &mut Random, sheets: &[Vec<u8>]) -> Vec<u8> {
    let mut bytes = sheets[r.below(sheets.len())].clone();
    for _ in 0..=r.below(3) {
        let at = r.below(bytes.len() + 1);
        let mut lines: Vec<Vec<u8>> = bytes.split_inclusive(|&b| b == b'\n').map(<[u8]>::to_vec).collect();
        match r.below(11) {
            0 if at < bytes.len() => bytes[at] = r.next() as u8,
            1 if at < bytes.len() => bytes[at] = 32 + r.below(95) as u8,
            2 if at < bytes.len() => drop(bytes.remove(at)),
            3 => drop(bytes.splice(at..at, PIECES[r.below(PIECES.len())].bytes())),
            4 => bytes.truncate(at),
            5 if !lines.is_empty() => {
                lines.remove(r.below(lines.len()));
                bytes = lines.concat();
            }
            6 if !lines.is_empty() => {
                let line = lines[r.below(lines.len())].clone();
                lines.insert(r.below(lines.len() + 1), line);
                bytes = lines.concat();
            }
            7 => {
                let other = &sheets[r.below(sheets.len())];
                let others: Vec<&[u8]> = other.split_inclusive(|&b| b == b'\n').collect();
                lines.insert(r.below(lines.len() + 1), others[r.below(others.len())].to_vec());
                bytes = lines.concat();
            }
            8 if at < bytes.len() => {
                // a digit for another
                if let Some(i) = bytes[at..].iter().position(u8::is_ascii_digit) {
                    bytes[at + i] = b'0' + r.below(10) as u8;
                }
            }
            9 | 10 => {
                if let Some((from, to)) = number_at(&bytes, at) {
                    let number = String::from_utf8_lossy(&bytes[from..to]).into_owned();
                    drop(bytes.splice(from..to, written_out(r, &number).bytes()));
                }
            }
            _ => {}
        }
    }
    bytes
}

/// The numbers of the first line of an explanation: reason, line, column, held and peak.
fn figures(shown: &str) -> Vec<u64> {
    let first = shown.lines().next().unwrap_or_default();
    let reason = first.strip_prefix("error[").and_then(|rest| rest.split(']').next()).unwrap_or("0");
    let (_, tail) = first.rsplit_once("(line ").unwrap_or(("", ""));
    let tail = format!("{reason} {tail}");
    tail.split(|c: char| !c.is_ascii_digit()).filter(|part| !part.is_empty()).map(|part| part.parse().unwrap()).collect()
}

/// What must hold of a sheet; gives its reason.
fn holds(bytes: &[u8], e: &Explanation, shown: &str) -> u64 {
    let report = staplehorn::report(bytes);
    let line = String::from_utf8(report.text).unwrap();
    let wanted: Vec<u64> = line.lines().next().unwrap().split('\t').map(|part| part.parse().unwrap()).collect();
    assert_eq!(figures(shown), wanted, "{}\n{shown}", String::from_utf8_lossy(bytes));
    if let (Some(history), true) = (&e.history, wanted[0] != 0) {
        let sum: u32 = history.live().map(|a| a.columns).sum();
        assert_eq!(u64::from(sum), wanted[3], "{shown}");
    }
    if let Some(primary) = &e.primary {
        assert_eq!((primary.line as u64, primary.from as u64), (wanted[1], wanted[2]), "{shown}");
    }
    for span in &e.related {
        assert!(span.line >= 1 && span.from >= 1 && span.to >= span.from, "{span:?}\n{shown}");
    }
    // of every number that is refused more is said than that it is
    assert!(e.answer.reason != Some(Reason::Number) || e.title != Reason::Number.to_string(), "{shown}");
    wanted[0]
}

/// With each edit the library answers something else than before, also if the line that is refused has moved.
fn edits_help(sheet: &Sheet, e: &Explanation) {
    for edit in e.helps.iter().filter_map(|help| help.edit.as_ref()) {
        let (old, new) = (e.answer, answer_of(&sheet.edited(edit)));
        let place = |a: &Answer, moved: i64| (a.reason, i64::from(a.line) - moved, a.column);
        assert!(
            new.reason.is_none() || place(&new, sheet.moved(edit)) != place(&old, 0),
            "{edit:?}\n{}",
            String::from_utf8_lossy(sheet.bytes)
        );
    }
}

/// JSON, SARIF and the picture have the library's figures too, and the allocations that JSON lists add up to what is held.
fn other_forms(sheet: &Sheet, e: &Explanation) {
    let a = e.answer;
    let reason = a.reason.map_or(0, |reason| reason.number());
    let figures = |object: &Value| ["reason", "line", "column", "held", "peak"].map(|key| object[key].as_u64());
    let wanted = [reason, a.line, a.column, a.held, a.peak].map(|number| Some(number.into()));
    let object = json::object("k.sheet", sheet, e);
    assert_eq!(figures(&object), wanted, "{object}");
    if let (Some(all), true) = (object["allocations"].as_array(), reason != 0) {
        assert_eq!(all.iter().filter_map(|a| a["columns"].as_u64()).sum::<u64>(), u64::from(a.held), "{object}");
    }
    let log = sarif::log(&[("k.sheet".into(), sheet, e)], true);
    let results = log["runs"][0]["results"].as_array().unwrap();
    assert_eq!(results.len(), usize::from(reason != 0));
    for result in results {
        assert_eq!(figures(&result["properties"]), wanted, "{result}");
        let region = &result["locations"][0]["physicalLocation"]["region"];
        assert!(a.line == 0 || region["startLine"] == a.line && region["startColumn"] == a.column, "{result}");
    }
    let svg = picture::svg("k.sheet", sheet, e);
    assert!(svg.starts_with('<') && svg.contains(&format!("held {}, peak {} of 512 columns", a.held, a.peak)), "{svg}");
}

#[test]
fn every_explanation_agrees_with_the_report() {
    let sheets = corpus();
    let mut r = Random(17);
    let mut reasons = BTreeMap::<u64, (usize, usize, usize)>::new();
    for i in 0..100_000 + sheets.len() {
        let bytes = sheets.get(i).cloned().unwrap_or_else(|| damaged(&mut r, &sheets));
        let sheet = Sheet::new(&bytes);
        let e = explain(&bytes, bytes.len());
        let shown = String::from_utf8(text::render("k.sheet", &sheet, &e, false)).unwrap();
        let counts = reasons.entry(holds(&bytes, &e, &shown)).or_default();
        counts.0 += 1;
        counts.1 += usize::from(e.history.is_some());
        counts.2 += usize::from(e.helps.iter().any(|help| help.edit.is_some()));
        if i % 8 == 0 {
            other_forms(&sheet, &e);
            edits_help(&sheet, &e);
        }
        if i % 500 == 0 {
            assert!(!text::render("k.sheet", &sheet, &e, true).is_empty());
        }
    }
    println!("reason: sheets, with what the lines did, with an edit\n{reasons:#?}");
    for reason in [0, 2, 3, 4, 5, 6, 8, 9, 10, 11, 12, 13, 14, 15, 18, 20, 21] {
        let (sheets, known, _) = reasons.get(&reason).copied().unwrap_or_default();
        assert!(sheets >= 50, "reason {reason}: {sheets} sheets");
        // the allocations that the lines left add up to what is held, so that they are listed
        assert_eq!(sheets, known, "reason {reason}");
    }
}

/// What is outstanding: the warp, whether it is a store, and the name.
type Marks = BTreeSet<(usize, bool, &'static str)>;

/// A line of a sheet of two allocations, and what it does to the marks: a load or store sets one, a wait takes those of its warp and kind.
fn use_or_wait(r: &mut Random, marks: &mut Marks) -> String {
    let (warp, store, name) = (r.below(4), r.below(2) == 1, ["t", "u"][r.below(2)]);
    let kind = if store { "st" } else { "ld" };
    let field = if warp == 0 && r.below(4) == 0 { "*".into() } else { warp.to_string() };
    let at = format!("[{name}+{}]", warp * 32 * 65_536 + r.below(32));
    match r.below(8) {
        0 => format!("{field}\ttcgen05.fence::before_thread_sync;\n"),
        1..=4 => {
            marks.retain(|&(w, s, _)| (w, s) != (warp, store));
            format!("{field}\ttcgen05.wait::{kind}.sync.aligned;\n")
        }
        _ => {
            marks.insert((warp, store, name));
            let operands = if store { format!("{at}, {{r}}") } else { format!("{{r}}, {at}") };
            format!("{field}\ttcgen05.{kind}.sync.aligned.32x32b.x1.b32 {operands};\n")
        }
    }
}

/// Loads, stores and waits at random before a dealloc: it is reason 18 exactly if a mark is left, the waits that are offered are one for each
/// warp and kind of the marks, and without any one of them it is 18 again.
#[test]
fn the_waits_that_are_missing() {
    let alloc = |name: &str| format!("0\ttcgen05.alloc.cta_group::1.sync.aligned.b32 [{name}], 32;\n");
    let dealloc = |name: &str| format!("0\ttcgen05.dealloc.cta_group::1.sync.aligned.b32 {name}, 32;\n");
    let mut r = Random(18);
    let mut counts = BTreeMap::<usize, usize>::new();
    for _ in 0..20_000 {
        let mut marks = Marks::new();
        let uses = (0..r.below(12)).map(|_| use_or_wait(&mut r, &mut marks)).collect::<String>();
        let head = format!("sheet\t1\tsm_100a\n{}{}{uses}", alloc("t"), alloc("u"));
        // its name is taken again: nothing is outstanding on the new one
        let rest = format!("{}{}{}", dealloc("t"), alloc("t"), dealloc("t"));
        let bytes = (head.clone() + &rest).into_bytes();
        let e = explain(&bytes, bytes.len());
        let pairs: BTreeSet<(usize, bool)> = marks.iter().filter(|mark| mark.2 == "t").map(|&(warp, store, _)| (warp, store)).collect();
        let line = head.lines().count();
        *counts.entry(pairs.len()).or_default() += 1;
        if pairs.is_empty() {
            assert_eq!((e.answer.reason, e.answer.line as usize), (Some(Reason::Exit), line + 3), "{head}");
            continue;
        }
        let found = (e.answer.reason, e.answer.line as usize, e.answer.column, e.answer.held, e.answer.peak);
        assert_eq!(found, (Some(Reason::Outstanding), line + 1, 3, 64, 64), "{head}");
        let kind = |store: bool| if store { "st" } else { "ld" };
        let waits: Vec<String> = pairs.iter().map(|&(w, store)| format!("{w}\ttcgen05.wait::{}.sync.aligned;\n", kind(store))).collect();
        let edit = e.helps[0].edit.as_ref().expect("an edit");
        assert_eq!(String::from_utf8_lossy(&edit.text), waits.concat(), "{head}");
        let mended = answer_of(&Sheet::new(&bytes).edited(edit));
        assert_eq!((mended.reason, mended.line as usize), (Some(Reason::Exit), line + waits.len() + 3), "{head}");
        for i in 0..waits.len() {
            let fewer = [&waits[..i], &waits[i + 1..]].concat().concat();
            assert_eq!(answer_of((head.clone() + &fewer + &rest).as_bytes()).reason, Some(Reason::Outstanding), "{head}{fewer}");
        }
        edits_help(&Sheet::new(&bytes), &e);
    }
    println!("waits that are missing: sheets\n{counts:#?}");
    assert!((0..4).all(|n| counts.get(&n).is_some_and(|&sheets| sheets >= 200)), "{counts:?}");
}

/// Sheets at their limits, and what is over them.
#[test]
fn large_sheets() {
    let header = "sheet\t1\tsm_100a\n";
    let fill = |line: &str, size: usize| header.to_string() + &line.repeat((size - header.len()) / line.len());
    let pair = "0\ttcgen05.alloc.cta_group::1.sync.aligned.b32 [t], 32;\n0\ttcgen05.dealloc.cta_group::1.sync.aligned.b32 t, 32;\n";
    for sheet in [
        fill("0\tmov.b32 x, 1;\n", 65_536),
        fill(pair, 65_536),
        fill(pair, 65_400) + "0\ttcgen05.alloc.cta_group::1.sync.aligned.b32 [t], 32;\n0\texit;\n",
        fill(pair, 65_600 + pair.len()),
        header.to_string() + &"0\texit;\n".repeat(4_096),
        "x".repeat(65_537),
        String::new(),
        "\n".repeat(65_536),
    ] {
        let bytes = sheet.as_bytes();
        let e = explain(bytes, bytes.len());
        let shown = String::from_utf8(text::render("k.sheet", &Sheet::new(bytes), &e, false)).unwrap();
        holds(bytes, &e, &shown);
    }
}

/// A full refused sheet is explained in under 20 ms: the best of some tries, for a machine may be busy.
#[test]
fn time() {
    let header = "sheet\t1\tsm_100a\n";
    let alloc = "0\ttcgen05.alloc.cta_group::1.sync.aligned.b32 [t], 256;\n";
    let loads = "1\ttcgen05.ld.sync.aligned.32x32b.x2.b32 {r0, r1}, [t+2097152];\n";
    let short = "0\tmov.b32 x, 1;\n";
    for (line, end) in [
        (loads, "0\texit;\n"),
        (short, "0\texit;\n"),
        (loads, "0\ttcgen05.dealloc.cta_group::1.sync.aligned.b32 s, 256;\n"),
        (loads, "0\ttcgen05.dealloc.cta_group::1.sync.aligned.b32 t, 256;\n"),
        (short, "0\tmov.b32 x 1;\n"),
    ] {
        let room = 65_536 - header.len() - alloc.len() - end.len();
        let sheet = [header, alloc, &line.repeat((room / line.len()).min(4_092)), end].concat();
        let best = (0..10)
            .map(|_| {
                let began = std::time::Instant::now();
                let e = explain(sheet.as_bytes(), sheet.len());
                let shown = text::render("k.sheet", &Sheet::new(sheet.as_bytes()), &e, false);
                assert!(e.answer.reason.is_some() && !shown.is_empty());
                began.elapsed()
            })
            .min()
            .unwrap();
        println!("{} lines, {} bytes: {best:?}", sheet.lines().count(), sheet.len());
        assert!(best.as_millis() < 20, "{best:?}");
    }
}
