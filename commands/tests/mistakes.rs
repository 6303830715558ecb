//! Nineteen single mistakes in three sheets that pass: each is refused, and its explanation has what is needed to mend it. Where an edit is
//! offered, the sheet with it passes.

use commands::explain::{explain, Explanation};
use commands::render::text;
use commands::sheet::Sheet;

const GEMM: &str = include_str!("../../examples/gemm.sheet");
const ATTENTION: &str = include_str!("../../examples/attention.sheet");
const SPARSE: &str = include_str!("../../examples/sparse.sheet");

/// What is expected of an explanation: reason and line, what its text says, and whether one edit mends the sheet.
struct Expected<'a> {
    reason: u32,
    line: u32,
    says: &'a [&'a str],
    mended: bool,
}

fn line_of(sheet: &str, text: &str) -> u32 {
    1 + sheet.lines().position(|line| line.contains(text)).unwrap_or_else(|| panic!("no line has {text}")) as u32
}

/// The sheet with the first occurrence of a text replaced; it must be there.
fn with(sheet: &str, old: &str, new: &str) -> String {
    assert!(sheet.contains(old), "no {old}");
    sheet.replacen(old, new, 1)
}

/// The sheet with the last occurrence of a text replaced; it must be there.
fn with_last(sheet: &str, old: &str, new: &str) -> String {
    let (head, tail) = sheet.rsplit_once(old).unwrap_or_else(|| panic!("no {old}"));
    format!("{head}{new}{tail}")
}

fn check(name: &str, bytes: &[u8], expected: &Expected) -> Explanation {
    let sheet = Sheet::new(bytes);
    let e = explain(bytes, bytes.len());
    let shown = String::from_utf8(text::render("kernel.sheet", &sheet, &e, false)).unwrap();
    assert_eq!((e.answer.reason.map(|r| r.number()), e.answer.line), (Some(expected.reason), expected.line), "{name}\n{shown}");
    for &part in expected.says {
        assert!(shown.contains(part), "{name}: nothing says {part:?}\n{shown}");
    }
    let edits = || e.helps.iter().filter_map(|help| help.edit.as_ref());
    let mended = edits().next().is_some_and(|edit| staplehorn::judge(&sheet.edited(edit)).is_ok());
    assert_eq!(mended, expected.mended, "{name}\n{shown}");
    e
}

#[test]
fn each_sheet_passes() {
    for sheet in [GEMM, ATTENTION, SPARSE] {
        assert!(staplehorn::judge(sheet.as_bytes()).is_ok());
    }
}

#[test]
fn a_dealloc_dropped() {
    for (sheet, name, columns, warp) in [(GEMM, "acc1", 128, 0), (ATTENTION, "scores", 128, 0), (SPARSE, "acc", 64, 1)] {
        let dealloc = format!("{warp}\ttcgen05.dealloc.cta_group::1.sync.aligned.b32 {name}, {columns};");
        let wrong = with(sheet, &format!("{dealloc}\n"), "");
        let taken = line_of(&wrong, &format!("[{name}], {columns};"));
        let says = [&format!("`{name}`")[..], &dealloc.replace('\t', " ")[2..], &format!("{columns} columns"), &format!("{taken} |")];
        check("dealloc dropped", wrong.as_bytes(), &Expected { reason: 15, line: line_of(&wrong, "exit;"), says: &says, mended: true });
    }
}

#[test]
fn idesc_and_a_descriptor_exchanged() {
    for (sheet, right, wrong) in [
        (GEMM, "adesc, bdesc, idesc, p0", "adesc, idesc, bdesc, p0"),
        (ATTENTION, "q, k, iqk, p0", "q, iqk, k, p0"),
        (SPARSE, "a, b, [meta], idesc, p0", "a, idesc, [meta], b, p0"),
    ] {
        let bad = with(sheet, right, wrong);
        let line = line_of(&bad, wrong);
        check(
            "exchanged",
            bad.as_bytes(),
            &Expected { reason: 6, line, says: &["64", "32", "idesc", right.split(", ").nth(1).unwrap()], mended: true },
        );
    }
}

#[test]
fn a_misspelt_name() {
    for (sheet, old, new, right) in [
        (GEMM, "[acc1], adesc", "[acc2], adesc", "acc1"),
        (ATTENTION, "[out], [probs], v", "[out], [prods], v", "probs"),
        (SPARSE, "[meta+2]", "[mete+2]", "meta"),
    ] {
        let bad = with(sheet, old, new);
        let line = line_of(&bad, new);
        check("misspelt", bad.as_bytes(), &Expected { reason: 6, line, says: &[&format!("`{right}`")], mended: sheet != GEMM });
    }
}

#[test]
fn m_256() {
    // M is in bits 24-28, in sixteens: 16 of them
    for (sheet, old, new, line) in [
        (GEMM, "0x08200010", "0x10200010", "mma"),
        (ATTENTION, "0x08200010", "0x10200010", "mma"),
        (SPARSE, "0x081000A4", "0x101000A4", "mma"),
    ] {
        let bad = with(sheet, old, new);
        let says = ["M 256", "64", "128", "24-28", new];
        check("M 256", bad.as_bytes(), &Expected { reason: 13, line: line_of(&bad, line), says: &says, mended: true });
    }
}

#[test]
fn mixed_types() {
    // btype is in bits 10-12
    for (sheet, old, new) in [(GEMM, "0x08200010", "0x08200410"), (ATTENTION, "0x08110010", "0x08110410")] {
        let bad = with(sheet, old, new);
        let line =
            bad.lines().position(|l| l.contains("mma") && l.contains(if sheet == GEMM { "idesc" } else { "ipv" })).unwrap() as u32 + 1;
        check("mixed types", bad.as_bytes(), &Expected { reason: 21, line, says: &["bf16", "f16", new], mended: true });
    }
}

#[test]
fn n_256_into_128_columns() {
    for sheet in [GEMM, ATTENTION] {
        let bad = with(sheet, "0x08200010", "0x08400010");
        let says = ["256 columns", "128 columns", if sheet == GEMM { "`acc0`" } else { "`scores`" }, "0x08400010"];
        check("N 256", bad.as_bytes(), &Expected { reason: 14, line: line_of(&bad, "mma"), says: &says, mended: true });
    }
}

#[test]
fn a_lost_comma() {
    for (sheet, old, new) in [
        (GEMM, "adesc, bdesc, idesc, p0", "adesc bdesc, idesc, p0"),
        (ATTENTION, "{s0, s1, s2,", "{s0, s1 s2,"),
        (SPARSE, "[acc], 64", "[acc] 64"),
    ] {
        let bad = with(sheet, old, new);
        check("lost comma", bad.as_bytes(), &Expected { reason: 3, line: line_of(&bad, new), says: &["`,`"], mended: true });
    }
}

#[test]
fn a_guard() {
    for (sheet, old) in [(GEMM, "tcgen05.mma"), (ATTENTION, "tcgen05.wait::ld"), (SPARSE, "tcgen05.st")] {
        let bad = with(sheet, old, &format!("@p {old}"));
        check("guard", bad.as_bytes(), &Expected { reason: 3, line: line_of(&bad, "@p"), says: &["guard", "@p"], mended: true });
    }
}

#[test]
fn a_comment() {
    for (sheet, old, new) in [
        (GEMM, "idesc, p0;", "idesc, p0; // first step"),
        (ATTENTION, "0\tmov.b64 q", "0\t// load q\n0\tmov.b64 q"),
        (SPARSE, "[meta], 32;", "[meta], 32; /* metadata */"),
    ] {
        let bad = with(sheet, old, new);
        let line = line_of(&bad, if sheet == SPARSE { "/*" } else { "//" });
        check("comment", bad.as_bytes(), &Expected { reason: 3, line, says: &["comment"], mended: true });
    }
}

#[test]
fn a_trailing_space() {
    for (sheet, old) in [(GEMM, "idesc, p0;"), (ATTENTION, "wait::st.sync.aligned;"), (SPARSE, "exit;")] {
        let bad = with(sheet, &format!("{old}\n"), &format!("{old} \n"));
        check("trailing space", bad.as_bytes(), &Expected { reason: 3, line: line_of(&bad, old), says: &["space", "end"], mended: true });
    }
}

#[test]
fn crlf() {
    for sheet in [GEMM, ATTENTION, SPARSE] {
        let bad = sheet.replace('\n', "\r\n");
        check("CRLF", bad.as_bytes(), &Expected { reason: 2, line: 1, says: &["CRLF", "sed"], mended: false });
        // one such line in the middle
        let bad = with(sheet, "sync.aligned;\n", "sync.aligned;\r\n");
        check("CR", bad.as_bytes(), &Expected { reason: 2, line: line_of(&bad, "sync.aligned;"), says: &["CR"], mended: true });
    }
}

#[test]
fn a_byte_order_mark() {
    for sheet in [GEMM, ATTENTION, SPARSE] {
        let bad = format!("\u{FEFF}{sheet}");
        check("BOM", bad.as_bytes(), &Expected { reason: 2, line: 1, says: &["byte order mark"], mended: true });
    }
}

#[test]
fn spaces_for_tabs() {
    for sheet in [GEMM, ATTENTION, SPARSE] {
        let bad = with(sheet, "\ttcgen05.mma", "    tcgen05.mma");
        check("spaces", bad.as_bytes(), &Expected { reason: 2, line: line_of(sheet, "mma"), says: &["tab", "space"], mended: true });
        let bad = with(sheet, "sheet\t1\tsm_100a", "sheet 1 sm_100a");
        check("header", bad.as_bytes(), &Expected { reason: 2, line: 1, says: &["tab", "sm_100a"], mended: true });
        check("all lines", sheet.replace('\t', " ").as_bytes(), &Expected { reason: 2, line: 1, says: &["tab"], mended: false });
    }
}

#[test]
fn a_lane_offset_lost() {
    for (sheet, old, new, offset) in [
        (GEMM, "[acc0+2097152]", "[acc0]", "2097152"),
        (ATTENTION, "[scores+4194304]", "[scores+64]", "4194368"),
        (SPARSE, "[meta+6291456]", "[meta]", "6291456"),
    ] {
        let at = line_of(sheet, old);
        let bad = with(sheet, old, new);
        check("lane", bad.as_bytes(), &Expected { reason: 8, line: at, says: &["lane 0", offset, "65,536"], mended: true });
    }
}

#[test]
fn a_dealloc_of_half() {
    for (sheet, name, columns) in [(GEMM, "acc0", 128), (ATTENTION, "out", 64), (SPARSE, "acc", 64)] {
        let bad = with(sheet, &format!("b32 {name}, {columns};"), &format!("b32 {name}, {};", columns / 2));
        let line = line_of(&bad, &format!("b32 {name}, {}", columns / 2));
        let says = [&format!("{}", columns / 2)[..], &format!("{columns} columns"), "whole"];
        check("half", bad.as_bytes(), &Expected { reason: 9, line, says: &says, mended: true });
    }
}

#[test]
fn an_alloc_after_relinquish() {
    for (sheet, name, warp) in [(GEMM, "acc1", 0), (ATTENTION, "probs", 0), (SPARSE, "meta", 1)] {
        let alloc = line_of(sheet, &format!("[{name}],"));
        let relinquish = format!("{warp}\ttcgen05.relinquish_alloc_permit.cta_group::1.sync.aligned;\n");
        let lines: Vec<_> = sheet.split_inclusive('\n').collect();
        let (before, after) = lines.split_at(alloc as usize - 1);
        let bad = [before.concat(), relinquish, after.concat()].concat();
        let says = ["relinquish", &format!("{} |", alloc)[..], &format!("`{name}`")];
        check("relinquish", bad.as_bytes(), &Expected { reason: 10, line: alloc + 1, says: &says, mended: true });
    }
}

/// A sheet, its last wait of a warp and a kind, and what is given back while that is missing.
const WAITS: [(&str, u32, &str, &str, &str); 4] = [
    (GEMM, 3, "ld", "acc1", "loads by warp 3 are"),
    (ATTENTION, 2, "ld", "out", "loads by warp 2 are"),
    (SPARSE, 3, "st", "meta", "a store by warp 3 is"),
    (SPARSE, 0, "ld", "acc", "loads by warp 0 are"),
];

fn wait(warp: u32, kind: &str) -> String {
    format!("{warp}\ttcgen05.wait::{kind}.sync.aligned;\n")
}

#[test]
fn a_wait_dropped() {
    for (sheet, warp, kind, name, what) in WAITS {
        let bad = with_last(sheet, &wait(warp, kind), "");
        let says = [&format!("`{name}` is given back while {what} outstanding")[..], &wait(warp, kind)];
        let e = check(
            "wait dropped",
            bad.as_bytes(),
            &Expected { reason: 18, line: line_of(&bad, &format!("b32 {name}, ")), says: &says, mended: true },
        );
        assert_eq!(e.helps[0].edit.as_ref().map(|edit| edit.text.clone()), Some(wait(warp, kind).into_bytes()));
    }
}

#[test]
fn a_wait_by_another_warp() {
    for (sheet, warp, kind, name, what) in WAITS {
        let other = (warp + 1) % 4;
        let bad = with_last(sheet, &wait(warp, kind), &wait(other, kind));
        let word = if kind == "st" { "stores" } else { "loads" };
        let says = [
            &format!("`{name}` is given back while {what} outstanding")[..],
            &format!("this waits for the {word} of warp {other} alone"),
            &format!("is meant, let it be by warp {warp}: "),
        ];
        let line = line_of(&bad, &format!("b32 {name}, "));
        let e = check("wait by another warp", bad.as_bytes(), &Expected { reason: 18, line, says: &says, mended: true });
        // the second edit takes the mistake back
        assert_eq!(Sheet::new(bad.as_bytes()).edited(e.helps[1].edit.as_ref().unwrap()), sheet.as_bytes());
    }
}

#[test]
fn a_wait_of_the_other_kind() {
    for (sheet, warp, kind, name, what) in WAITS {
        let (other, word) = if kind == "st" { ("ld", "loads") } else { ("st", "stores") };
        let bad = with_last(sheet, &wait(warp, kind), &wait(warp, other));
        let says = [
            &format!("`{name}` is given back while {what} outstanding")[..],
            &format!("this waits for the {word} of warp {warp} alone"),
            &format!("is meant, write `wait::{kind}`: "),
        ];
        let line = line_of(&bad, &format!("b32 {name}, "));
        let e = check("wait of the other kind", bad.as_bytes(), &Expected { reason: 18, line, says: &says, mended: true });
        assert_eq!(Sheet::new(bad.as_bytes()).edited(e.helps[1].edit.as_ref().unwrap()), sheet.as_bytes());
    }
}
