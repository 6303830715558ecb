//! Reason 3 at the opcode: what is said of an opcode that is none, and that an edit is offered as the remedy only where one opcode is plainly
//! meant. Each statement stands in a kernel that passes without it.

use commands::explain::{answer_of, explain, Explanation};
use commands::sheet::Sheet;

/// dtype f32, types 0 and 0: f16 under `kind::f16`, e4m3 under `kind::f8f6f4`.
const WORD: &str = "0x08100010";
const MMA: &str = "tcgen05.mma.cta_group::1";
const LD: &str = "tcgen05.ld.sync.aligned";

fn sheet(word: &str, statement: &str) -> Vec<u8> {
    format!(
        "sheet\t1\tsm_100a\n0\ttcgen05.alloc.cta_group::1.sync.aligned.b32 [t], 64;\n0\tmov.b32 i, {word};\n\
         0\tmov.b64 a, 0x0000400800100000;\n0\tmov.b64 b, 0x0000400800100000;\n0\t{statement}\n\
         0\ttcgen05.wait::ld.sync.aligned;\n0\ttcgen05.wait::st.sync.aligned;\n\
         0\ttcgen05.dealloc.cta_group::1.sync.aligned.b32 t, 64;\n0\ttcgen05.relinquish_alloc_permit.cta_group::1.sync.aligned;\n0\texit;\n"
    )
    .into_bytes()
}

fn mma(kind: &str) -> String {
    format!("{MMA}{kind} [t], a, b, i, p;")
}

fn said(word: &str, statement: &str) -> Explanation {
    let bytes = sheet(word, statement);
    let e = explain(&bytes, bytes.len());
    assert_eq!((e.answer.reason.map(|r| r.number()), e.answer.line, e.answer.column), (Some(3), 6, 3), "{statement}");
    e
}

fn label(e: &Explanation) -> &str {
    e.primary.as_ref().map_or("", |span| &span.label)
}

fn texts(e: &Explanation) -> Vec<&str> {
    e.helps.iter().map(|help| help.text.as_str()).collect()
}

/// The opcodes of the edits; each sheet with one passes.
fn offered(word: &str, statement: &str, e: &Explanation) -> Vec<String> {
    let bytes = sheet(word, statement);
    let edits = e.helps.iter().filter_map(|help| help.edit.as_ref());
    let edited = edits.map(|edit| {
        let new = Sheet::new(&bytes).edited(edit);
        assert_eq!(answer_of(&new).reason, None, "{statement}: {}", String::from_utf8_lossy(&new));
        let statement = String::from_utf8_lossy(Sheet::new(&new).statement(6)).into_owned();
        statement.split([' ', ';']).next().unwrap_or_default().into()
    });
    edited.collect()
}

/// A statement, its title after `no form has this opcode: `, and the opcodes that are offered.
fn check(rows: &[(&str, &str, &[&str])]) {
    for (statement, title, opcodes) in rows {
        let e = said(WORD, statement);
        assert_eq!(e.title.strip_prefix("no form has this opcode: "), Some(*title), "{statement}");
        assert_eq!(offered(WORD, statement, &e), *opcodes, "{statement}");
        // of two each has its condition
        assert!(opcodes.len() < 2 || texts(&e).iter().all(|text| text.starts_with("if `") && text.contains("is meant")), "{statement}");
        assert!(!e.helps.is_empty(), "{statement}");
    }
}

const KINDS: &str = "the kind is `.kind::f16`, `.kind::tf32`, `.kind::f8f6f4` or `.kind::i8`: \
    f16 is for f16 and bf16, tf32 for tf32, f8f6f4 for floats of 8, 6 and 4 bits, i8 for integers of 8 bits";

#[test]
fn kinds_that_are_none() {
    for kind in ["fp8", "f8f6", "f6", "f4", "fp4", "f64", "f8", "f32", "F8", "q"] {
        let statement = mma(&format!(".kind::{kind}"));
        let e = said(WORD, &statement);
        let what = format!("`.kind::{kind}` is not one of the four kinds");
        assert_eq!((e.title.as_str(), label(&e)), (&format!("no form has this opcode: {what}")[..], &what[..]));
        let good = "idesc `i` is 0x08100010: good for `.kind::f16` (a f16, b f16) and for `.kind::f8f6f4` (a e4m3, b e4m3)";
        assert_eq!(e.notes, [KINDS, good], "{kind}");
        assert_eq!(texts(&e), ["write the kind whose types a and b have; the sheet does not show which is meant"], "{kind}");
        assert_eq!(e.related.iter().map(|span| (span.line, span.label.as_str())).collect::<Vec<_>>(), [(3, "`i` gets 0x08100010 here")]);
        assert!(offered(WORD, &statement, &e).is_empty(), "{kind}");
    }
    let e = said(WORD, &mma(""));
    assert_eq!(e.title, "no form has this opcode: the kind of the mma is missing");
    assert!(e.notes[1].contains("good for `.kind::f16`") && e.helps.iter().all(|help| help.edit.is_none()));
    // b has brackets: idesc is not found
    let e = said(WORD, &format!("{MMA}.kind::fp8 [t], a, [b], i, p;"));
    assert_eq!((&e.notes[..], e.helps.len(), &e.related[..]), (&[KINDS.to_string()][..], 1, &[][..]));
}

#[test]
fn kinds_that_the_word_tells() {
    let rows = [
        (".kind::fp8", "0x08100410", "f8f6f4"),
        (".kind::f32", "0x08100910", "tf32"),
        (".kind::int8", "0x08100020", "i8"),
        ("", "0x08100020", "i8"),
    ];
    for (wrong, word, kind) in rows {
        let e = said(word, &mma(wrong));
        let right = format!("{MMA}.kind::{kind}");
        assert_eq!(texts(&e), [format!("`i` is good for `.kind::{kind}` alone: if that is meant, write `{right}`")]);
        assert_eq!(offered(word, &mma(wrong), &e), [right]);
    }
    let e = said("0xFFFFFFFF", &mma(".kind::fp8"));
    assert_eq!(e.notes[1], "idesc `i` is 0xFFFFFFFF: good for none of them");
    assert_eq!(texts(&e), ["write the kind whose types a and b have, and move a word of that kind to `i`"]);
}

#[test]
fn kinds_that_are_plain() {
    let rows = [
        (".kind::F16", WORD, "f16"),
        (".kind:f16", WORD, "f16"),
        (".kind.f16", WORD, "f16"),
        (".knd::f16", WORD, "f16"),
        (".f16", WORD, "f16"),
        (".kind::f8f6f5", WORD, "f8f6f4"),
        (".kind::f8f6f", WORD, "f8f6f4"),
        (".kind::e4m3", WORD, "f8f6f4"),
        (".kind::bf16", "0x08100490", "f16"),
        (".kind::e5m2", "0x08100490", "f8f6f4"),
    ];
    for (wrong, word, kind) in rows {
        let e = said(word, &mma(wrong));
        assert_eq!(offered(word, &mma(wrong), &e), [format!("{MMA}.kind::{kind}")], "{wrong}");
        assert_eq!(e.helps.len(), 1, "{wrong}");
    }
    let bf16 = said("0x08100490", &mma(".kind::bf16"));
    let says = format!("bf16 is a type of `.kind::f16`, for which the word has a bf16 and b bf16: write `{MMA}.kind::f16`");
    assert_eq!(texts(&bf16), [says]);
    // with a word that is not good there it is not offered
    assert!(offered("0x08100910", &mma(".kind::bf16"), &said("0x08100910", &mma(".kind::bf16"))) == [format!("{MMA}.kind::tf32")]);
}

#[test]
fn words_that_make_another_statement() {
    let rows = [
        (format!("{LD}.32x32b.x1.pack::16b.b32 {{r}}, [t];"), ".pack::16b", ", which takes other columns"),
        (format!("{LD}.16x32bx2.x1.b32 {{r}}, [t], 1;"), ".16x32bx2", ", which takes other columns"),
        (format!("{LD}.16x32bx2.x1.b32 {{r}}, [t];"), ".16x32bx2", ", which takes other columns"),
        ("tcgen05.alloc.cta_group::2.sync.aligned.b32 [v], 64;".into(), ".cta_group::2", ", for another count of CTAs"),
        ("TCGEN05.mma.cta_group::2.kind::f16 [t], a, b, i, p;".into(), ".cta_group::2", ", for another count of CTAs"),
        (mma(".kind::mxf8"), ".kind::mxf8", ", which multiplies without scales"),
        (mma(".kind::f16.ashift"), ".ashift", ""),
    ];
    for (statement, word, other) in rows {
        let e = said(WORD, &statement);
        assert!(e.title.starts_with(&format!("`{word}` is not part of any form: ")), "{}", e.title);
        let says = format!("without `{word}` it is another statement{other}; this version judges no statement with `{word}`");
        assert_eq!((texts(&e), &e.helps[0].edit), (vec![says.as_str()], &None), "{statement}");
    }
    assert_eq!(said(WORD, &mma(".kind::mxf8")).notes[0], KINDS);
}

#[test]
fn waits_and_fences() {
    let (ld, st) = ("tcgen05.wait::ld.sync.aligned", "tcgen05.wait::st.sync.aligned");
    let (before, after) = ("tcgen05.fence::before_thread_sync", "tcgen05.fence::after_thread_sync");
    check(&[
        ("tcgen05.wait.sync.aligned;", "`.wait` stands where `.wait::ld` or `.wait::st` could stand", &[ld, st]),
        ("tcgen05.wait::all.sync.aligned;", "`.wait::all` stands where `.wait::ld` or `.wait::st` could stand", &[ld, st]),
        ("tcgen05.wait::lt.sync.aligned;", "`.wait::lt` stands where `.wait::ld` or `.wait::st` could stand", &[ld, st]),
        ("tcgen05.wait;", "`.wait` stands where `.wait::ld.sync.aligned` or `.wait::st.sync.aligned` could stand", &[]),
        ("tcgen05.wait_ld.sync.aligned;", "`.wait_ld` stands where `.wait::ld` could stand", &[ld]),
        ("tcgen05.wait::st;", "`.sync.aligned` is missing", &[st]),
        (
            "tcgen05.fence;",
            "`.fence` stands where `.fence::before_thread_sync` or `.fence::after_thread_sync` could stand",
            &[before, after],
        ),
        (
            "tcgen05.fence.sync.aligned;",
            "`.fence.sync.aligned` stands where `.fence::before_thread_sync` or `.fence::after_thread_sync` could stand",
            &[],
        ),
        ("tcgen05.fence::before_thread_sync.sync.aligned;", "`.sync.aligned` is not part of it", &[before]),
        ("tcgen05.fence::after_thread_sync.sync.aligned;", "`.sync.aligned` is not part of it", &[after]),
        (
            "tcgen05.fence::before_threadsync;",
            "`.fence::before_threadsync` stands where `.fence::before_thread_sync` could stand",
            &[before],
        ),
    ]);
}

#[test]
fn shapes_and_numbers() {
    let ld = |words: &str| format!("{LD}.{words}, [t];");
    let (wide, tall) = (format!("{LD}.32x32b.x1.b32"), format!("{LD}.16x64b.x1.b32"));
    let both: &[&str] = &[&wide, &tall];
    check(&[
        (&ld("32x64b.x1.b32 {r}"), "`.32x64b` stands where `.32x32b` or `.16x64b` could stand", both),
        (&ld("64x32b.x1.b32 {r}"), "`.64x32b` stands where `.32x32b` or `.16x64b` could stand", both),
        (&ld("16x32b.x1.b32 {r}"), "`.16x32b` stands where `.32x32b` or `.16x64b` could stand", both),
        (&ld("x1.b32 {r}"), "`.32x32b` or `.16x64b` is missing", both),
        (&ld("32x64b.x1.b32 {r, s}"), "`.32x64b` stands where `.16x128b` could stand", &[]),
        (&ld("x1.b32 {r, s}"), "`.16x128b` is missing", &[]),
        (&ld("16x65b.x1.b32 {r}"), "`.16x65b` stands where `.16x64b` could stand", &[&tall]),
        (&ld("b32 {r}"), "`.32x32b.x1` or `.16x64b.x1` is missing", &[]),
        (&ld("b32 r"), "words of it are wrong or missing", &[]),
        (&ld("32x32b.b32 {r}"), "`.x1` is missing", &[&wide]),
        (&ld("32x32b.x1.foo.b32 {r}"), "`.foo` is not part of it", &[]),
        (&ld("32x32b.x1.b16 {r}"), "`.b16` stands where `.b32` could stand", &[]),
        (&ld("32x32b.x1.b32.b32 {r}"), "`.b32` is not part of it", &[&wide]),
    ]);
    assert_eq!(said(WORD, &ld("b32 r")).notes.len(), 2);
    let foo = said(WORD, &ld("32x32b.x1.foo.b32 {r}"));
    assert_eq!(texts(&foo), [format!("the nearest opcode is `{wide}`: write it only if that is what the kernel has")]);
}

#[test]
fn no_word_is_lost() {
    check(&[
        ("tcgen05.mma.ws.kind::f16 [t], a, b, i, p;", "`.cta_group::1` is missing", &["tcgen05.mma.ws.cta_group::1.kind::f16"]),
        ("tcgen05.mma.kind::f16 [t], a, b, i, p;", "`.cta_group::1` is missing", &["tcgen05.mma.cta_group::1.kind::f16"]),
        ("wait::ld.sync.aligned;", "`tcgen05` is missing", &["tcgen05.wait::ld.sync.aligned"]),
        ("mov y, 1;", "`.b32` or `.b64` is missing", &["mov.b32", "mov.b64"]),
        ("mov.b16 y, 1;", "`.b16` stands where `.b32` or `.b64` could stand", &["mov.b32", "mov.b64"]),
        ("mov.u64 y, 1;", "`.u64` stands where `.b64` could stand", &["mov.b64"]),
    ]);
}

#[test]
fn what_is_no_opcode_of_a_sheet() {
    let others = [
        "tcgen05.cp.cta_group::1.128x256b [t], s;",
        "bar.sync 0;",
        "wgmma.fence.sync.aligned;",
        "wgmma.mma_async.sync.aligned.m64n8k16.f32.f16.f16 x;",
        "ld.global.b32 r, [x];",
        "tcgen05.foo.cta_group::1.sync.aligned;",
        "tcgen05.cta_group::1.sync.aligned;",
        "tcgen05;",
    ];
    for statement in others {
        let e = said(WORD, statement);
        assert_eq!((label(&e), e.helps.iter().any(|help| help.edit.is_some())), ("not one of a sheet's opcodes", false), "{statement}");
    }
    assert_eq!(label(&said(WORD, "{")), "an opcode must stand here");
}
