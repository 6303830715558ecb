//! Explanations of descriptors (reasons 12, 13, 20, 21), of lanes (8) and of columns (14): each case with its sheet, what is said,
//! and that every fix that is offered passes.

use commands::explain::{explain, Explanation};
use commands::sheet::Sheet;
use staplehorn::Reason;

const GOOD_B: &str = "0x0000400800100000";

fn sheet(lines: &[&str]) -> Vec<u8> {
    format!("sheet\t1\tsm_100a\n{}\n0\texit;\n", lines.join("\n")).into_bytes()
}

/// An explanation whose words and fixes are asked for.
struct Said {
    e: Explanation,
    bytes: Vec<u8>,
}

fn said(bytes: Vec<u8>, reason: Reason) -> Said {
    let e = explain(&bytes, bytes.len());
    assert_eq!(e.answer.reason, Some(reason), "{}", String::from_utf8_lossy(&bytes));
    let primary = e.primary.as_ref().unwrap();
    assert_eq!((primary.line, primary.from), (e.answer.line as usize, e.answer.column as usize));
    assert!(!e.helps.is_empty(), "no help: {}", e.title);
    Said { e, bytes }
}

impl Said {
    fn label(&self) -> &str {
        &self.e.primary.as_ref().unwrap().label
    }

    /// Each related place: its line, its bytes and its label.
    fn related(&self) -> Vec<(usize, String, &str)> {
        let text = |line: usize, from: usize, to: usize| {
            String::from_utf8_lossy(&Sheet::new(&self.bytes).line(line)[from - 1..to - 1]).into_owned()
        };
        self.e.related.iter().map(|s| (s.line, text(s.line, s.from, s.to), s.label.as_str())).collect()
    }

    fn notes(&self) -> String {
        self.e.notes.join("\n")
    }

    fn has_note(&self, note: &str) {
        assert!(self.e.notes.iter().any(|n| n == note), "{note:?} is not in\n{}", self.notes());
    }

    fn words(&self) -> Vec<&str> {
        self.e.helps.iter().filter(|h| h.edit.is_none()).map(|h| h.text.as_str()).collect()
    }

    /// Each fix: its text, and the edited line without its warp field. Every edited sheet passes.
    fn fixes(&self) -> Vec<(&str, String)> {
        let fix = |h: &'_ commands::explain::Help| {
            let edit = h.edit.clone()?;
            let edited = Sheet::new(&self.bytes).edited(&edit);
            assert!(staplehorn::judge(&edited).is_ok(), "{}: {:?}", h.text, staplehorn::judge(&edited));
            Some(String::from_utf8_lossy(Sheet::new(&edited).line(edit.line)).into_owned())
        };
        self.e.helps.iter().filter_map(|h| Some((h.text.as_str(), fix(h)?))).collect()
    }
}

/// A sheet with one mma: the number under `i`, the number under `b`, the opcode after `mma`, the columns of `d`, the operands.
fn mma(i: &str, b: &str, opcode: &str, columns: u32, operands: &str) -> Vec<u8> {
    sheet(&[
        &format!("0\tmov.b32 i, {i};"),
        &format!("0\tmov.b64 b, {b};"),
        &format!("0\ttcgen05.alloc.cta_group::1.sync.aligned.b32 [d], {columns};"),
        &format!("0\ttcgen05.mma{opcode} {operands};"),
        &format!("0\ttcgen05.dealloc.cta_group::1.sync.aligned.b32 d, {columns};"),
    ])
}

const F16: &str = ".cta_group::1.kind::f16";
const TF32: &str = ".cta_group::1.kind::tf32";
const DENSE: &str = "[d], b, b, i, p";

fn idesc(word: &str, opcode: &str, reason: Reason) -> Said {
    let operands = if opcode.contains(".sp") { "[d], b, b, [d+2], i, p" } else { DENSE };
    said(mma(word, GOOD_B, opcode, 256, operands), reason)
}

fn shared(word: &str) -> Said {
    said(mma("0x08100010", word, F16, 256, "[d], [d], b, i, p"), Reason::Descriptor)
}

#[test]
fn n_is_not_listed() {
    let s = idesc("0x080A00A0", ".cta_group::1.kind::i8", Reason::ShapeN);
    assert_eq!(s.e.title, "the instruction descriptor `i` has N 40, which `kind::i8` does not take");
    assert_eq!(s.label(), "operand idesc (32 bits): `i` is 0x080A00A0, N 40");
    assert_eq!(s.related(), [(2, "0x080A00A0".into(), "`i` gets 0x080A00A0 here")]);
    s.has_note("N / 8 is bits 17-22 of the word: 5 there is N 40");
    s.has_note("`kind::i8` takes N 8 to 32 in eights or 48 to 256 in sixteens");
    assert_eq!(
        s.fixes(),
        [
            ("take N 32: move 0x080800A0 to `i`", "0\tmov.b32 i, 0x080800A0;".into()),
            ("take N 48: move 0x080C00A0 to `i`", "0\tmov.b32 i, 0x080C00A0;".into())
        ]
    );
}

/// Of several movs the last counts, whatever its spelling.
#[test]
fn the_last_mov_counts() {
    let bytes = sheet(&[
        "0\tmov.b32 i, 0x08100010;",
        "0\tmov.b32  i , 139460624U ;",
        "0\tmov.b64 b, 0x0000400800100000;",
        "0\ttcgen05.alloc.cta_group::1.sync.aligned.b32 [d], 256;",
        "0\ttcgen05.mma.cta_group::1.kind::f16 [d], b, b, i, p;",
        "0\ttcgen05.dealloc.cta_group::1.sync.aligned.b32 d, 256;",
    ]);
    let s = said(bytes, Reason::ShapeN);
    assert_eq!(s.related(), [(3, "139460624U".into(), "`i` gets 0x08500010 here")]);
    assert_eq!(s.fixes(), [("take N 256: move 0x08400010 to `i`", "0\tmov.b32  i , 0x08400010 ;".into())]);
}

#[test]
fn n_of_ws() {
    let s = idesc("0x08400014", ".ws.sp.cta_group::1.kind::f16", Reason::ShapeN);
    assert_eq!(s.e.title, "the instruction descriptor `i` has N 256, which `kind::f16` with `.ws` and `.sp` does not take");
    s.has_note("`kind::f16` with `.ws` and `.sp` takes N 64 or 128");
    s.has_note("with `.ws` N 256 is for dense alone, without `.sp`");
    s.has_note("N 256 is listed without `.ws`");
    assert_eq!(s.fixes()[0].1, "0\tmov.b32 i, 0x08200014;");
    let s = idesc("0x880A0010", ".ws.cta_group::1.kind::f16", Reason::ShapeN);
    s.has_note("`kind::f16` with `.ws` takes N 64, 128 or 256");
    s.has_note("N 40 is listed without `.ws`");
    // not without `.ws` as it is: its max shift is not 0
    assert_eq!(s.fixes(), [("take N 64: move 0x88100010 to `i`", "0\tmov.b32 i, 0x88100010;".into())]);
    let s = idesc("0x88FE0010", ".ws.cta_group::1.kind::f16", Reason::Descriptor);
    assert_eq!(s.e.title, "the instruction descriptor `i` has bit 23 set, which must be 0");
    let s = idesc("0x887E0010", ".ws.cta_group::1.kind::f16", Reason::ShapeN);
    assert!(!s.notes().contains("without"), "{}", s.notes());
}

#[test]
fn m_is_not_listed() {
    let s = idesc("0x10100010", F16, Reason::ShapeM);
    assert_eq!(s.e.title, "the instruction descriptor `i` has M 256, which `kind::f16` does not take");
    s.has_note("M / 16 is bits 24-28 of the word: 16 there is M 256");
    s.has_note("`kind::f16` takes M 64 or 128");
    assert!(s.notes().contains("`.cta_group::2`"));
    assert_eq!(s.fixes(), [("take M 128: move 0x08100010 to `i`", "0\tmov.b32 i, 0x08100010;".into())]);
    let s = idesc("0x02100010", F16, Reason::ShapeM);
    s.has_note("M 32 is listed with `.ws`");
    assert_eq!(s.fixes()[1].1, "0\ttcgen05.mma.ws.cta_group::1.kind::f16 [d], b, b, i, p;");
}

#[test]
fn m_and_more_are_not_listed() {
    let s = idesc("0x0C000020", F16, Reason::ShapeM);
    s.has_note(
        "N 0 and dtype s32 with f16 and f16 are not listed either: `kind::f16` takes N 8 to 256 in eights; \
         dtype f16 with two f16; dtype f32 with two f16 or two bf16",
    );
    assert_eq!((s.words(), s.fixes().len()), (vec!["choose M 64 or 128, and correct the other fields too"], 0));
    let s = idesc("0x08000410", F16, Reason::ShapeN);
    assert!(s.notes().contains("types f16 and bf16 are not listed either"), "{}", s.notes());
}

#[test]
fn types_are_not_listed() {
    let s = idesc("0x08100410", F16, Reason::Types);
    assert_eq!(s.e.title, "the instruction descriptor `i` mixes types: a is f16 and b is bf16, and `kind::f16` takes two of one type");
    assert_eq!(s.label(), "operand idesc (32 bits): `i` is 0x08100410, dtype f32, a f16, b bf16");
    s.has_note("dtype is bits 4-5: 1 is f32; the type of a is bits 7-9: 0 is f16; the type of b is bits 10-12: 1 is bf16");
    s.has_note("`kind::f16` takes dtype f16 with two f16; dtype f32 with two f16 or two bf16");
    assert_eq!(
        s.fixes(),
        [
            ("if dtype f32 with two f16 is meant, make btype f16: move 0x08100010 to `i`", "0\tmov.b32 i, 0x08100010;".into()),
            ("if dtype f32 with two bf16 is meant, make atype bf16: move 0x08100490 to `i`", "0\tmov.b32 i, 0x08100490;".into()),
            (
                "0x08100410 is good for `kind::f8f6f4`, where the type codes 0 and 1 mean e4m3 and e5m2: if that is meant, change the opcode",
                "0\ttcgen05.mma.cta_group::1.kind::f8f6f4 [d], b, b, i, p;".into()
            )
        ]
    );
    // here btype bf16 would not do, for dtype is f16
    let s = idesc("0x08100080", F16, Reason::Types);
    assert_eq!(s.fixes()[0].0, "if dtype f16 with two f16 is meant, make atype f16: move 0x08100000 to `i`");
    let s = idesc("0x08100480", F16, Reason::Types);
    assert_eq!(s.fixes()[0].0, "if dtype f32 with two bf16 is meant, make dtype f32: move 0x08100490 to `i`");
    let s = idesc("0x08100020", F16, Reason::Types);
    assert_eq!(s.e.title, "the instruction descriptor `i` has dtype s32 with f16 and f16, which `kind::f16` does not take");
    let texts: Vec<_> = s.fixes().iter().map(|fix| fix.0.to_string()).collect();
    assert_eq!(
        texts,
        [
            "if dtype f32 with two f16 is meant, make dtype f32: move 0x08100010 to `i`",
            "if dtype f16 with two f16 is meant, make dtype f16: move 0x08100000 to `i`",
            "0x08100020 is good for `kind::i8`, where the type codes 0 and 0 mean u8 and u8: if that is meant, change the opcode"
        ]
    );
    let s = idesc("0x08100420", F16, Reason::Types);
    assert_eq!(s.words(), ["choose a dtype and types of a and b that stand together in this list"]);
}

#[test]
fn types_of_the_other_kinds() {
    let s = idesc("0x08100900", ".cta_group::1.kind::tf32", Reason::Types);
    s.has_note("`kind::tf32` takes dtype f32 with two tf32");
    let s = idesc("0x08100020", ".cta_group::1.kind::f8f6f4", Reason::Types);
    s.has_note("`kind::f8f6f4` takes dtype f16 or f32 with any two of e4m3, e5m2, e2m3, e3m2 and e2m1");
    let s = idesc("0x08100010", ".cta_group::1.kind::i8", Reason::Types);
    s.has_note("`kind::i8` takes dtype s32 with any two of u8 and s8");
    assert_eq!(s.fixes()[0].0, "if dtype s32 with two u8 is meant, make dtype s32: move 0x08100020 to `i`");
}

#[test]
fn sparse_or_dense() {
    let s = idesc("0x08100015", F16, Reason::Descriptor);
    assert_eq!(s.e.title, "the instruction descriptor `i` is sparse (bit 2 is 1), but the opcode has no `.sp`");
    s.has_note("sparse is bit 2 of the word, here 1: 0 without .sp");
    assert_eq!(s.fixes()[0].1, "0\tmov.b32 i, 0x08100010;");
    let text = "if the mma is sparse, write `tcgen05.mma.sp.cta_group::1.kind::f16`, and the metadata's address in brackets before `i`";
    assert_eq!(s.words(), [text]);
    let s = idesc("0x08100010", ".sp.cta_group::1.kind::f16", Reason::Descriptor);
    assert_eq!(s.e.title, "the instruction descriptor `i` is dense (bit 2 is 0), but the opcode has `.sp`");
    assert_eq!(s.fixes()[0].1, "0\tmov.b32 i, 0x08100014;");
    assert_eq!(s.fixes()[1].1, "0\ttcgen05.mma.cta_group::1.kind::f16 [d], b, b, i, p;");
}

/// An earlier line needs the number as it is.
#[test]
fn a_mov_of_its_own() {
    let bytes = sheet(&[
        "0\tmov.b32 i, 0x08100014;",
        "0\tmov.b64 b, 0x0000400800100000;",
        "0\ttcgen05.alloc.cta_group::1.sync.aligned.b32 [d], 256;",
        "0\ttcgen05.mma.sp.cta_group::1.kind::f16 [d], b, b, [d], i, p;",
        "2\ttcgen05.mma.cta_group::1.kind::f16 [d], b, b, i, p;",
        "0\ttcgen05.dealloc.cta_group::1.sync.aligned.b32 d, 256;",
    ]);
    let s = said(bytes, Reason::Descriptor);
    let fixes = s.fixes();
    assert_eq!(fixes[0].1, "2\tmov.b32 i, 0x08100010;");
    assert!(fixes[0].0.ends_with("before this line, and leave line 2 as it is"), "{fixes:?}");
}

#[test]
fn instruction_descriptors_without_a_reading() {
    let s = idesc("0x08100910", F16, Reason::Descriptor);
    assert_eq!(s.e.title, "the instruction descriptor `i` has no reading under `kind::f16`: atype is 2 and btype is 2");
    s.has_note("atype is bits 7-9 of the word, here 2: `kind::f16` takes 0 (f16) or 1 (bf16)");
    assert_eq!(
        s.fixes()[0].0,
        "0x08100910 is good for `kind::tf32`, where the type codes 2 and 2 mean tf32 and tf32: if that is meant, change the opcode"
    );
    assert_eq!(s.fixes()[0].1, "0\ttcgen05.mma.cta_group::1.kind::tf32 [d], b, b, i, p;");
    let s = idesc("0x08900050", F16, Reason::Descriptor);
    assert_eq!(s.e.title, "the instruction descriptor `i` has bits 6 and 23 set, which must be 0");
    assert_eq!(s.fixes()[0].1, "0\tmov.b32 i, 0x08100010;");
    let s = idesc("0x08100030", F16, Reason::Descriptor);
    s.has_note("dtype is bits 4-5 of the word, here 3: f16 0, f32 1, s32 2");
    let texts: Vec<_> = s.fixes().iter().map(|fix| fix.0.to_string()).collect();
    assert_eq!(texts, ["if dtype f32 is meant: move 0x08100010 to `i`", "if dtype f16 is meant: move 0x08100000 to `i`"]);
    let s = idesc("0x88100010", F16, Reason::Descriptor);
    assert_eq!(s.e.title, "the instruction descriptor `i` has max_shift 2, which `kind::f16` does not take");
    assert_eq!(s.fixes().iter().map(|f| f.1.as_str()).next_back(), Some("0\ttcgen05.mma.ws.cta_group::1.kind::f16 [d], b, b, i, p;"));
    let s = idesc("0xFFFFFFFF", F16, Reason::Descriptor);
    assert_eq!(s.words(), ["several fields are wrong: correct each of them, and move the word that has them all"]);
}

/// Every wrong field has one value that would do: the word with all of them.
#[test]
fn all_fields_put_right() {
    let s = idesc("0x08100010", TF32, Reason::Descriptor);
    s.has_note("btype is bits 10-12 of the word, here 0: `kind::tf32` takes 2 (tf32)");
    let fixes = s.fixes();
    assert_eq!(
        fixes[0],
        ("if the opcode is right, make atype tf32 and btype tf32: move 0x08100910 to `i`", "0\tmov.b32 i, 0x08100910;".into())
    );
    assert!(fixes.iter().skip(1).all(|fix| fix.0.contains("if that is meant, change the opcode")), "{fixes:?}");
    let s = idesc("0x0810005C", TF32, Reason::Descriptor);
    assert!(s.e.title.ends_with(": bit 6 is set, sparse is 1, saturate is 1, atype is 0 and btype is 0"), "{}", s.e.title);
    let text = "if the opcode is right, clear the bits that must be 0 and make sparse 0, saturate 0, atype tf32 and btype tf32";
    assert_eq!(s.fixes(), [(&format!("{text}: move 0x08100910 to `i`")[..], "0\tmov.b32 i, 0x08100910;".into())]);
    // f16 has two types
    let s = idesc("0x08100918", F16, Reason::Descriptor);
    assert!(s.fixes().is_empty(), "{:?}", s.fixes());
}

/// A sheet of several mmas that use `i`: the opcodes after `mma`.
fn mmas(word: &str, opcodes: &[&str], reason: Reason) -> Said {
    let mut lines = vec![format!("0\tmov.b32 i, {word};"), format!("0\tmov.b64 b, {GOOD_B};")];
    lines.push("0\ttcgen05.alloc.cta_group::1.sync.aligned.b32 [d], 64;".into());
    for opcode in opcodes {
        lines.push(if opcode.starts_with("mov") {
            format!("0\t{opcode}")
        } else {
            format!("0\ttcgen05.mma{opcode} [d], b, b, {}i, p;", if opcode.contains(".sp") { "[d], " } else { "" })
        });
    }
    lines.push("0\ttcgen05.dealloc.cta_group::1.sync.aligned.b32 d, 64;".into());
    said(sheet(&lines.iter().map(String::as_str).collect::<Vec<_>>()), reason)
}

/// Another opcode is an edit only where no other mma would have to change with it.
#[test]
fn an_opcode_of_many() {
    const F8: &str = ".cta_group::1.kind::f8f6f4";
    let good =
        "0x08100410 is good for `kind::f8f6f4`, where the type codes 0 and 1 mean e4m3 and e5m2: if that is meant, change the opcode";
    let edits = |s: &Said| s.e.helps.iter().filter(|h| h.edit.as_ref().is_some_and(|edit| edit.line == s.e.answer.line as usize)).count();
    for (opcodes, words) in [
        (&[F16, F16, F16][..], format!("{good}, here and in 2 more mmas that use `i`")),
        (&[F8, F16, F16], format!("{good}, here and in 1 more mma that uses `i`")),
    ] {
        let s = mmas("0x08100410", opcodes, Reason::Types);
        assert_eq!((s.words(), edits(&s)), (vec![&words[..]], 0));
    }
    // the others have it, or another word
    for opcodes in [&[F8, F16, F8][..], &[F16, "mov.b32 i, 0x08100010;", F16]] {
        let s = mmas("0x08100410", opcodes, Reason::Types);
        assert_eq!((s.words().len(), edits(&s), s.e.helps.last().map(|h| &h.text[..])), (0, 1, Some(good)));
    }
    let s = mmas("0x08100010", &[".sp.cta_group::1.kind::f16"; 2], Reason::Descriptor);
    assert_eq!(s.words(), ["if the mma is dense, leave `.sp` and the metadata's address out, here and in 1 more mma that uses `i`"]);
    let s = mmas("0x08080010", &[".ws.cta_group::1.kind::f16"; 2], Reason::ShapeN);
    assert_eq!(s.words(), ["0x08080010 is good without `.ws`: if that is meant, change the opcode, here and in 1 more mma that uses `i`"]);
}

/// The slip may be in a or in b.
#[test]
fn mixed_types_of_a_kernel() {
    let gemm = include_str!("../../examples/gemm.sheet").replacen("0x08200010", "0x08200090", 1);
    let s = said(gemm.into_bytes(), Reason::Types);
    assert_eq!(
        s.fixes(),
        [
            ("if dtype f32 with two bf16 is meant, make btype bf16: move 0x08200490 to `idesc`", "0\tmov.b32 idesc, 0x08200490;".into()),
            ("if dtype f32 with two f16 is meant, make atype f16: move 0x08200010 to `idesc`", "0\tmov.b32 idesc, 0x08200010;".into())
        ]
    );
    assert!(s.words()[0].ends_with("mean e5m2 and e4m3: if that is meant, change the opcode, here and in 15 more mmas that use `idesc`"));
}

#[test]
fn shared_memory_descriptors() {
    let s = shared("0x4000000800100000");
    assert_eq!(s.e.title, "the shared memory descriptor `b` has no reading: bits 46-48 hold 0, which must be 1");
    assert_eq!(s.label(), "operand b (64 bits): `b` is 0x4000000800100000");
    s.has_note("a descriptor that was made for wgmma has 0 in bits 46-48");
    assert_eq!(s.fixes(), [("put 1 into bits 46-48: move 0x4000400800100000 to `b`", "0\tmov.b64 b, 0x4000400800100000;".into())]);
    let s = shared("0");
    s.has_note("the whole word is 0: no start address and no offsets either");
    assert_eq!(s.related(), [(3, "0".into(), "`b` gets 0x0000000000000000 here")]);
    let s = shared("0x6000400800100000");
    s.has_note("swizzle is bits 61-63 of the word, here 3: 0, 1, 2, 4 or 6");
    s.has_note("swizzles: 0 none, 1 128B+32B, 2 128B, 4 64B, 6 32B");
    assert_eq!(
        s.fixes().iter().map(|f| f.1.as_str()).collect::<Vec<_>>(),
        ["0\tmov.b64 b, 0x4000400800100000;", "0\tmov.b64 b, 0x8000400800100000;"]
    );
    let s = shared("0x0002400800100000");
    s.has_note("base is bits 49-51 of the word, here 1: 0 where swizzle is 0");
    assert_eq!(s.fixes()[0].1, "0\tmov.b64 b, 0x0000400800100000;");
    let s = shared("0x0100400800100000");
    assert_eq!(s.e.title, "the shared memory descriptor `b` has no reading: bit 56 set, which must be 0");
    assert_eq!(s.fixes()[0].1, "0\tmov.b64 b, 0x0000400800100000;");
    let s = shared("0x6000000800100000");
    assert_eq!(s.e.title, "the shared memory descriptor `b` has no reading: bits 46-48 hold 0 and swizzle is 3");
    assert_eq!(shared("0xFFFFFFFFFFFFFFFF").fixes(), []);
}

#[test]
fn exchanged_and_others() {
    let s = said(mma("0xFFFF", "0x08100010", F16, 256, DENSE), Reason::Descriptor);
    assert_eq!(s.label(), "operand a (64 bits): `b` is 0x0000000008100010");
    s.has_note("0x08100010 is a good instruction descriptor for this opcode; the operand idesc is `i`");
    s.has_note("`i` (idesc) has no reading either");
    assert_eq!((s.words().len(), s.fixes()), (1, vec![]));
}

/// A sheet with one load or store of 64 columns of `t`, and a wait for it by each warp, as a fix may change its warp.
fn access(line: &str, reason: Reason) -> Said {
    let kind = if line.contains(".st.") { "st" } else { "ld" };
    let waits = [0, 1, 2, 3].map(|warp| format!("{warp}\ttcgen05.wait::{kind}.sync.aligned;"));
    said(
        sheet(&[
            "0\ttcgen05.alloc.cta_group::1.sync.aligned.b32 [t], 64;",
            line,
            &waits.join("\n"),
            "0\ttcgen05.dealloc.cta_group::1.sync.aligned.b32 t, 64;",
        ]),
        reason,
    )
}

fn load(warp: u32, address: &str) -> String {
    format!("{warp}\ttcgen05.ld.sync.aligned.32x32b.x1.b32 {{r}}, {address};")
}

fn store(warp: u32, address: &str) -> String {
    format!("{warp}\ttcgen05.st.sync.aligned.16x64b.x1.b32 {address}, {{r}};")
}

#[test]
fn a_lane_that_is_lost() {
    let s = access(&load(1, "[t]"), Reason::Warp);
    assert_eq!(s.e.title, "warp 1 cannot load at lane 0: it has lanes 32 to 63");
    assert_eq!(s.label(), "lane 0, column 0 of `t`");
    s.has_note("`[t]` has no offset: lane 0, column 0");
    s.has_note("`.32x32b` takes 32 lanes; by warp 1 it starts at lane 32");
    assert_eq!(
        s.fixes(),
        [
            ("for lane 32 and column 0 write `[t+2097152]` (32 * 65,536 + 0)", load(1, "[t+2097152]")),
            ("if warp 0 is meant, which has lane 0, write it in the warp field", load(0, "[t]"))
        ]
    );
    let s = access(&load(3, "[ t + 2 ]"), Reason::Warp);
    s.has_note("the offset 2 is 0 * 65,536 + 2: lane 0, column 2");
    s.has_note("an offset below 65,536 is a column and no lane: lane 96 is 96 * 65,536 = 6,291,456");
    assert_eq!(s.fixes()[0].1, load(3, "[t+6291458]"));
}

#[test]
fn a_lane_written_as_a_column() {
    let s = access(&load(1, "[t+32]"), Reason::Warp);
    let lines: Vec<_> = s.fixes().into_iter().map(|fix| fix.1).collect();
    assert_eq!(lines, [load(1, "[t+2097184]"), load(1, "[t+2097152]"), load(0, "[t+32]")]);
    // past the 64 columns: neither that column nor warp 0 would do
    let lines: Vec<_> = access(&load(3, "[t+96]"), Reason::Warp).fixes().into_iter().map(|fix| fix.1).collect();
    assert_eq!(lines, [load(3, "[t+6291456]")]);
}

#[test]
fn lanes_of_another_warp_and_of_none() {
    let s = access(&store(2, "[t+1048577]"), Reason::Warp);
    assert_eq!(s.e.title, "warp 2 cannot store at lane 16: it has lanes 64 to 95");
    s.has_note("`.16x64b` takes 16 lanes; by warp 2 it starts at lane 64 or 80");
    let lines: Vec<_> = s.fixes().into_iter().map(|fix| fix.1).collect();
    assert_eq!(lines, [store(2, "[t+5242881]"), store(0, "[t+1048577]")]);
    let s = access(&store(2, "[t+4521985]"), Reason::Warp);
    assert_eq!(s.e.title, "warp 2 cannot store `.16x64b` at lane 69: it starts at lane 64 or 80");
    assert_eq!(s.fixes().len(), 1);
    let s = access(&load(0, "[t+1048577]"), Reason::Warp);
    assert_eq!(s.e.title, "warp 0 cannot load `.32x32b` at lane 16: it starts at lane 0");
    assert_eq!(s.fixes()[0].1, load(0, "[t+1]"));
    let s = access(&load(0, "[t+0xFFFF0000]"), Reason::Warp);
    s.has_note("there are 128 lanes, 0 to 127");
    assert_eq!(s.fixes().len(), 1);
}

#[test]
fn columns_past_the_end() {
    let line = |address: &str| format!("2\ttcgen05.ld.sync.aligned.16x64b.x8.b32 {{a, b, c, d, e, f, g, h}}, {address};");
    let s = access(&line("[t+4194364]"), Reason::Cells);
    assert_eq!(s.e.title, "this load takes columns 60 to 75 of `t`, which has 64: 0 to 63");
    assert_eq!(s.label(), "16 columns from column 60 on: 12 past the end of `t`");
    assert_eq!(s.related(), [(2, "64".into(), "`t` takes 64 columns here")]);
    s.has_note("`.16x64b.x8` takes 16 columns: 2 for each of x8");
    assert_eq!(s.fixes(), [("16 columns of `t` start at column 48 at the latest: write `[t+4194352]`", line("[t+4194352]"))]);
    assert_eq!(
        s.words(),
        [
            "take fewer: from column 60 on `.16x64b.x2` fits, 4 columns with 2 registers",
            "allocate more: 128 columns for `t`, in its alloc (line 2) and in its dealloc (line 8)"
        ]
    );
    let s = access(&load(0, "[t+64]"), Reason::Cells);
    assert_eq!(s.e.title, "this load takes column 64 of `t`, which has 64: 0 to 63");
    assert_eq!(s.label(), "1 column from column 64 on: past the end of `t`");
    assert_eq!(s.fixes()[0].0, "1 column of `t` starts at column 63 at the latest: write `[t+63]`");
    let s = access(&store(0, "[t+64]"), Reason::Cells);
    assert_eq!(s.label(), "2 columns from column 64 on: all of them past the end of `t`");
    // no allocation is so large
    assert_eq!(access(&load(0, "[t+512]"), Reason::Cells).words().len(), 0);
    let registers: Vec<_> = (0..128).map(|i| format!("r{i}")).collect();
    let wide = format!("0\ttcgen05.ld.sync.aligned.32x32b.x128.b32 {{{}}}, [t+448];", registers.join(", "));
    assert_eq!(access(&wide, Reason::Cells).words(), ["start at column 0, as `[t]`, and take at most 64 columns, or allocate 128"]);
}

/// A leading zero is said where it makes another number of the digits.
#[test]
fn octal_offsets() {
    let octal = |s: &Said| s.e.notes.iter().filter(|n| n.contains("octal")).cloned().collect::<Vec<_>>().join("\n");
    for (number, note) in [
        ("0100", "`0100` is octal for 64: a leading zero means octal"),
        (" 0200U ", "`0200U` is octal for 128: a leading zero means octal"),
        ("100", ""),
        ("0x40", ""),
        ("0b1000000", ""),
    ] {
        assert_eq!(octal(&access(&load(0, &format!("[t+{number}]")), Reason::Cells)), note, "{number}");
    }
    for (number, note) in [("010", "`010` is octal for 8: a leading zero means octal"), ("07", ""), ("00", ""), ("0", "")] {
        assert_eq!(octal(&access(&load(1, &format!("[t+{number}]")), Reason::Warp)), note, "{number}");
    }
    assert_eq!(octal(&access(&load(1, "[t]"), Reason::Warp)), "");
    assert_eq!(octal(&access(&load(0, "[t+(2*040)+0]"), Reason::Cells)), "`040` is octal for 32: a leading zero means octal");
    let s = said(mma("0x08100010", GOOD_B, F16, 256, "[d+0200000], b, b, i, p"), Reason::Cells);
    assert_eq!(octal(&s), "`0200000` is octal for 65536: a leading zero means octal");
}

/// Of an offset that is an expression its value is said wherever one points at it; an edit puts a number in its place.
#[test]
fn offsets_that_are_expressions() {
    let s = access(&load(0, "[t+(32*65536)+4]"), Reason::Warp);
    assert_eq!(s.label(), "lane 32, column 4 of `t`");
    s.has_note("the offset `(32*65536)+4` is 2097156, and that is 32 * 65,536 + 4: lane 32, column 4");
    let lines: Vec<_> = s.fixes().into_iter().map(|fix| fix.1).collect();
    assert_eq!(lines, [load(0, "[t+4]"), load(1, "[t+(32*65536)+4]")]);
    let s = access(&load(1, "[ t + 2 - 2 ]"), Reason::Warp);
    s.has_note("the offset `2 - 2` is 0, and that is 0 * 65,536 + 0: lane 0, column 0");
    assert_eq!(s.fixes()[0].1, load(1, "[t+2097152]"));
    let s = access(&load(0, "[t+32*2]"), Reason::Cells);
    s.has_note("the offset `32*2` is 64, and that is 0 * 65,536 + 64: lane 0, column 64");
    assert_eq!(s.fixes()[0].1, load(0, "[t+63]"));
    let s = said(mma("0x08000000+0x100010", GOOD_B, F16, 256, "[d], [d+(2*16)*65536+8], b, i, p"), Reason::Cells);
    assert_eq!(s.e.title, "operand a is at lane 32 of `d`; every address of an mma has lane 0");
    s.has_note("the offset `(2*16)*65536+8` is 2097160, and that is 32 * 65,536 + 8: lane 32, column 8");
    // a descriptor's number, too, is what its expression comes to
    let s = said(mma("0x08000000 + 0x400010", GOOD_B, F16, 128, DENSE), Reason::Cells);
    s.has_note("d takes N columns; N is 256, for bits 17-22 of 0x08400010 are 32");
    assert_eq!(s.related()[1], (2, "0x08000000 + 0x400010".into(), "idesc `i` gets N 256 here"));
    assert_eq!(s.fixes(), [("take N 128, which fits: move 0x08200010 to `i`", "0\tmov.b32 i, 0x08200010;".into())]);
}

#[test]
fn n_columns_of_d() {
    let s = said(mma("0x08400010", GOOD_B, F16, 128, DENSE), Reason::Cells);
    assert_eq!(s.e.title, "operand d takes columns 0 to 255 of `d`, which has 128: 0 to 127");
    assert_eq!(s.related(), [(4, "128".into(), "`d` takes 128 columns here"), (2, "0x08400010".into(), "idesc `i` gets N 256 here")]);
    s.has_note("d takes N columns; N is 256, for bits 17-22 of 0x08400010 are 32");
    assert_eq!(s.fixes(), [("take N 128, which fits: move 0x08200010 to `i`", "0\tmov.b32 i, 0x08200010;".into())]);
    assert_eq!(s.words(), ["allocate more: 256 columns for `d`, in its alloc (line 4) and in its dealloc (line 6)"]);
    let s = said(mma("0x08100010", GOOD_B, ".ws.cta_group::1.kind::f16", 32, DENSE), Reason::Cells);
    s.has_note("no N of `kind::f16` with `.ws` fits in 32 columns");
    let s = said(mma("0x08100010", GOOD_B, F16, 256, "[d+200], b, b, i, p"), Reason::Cells);
    assert_eq!(s.fixes()[0].1, "0\ttcgen05.mma.cta_group::1.kind::f16 [d+192], b, b, i, p;");
}

#[test]
fn columns_of_a_and_metadata() {
    let s = said(mma("0x08100010", GOOD_B, F16, 256, "[d], [d+250], b, i, p"), Reason::Cells);
    assert_eq!(s.e.title, "operand a takes columns 250 to 257 of `d`, which has 256: 0 to 255");
    s.has_note("a takes 8 columns in every mma");
    assert_eq!(s.fixes()[0].1, "0\ttcgen05.mma.cta_group::1.kind::f16 [d], [d+248], b, i, p;");
    let s = said(mma("0x08100014", GOOD_B, ".sp.cta_group::1.kind::f16", 256, "[d], b, b, [d+255], i, p"), Reason::Cells);
    assert_eq!(s.e.title, "operand metadata takes columns 255 to 256 of `d`, which has 256: 0 to 255");
    assert_eq!(s.fixes()[0].1, "0\ttcgen05.mma.sp.cta_group::1.kind::f16 [d], b, b, [d+254], i, p;");
}

#[test]
fn a_lane_in_an_mma() {
    let s = said(mma("0x08100010", GOOD_B, F16, 256, "[d], [d+2097160], b, i, p"), Reason::Cells);
    assert_eq!(s.e.title, "operand a is at lane 32 of `d`; every address of an mma has lane 0");
    assert_eq!(s.label(), "a: lane 32, column 8 of `d`");
    s.has_note("the offset 2097160 is 32 * 65,536 + 8: lane 32, column 8");
    assert_eq!(s.fixes(), [("for lane 0 and column 8 write `[d+8]`", "0\ttcgen05.mma.cta_group::1.kind::f16 [d], [d+8], b, i, p;".into())]);
    let s = said(mma("0x08100010", GOOD_B, F16, 256, "[d+2097360], b, b, i, p"), Reason::Cells);
    s.has_note("the columns do not fit either: 64 columns from column 208 on, of 256");
    assert_eq!(s.fixes()[0].0, "for lane 0 and column 192 write `[d+192]`");
    let s = said(mma("0x08400010", GOOD_B, F16, 128, "[d+2097152], b, b, i, p"), Reason::Cells);
    assert_eq!(s.words(), ["leave the lane out, as `[d]`, and take at most 128 columns"]);
}

/// Any words under any opcode, any offsets: something is said beyond the library's sentence, and the library was asked about each fix.
#[test]
fn any_words_and_offsets() {
    let mut seed = 5u64;
    let mut next = || {
        seed = seed.wrapping_mul(6_364_136_223_846_793_005).wrapping_add(1_442_695_040_888_963_407);
        seed >> 20
    };
    let mut seen = std::collections::BTreeSet::new();
    for _ in 0..4_000 {
        let kind = ["f16", "tf32", "f8f6f4", "i8"][next() as usize % 4];
        let (ws, sp) = ([".ws", ""][next() as usize % 2], [".sp", ""][next() as usize % 2]);
        let typed = if kind == "tf32" { 0x0810_0910 } else { 0x0810_0010 } | u64::from(!sp.is_empty()) << 2;
        let word = (0..next() % 3).fold(typed, |w, _| w ^ 1 << (next() % 32)) as u32;
        let b = (0..next() / 7 % 2).fold(0x0000_4008_0010_0000u64, |w, _| w ^ 1 << (next() % 64));
        let offset = [0, 8, 200, 0x0010_0000][next() as usize % 4] + next() % 3 * 100;
        let operands = if sp.is_empty() { format!("[d+{offset}], b, b, i, p") } else { format!("[d], b, b, [d+{offset}], i, p") };
        let bytes = mma(&word.to_string(), &b.to_string(), &format!("{ws}{sp}.cta_group::1.kind::{kind}"), 128, &operands);
        let e = explain(&bytes, bytes.len());
        let Some(reason) = e.answer.reason else { continue };
        seen.insert(reason.number());
        assert_ne!(e.title, reason.to_string());
        assert!(!e.helps.is_empty(), "{}", String::from_utf8_lossy(&bytes));
        for edit in e.helps.iter().filter_map(|h| h.edit.as_ref()) {
            let new = commands::explain::answer_of(&Sheet::new(&bytes).edited(edit));
            assert_ne!((new.reason, new.line, new.column), (e.answer.reason, e.answer.line, e.answer.column));
        }
    }
    assert_eq!(seen.into_iter().collect::<Vec<_>>(), [12, 13, 14, 20, 21]);
}
