//! The wrapper gives the library's answers, and leaves lent places alone where it must.

use staplehorn::{canonical, judge, judge_into, report, request, statement, version};
use staplehorn::{Answer, Holder, InstructionFields, Kind, Matrix, Opcode, Passed, Place, Reason, Refused, RefusedStatement};
use staplehorn::{SharedFields, MOST_ALLOCS};

const PASSED: &[u8] = include_bytes!("../../crates/foot/stdin");
const PRINTED: &[u8] = include_bytes!("../../crates/foot/stdout");
const LEAK: &[u8] = include_bytes!("../../examples/leak.sheet");

#[test]
fn a_pass_has_its_starts() {
    assert_eq!(judge(PASSED), Ok(Passed { line: 10, peak: 96, starts: vec![0, 64, 0] }));
    let mut starts = [7; 5];
    assert_eq!(judge_into(PASSED, &mut starts), Answer { reason: None, line: 10, column: 0, held: 0, peak: 96, starts: 3 });
    assert_eq!(starts, [0, 64, 0, 7, 7]);
}

#[test]
fn as_many_starts_as_a_sheet_has_lines() {
    let alloc = "0\ttcgen05.alloc.cta_group::1.sync.aligned.b32 [a], 32;\n0\ttcgen05.dealloc.cta_group::1.sync.aligned.b32 a, 32;\n";
    let sheet = format!("sheet\t1\tsm_100a\n{}0\texit;\n", alloc.repeat(590));
    assert_eq!(judge(sheet.as_bytes()), Ok(Passed { line: 1182, peak: 32, starts: vec![0; 590] }));
}

#[test]
fn a_refusal_writes_nothing() {
    let mut starts = [7; MOST_ALLOCS];
    let leak = Refused { reason: Reason::Exit, line: 6, column: 1, held: 32, peak: 96 };
    assert_eq!(judge(LEAK), Err(leak));
    assert_eq!(leak.to_string(), "line 6, column 1: exit while columns are held, a line after exit, or no exit");
    let exit = Answer { reason: Some(Reason::Exit), line: 6, column: 1, held: 32, peak: 96, starts: 0 };
    assert_eq!(judge_into(LEAK, &mut starts), exit);
    let short = Answer { reason: Some(Reason::Starts), line: 10, column: 1, held: 0, peak: 96, starts: 0 };
    assert_eq!(judge_into(PASSED, &mut starts[..2]), short);
    let empty = Answer { reason: Some(Reason::Layout), line: 1, column: 1, held: 0, peak: 0, starts: 0 };
    assert_eq!(judge_into(b"", &mut []), empty);
    let large = Refused { reason: Reason::Size, line: 0, column: 0, held: 0, peak: 0 };
    assert_eq!(judge(&[b'x'; 65_537]), Err(large));
    assert_eq!(large.to_string(), "the sheet has over 65,536 bytes or 4,096 lines");
    assert_eq!(starts, [7; MOST_ALLOCS]);
}

/// Columns given back while a load or a store of any warp is outstanding; only a wait of that warp and kind ends it.
#[test]
fn given_back_too_early() {
    let sheet = |lines: &str| {
        let (alloc, dealloc) = ("tcgen05.alloc.cta_group::1.sync.aligned.b32 [t]", "tcgen05.dealloc.cta_group::1.sync.aligned.b32 t");
        judge(format!("sheet\t1\tsm_100a\n0\t{alloc}, 32;\n{lines}0\t{dealloc}, 32;\n0\texit;\n").as_bytes())
    };
    let (load, store) =
        ("tcgen05.ld.sync.aligned.32x32b.x1.b32 {r}, [t+2097152];", "tcgen05.st.sync.aligned.32x32b.x1.b32 [t+2097152], {r};");
    let refused = |line: u32| Err(Refused { reason: Reason::Outstanding, line, column: 3, held: 32, peak: 32 });
    let passed = |line: u32| Ok(Passed { line, peak: 32, starts: vec![0] });
    for (statement, kind, other) in [(load, "ld", "st"), (store, "st", "ld")] {
        let wait = |warp: u32, kind: &str| format!("1\t{statement}\n{warp}\ttcgen05.wait::{kind}.sync.aligned;\n");
        assert_eq!(sheet(&format!("1\t{statement}\n")), refused(4));
        assert_eq!(sheet(&wait(1, kind)), passed(6));
        assert_eq!((sheet(&wait(0, kind)), sheet(&wait(1, other))), (refused(5), refused(5)));
        assert_eq!(sheet(&format!("1\t{statement}\n{}", wait(1, kind))), passed(7));
    }
    let text = sheet(&format!("1\t{load}\n")).unwrap_err().to_string();
    assert_eq!(text, "line 4, column 3: dealloc while a load or store of any warp is outstanding on its allocation");
}

#[test]
fn reports_are_those_of_foot() {
    assert_eq!(report(PASSED).text, PRINTED);
    assert_eq!(report(PASSED).reason, None);
    assert_eq!(report(LEAK).text, b"15\t6\t1\t32\t96\n");
    assert_eq!(report(LEAK).reason, Some(Reason::Exit));
    assert_eq!(report(&[b'x'; 65_537]).text, b"1\t0\t0\t0\t0\n");
}

#[test]
fn statements() {
    assert_eq!(canonical(b"mov.b32  x ,0x10 ;").unwrap(), b"mov.b32 x, 16;");
    assert_eq!(canonical(b"mov.b32 x, 010U;").unwrap(), b"mov.b32 x, 8;");
    assert_eq!(canonical(b"mov.b32 x, - (3 - 0x10)*2;").unwrap(), b"mov.b32 x, 26;");
    assert_eq!(
        canonical(b"tcgen05.st.sync.aligned.32x32b.x1.b32 [t+2-2], {r};").unwrap(),
        b"tcgen05.st.sync.aligned.32x32b.x1.b32 [t], {r};"
    );
    assert_eq!(canonical(b"mov.b32 x, 4294967296;"), Err(Reason::Number));
    assert_eq!(statement(b"exit;"), Ok(()));
    // more than 4,096 bytes that would read: one past the end
    let long = format!("mov.b32 x,{}64;", " ".repeat(4_084));
    for (text, reason, column) in [
        ("exit", Reason::Form, 5),
        ("", Reason::Form, 1),
        (" exit;", Reason::Form, 1),
        ("exit; ", Reason::Form, 6),
        ("mov.b32 x, 4294967296;", Reason::Number, 12),
        ("mov.b32 x, 1-2;", Reason::Number, 12),
        ("mov.b32 x, 4294967296*4294967296*0;", Reason::Number, 12),
        ("mov.b32 x, 1+;", Reason::Form, 14),
        ("mov.b32 x, (((((((((((((((((1)))))))))))))))));", Reason::Form, 28),
        ("tcgen05.ld.sync.aligned.32x32b.x2.b32 {r}, [t];", Reason::Registers, 1),
        (&long, Reason::Form, 4_098),
    ] {
        assert_eq!(statement(text.as_bytes()), Err(RefusedStatement { reason, column }), "{text}");
    }
    assert_eq!(statement(b"exit").unwrap_err().to_string(), "column 5: the statement matches no form");
}

/// In a line of a sheet a statement has its column two higher: the warp and the tab stand before it.
#[test]
fn columns_in_a_line() {
    for text in ["exit", " exit;", "exit; ", "mov.b32 x, 08;", "mov.b32 x, 4294967296;", "tcgen05.ld.sync.aligned.32x32b.x2.b32 {r}, [t];"]
    {
        let alone = statement(text.as_bytes()).unwrap_err();
        let line = judge(format!("sheet\t1\tsm_100a\n3\t{text}\n").as_bytes()).unwrap_err();
        assert_eq!((line.reason, line.line, line.column as usize), (alone.reason, 2, alone.column + 2), "{text}");
    }
}

#[test]
fn words() {
    let dense = Opcode { kind: Kind::F16, ws: false, sp: false };
    let fields = InstructionFields { dtype: 1, n: 64, m: 128, ..Default::default() };
    assert_eq!(dense.decode(0x0810_0010), Ok(fields));
    assert_eq!(dense.encode(fields), Ok(0x0810_0010));
    assert_eq!(dense.listed(fields), Ok(()));
    assert_eq!(dense.encode(InstructionFields { n: 7, ..fields }), Err(Reason::Descriptor));
    assert_eq!(dense.decode(1), Err(Reason::Descriptor));
    let i8 = Opcode { kind: Kind::I8, ws: false, sp: false };
    assert_eq!(i8.judge(0x080A_00A0), Err(Reason::ShapeN));
    assert_eq!(i8.listed(i8.decode(0x080A_00A0).unwrap()), Err(Reason::ShapeN));
    // M, N and types; N and types; types
    assert_eq!(dense.judge(0x0C00_0020), Err(Reason::ShapeM));
    assert_eq!(dense.judge(0x0800_0020), Err(Reason::ShapeN));
    assert_eq!(dense.judge(0x0810_0020), Err(Reason::Types));
    assert_eq!(Opcode { kind: Kind::Tf32, ws: false, sp: true }.k(), 16);
    let shared = SharedFields { leading: 256, stride: 128, ..Default::default() };
    assert_eq!(SharedFields::decode(0x0000_4008_0010_0000), Ok(shared));
    assert_eq!(shared.encode(), Ok(0x0000_4008_0010_0000));
    assert_eq!(SharedFields::decode(0), Err(Reason::Descriptor));
    assert_eq!((request(32), request(96)), (Ok(()), Err(Reason::Columns)));
}

/// With `.ws` and `.sp` N is 64 or 128 in each kind; with one of them it may be 256. The word reads and is written either way.
#[test]
fn sparse_ws_takes_no_n_256() {
    for (kind, dtype, code, types) in
        [(Kind::F16, 1, 0, 0x10), (Kind::Tf32, 1, 2, 0x910), (Kind::F8f6f4, 1, 0, 0x10), (Kind::I8, 2, 0, 0x20)]
    {
        for (ws, sp, n, shape, expected) in [
            (true, true, 64, 0x0810_0004, Ok(())),
            (true, true, 128, 0x0820_0004, Ok(())),
            (true, true, 256, 0x0840_0004, Err(Reason::ShapeN)),
            (true, false, 256, 0x0840_0000, Ok(())),
            (false, true, 256, 0x0840_0004, Ok(())),
        ] {
            let (o, word) = (Opcode { kind, ws, sp }, shape | types);
            let fields = InstructionFields { sparse: sp, dtype, atype: code, btype: code, n, m: 128, ..Default::default() };
            assert_eq!((o.judge(word), o.listed(fields)), (expected, expected), "{o:?} {n}");
            assert_eq!((o.decode(word), o.encode(fields)), (Ok(fields), Ok(word)), "{o:?} {n}");
        }
    }
    let sheet = "sheet\t1\tsm_100a\n0\ttcgen05.alloc.cta_group::1.sync.aligned.b32 [t], 512;\n0\tmov.b64 b, 0x400800100000;\n\
                 0\tmov.b32 i, 0x08400014;\n0\ttcgen05.mma.ws.sp.cta_group::1.kind::f16 [t], b, b, [t], i, p;\n\
                 0\ttcgen05.dealloc.cta_group::1.sync.aligned.b32 t, 512;\n0\texit;\n";
    let passed = Ok(Passed { line: 7, peak: 512, starts: vec![0] });
    let refused = Refused { reason: Reason::ShapeN, line: 5, column: 60, held: 512, peak: 512 };
    assert_eq!(judge(sheet.as_bytes()), Err(refused));
    assert_eq!(judge(sheet.replace("0x084", "0x082").as_bytes()), passed);
    let dense = sheet.replace("0x08400014", "0x08400010").replace(".sp", "").replace("[t], i", "i");
    assert_eq!(judge(dense.as_bytes()), passed);
}

/// Each field by itself keeps its place: the word of a field's value has it in that field's bits, and reads as the same fields.
#[test]
fn every_field_has_its_place() {
    let sparse = Opcode { kind: Kind::F8f6f4, ws: true, sp: true };
    let zero = InstructionFields { sparse: true, ..Default::default() };
    for (fields, bit) in [
        (InstructionFields { selector: 1, ..zero }, 0),
        (InstructionFields { dtype: 1, ..zero }, 4),
        (InstructionFields { atype: 1, ..zero }, 7),
        (InstructionFields { btype: 1, ..zero }, 10),
        (InstructionFields { negate_a: true, ..zero }, 13),
        (InstructionFields { negate_b: true, ..zero }, 14),
        (InstructionFields { transpose_a: true, ..zero }, 15),
        (InstructionFields { transpose_b: true, ..zero }, 16),
        (InstructionFields { n: 8, ..zero }, 17),
        (InstructionFields { m: 16, ..zero }, 24),
        (InstructionFields { max_shift: 1, ..zero }, 30),
    ] {
        assert_eq!(sparse.encode(fields), Ok(1 << 2 | 1 << bit), "{fields:?}");
        assert_eq!(sparse.decode(1 << 2 | 1 << bit), Ok(fields));
    }
    let i8 = Opcode { kind: Kind::I8, ws: false, sp: false };
    assert_eq!(i8.encode(InstructionFields { saturate: true, ..Default::default() }), Ok(1 << 3));
    for (fields, bit) in [
        (SharedFields { start: 16, ..Default::default() }, 0),
        (SharedFields { leading: 16, ..Default::default() }, 16),
        (SharedFields { stride: 16, ..Default::default() }, 32),
        (SharedFields { mode: 1, ..Default::default() }, 52),
        (SharedFields { swizzle: 1, ..Default::default() }, 61),
    ] {
        assert_eq!(fields.encode(), Ok(1 << 46 | 1u64 << bit), "{fields:?}");
        assert_eq!(SharedFields::decode(1 << 46 | 1u64 << bit), Ok(fields));
    }
    assert_eq!(SharedFields { base: 1, swizzle: 2, ..Default::default() }.encode(), Ok(1 << 46 | 1 << 49 | 2 << 61));
}

/// An element of each pair of registers, worked out by hand, and the way back.
#[test]
fn where_an_element_stands() {
    for (matrix, thread, element, row, column) in [
        (Matrix::A, 0, 0, 0, 0),
        (Matrix::A, 5, 1, 1, 3),
        (Matrix::A, 5, 3, 9, 3),
        (Matrix::A, 5, 4, 1, 10),
        (Matrix::A, 6, 6, 9, 12),
        (Matrix::A, 31, 7, 15, 15),
        (Matrix::B, 0, 0, 0, 0),
        (Matrix::B, 7, 1, 7, 1),
        (Matrix::B, 14, 2, 12, 3),
        (Matrix::B, 31, 3, 15, 7),
        (Matrix::C, 0, 0, 0, 0),
        (Matrix::C, 7, 1, 1, 7),
        (Matrix::C, 14, 2, 11, 4),
        (Matrix::C, 31, 3, 15, 7),
    ] {
        assert_eq!(matrix.place(thread, element), Ok(Place { row, column }), "{matrix:?} {thread} {element}");
        assert_eq!(matrix.holder(row, column), Ok(Holder { thread, element }), "{matrix:?} {row} {column}");
    }
}

/// Every element is found where it stands, every place is some element's, and one past each limit is refused.
#[test]
fn fragments_have_every_place_once() {
    for (matrix, elements, columns) in [(Matrix::A, 8, 16), (Matrix::B, 4, 8), (Matrix::C, 4, 8)] {
        let mut places = Vec::new();
        for (thread, element) in (0..40).flat_map(|t| (0..20).map(move |e| (t, e))) {
            let place = matrix.place(thread, element);
            assert_eq!(place.err(), (thread >= 32 || element >= elements).then_some(Reason::Fragment), "{matrix:?} {thread} {element}");
            if let Ok(Place { row, column }) = place {
                assert_eq!(matrix.holder(row, column), Ok(Holder { thread, element }), "{matrix:?} {row} {column}");
                places.push((row, column));
            }
        }
        places.sort_unstable();
        assert_eq!(places, (0..16).flat_map(|r| (0..columns).map(move |c| (r, c))).collect::<Vec<_>>(), "{matrix:?}");
        for (row, column) in (0..20).flat_map(|r| (0..20).map(move |c| (r, c))) {
            let refused = (row >= 16 || column >= columns).then_some(Reason::Fragment);
            assert_eq!(matrix.holder(row, column).err(), refused, "{matrix:?} {row} {column}");
        }
        // no number is cut to 8 or 16 bits
        for (first, second) in [(u32::MAX, u32::MAX), (256, 0), (0, 256), (65_536, 0), (0, 65_536)] {
            assert_eq!(matrix.place(first, second), Err(Reason::Fragment));
            assert_eq!(matrix.holder(first, second), Err(Reason::Fragment));
        }
    }
}

#[test]
fn reasons_have_numbers_and_words() {
    for number in 1..40 {
        let reason = Reason::from_number(number).unwrap();
        assert_eq!(reason.number(), number);
        let known = matches!(number, 1..=16 | 18..=22);
        assert_eq!(matches!(reason, Reason::Other(_)), !known);
        assert_eq!(reason.to_string() == format!("reason {number}"), !known);
    }
    assert_eq!(Reason::from_number(0), None);
}

#[test]
fn the_version_is_the_crates() {
    let text = format!("{}.{}.{}", version() / 10_000, version() / 100 % 100, version() % 100);
    assert_eq!(text, env!("CARGO_PKG_VERSION"));
}
