//! Reasons 3, 4 and 5: what is said of a statement that matches no form, of a number that is too large and of a count of registers. Each
//! statement stands in a sheet that passes with the statement that is offered.

use commands::explain::{answer_of, explain, Explanation};
use commands::sheet::Sheet;

/// A sheet with a statement in line 6, in which most statements pass.
fn sheet(statement: &str) -> Vec<u8> {
    let taken =
        if statement.contains("dealloc") { "0\ttcgen05.alloc.cta_group::1.sync.aligned.b32 [v], 64;\n" } else { "0\tmov.b32 x, 1;\n" };
    let given = if statement.contains("loc.") { "0\ttcgen05.dealloc.cta_group::1.sync.aligned.b32 v, 64;\n" } else { "" };
    let given = if statement.contains("dealloc") { "" } else { given };
    let end = if statement.contains("exit") { "" } else { "0\texit;\n" };
    let (before, after) = if end.is_empty() { (FREED, "") } else { ("", FREED) };
    format!(
        "sheet\t1\tsm_100a\n0\tmov.b32 i, 0x08100010;\n0\tmov.b64 b, 0x0000400800100000;\n{TAKEN}{taken}{before}0\t{statement}\n{given}{after}{end}"
    )
    .into_bytes()
}

const TAKEN: &str = "0\ttcgen05.alloc.cta_group::1.sync.aligned.b32 [t], 128;\n";
const FREED: &str = "0\ttcgen05.wait::ld.sync.aligned;\n0\ttcgen05.wait::st.sync.aligned;\n\
    0\ttcgen05.dealloc.cta_group::1.sync.aligned.b32 t, 128;\n";

fn said(statement: &str) -> Explanation {
    let bytes = sheet(statement);
    let e = explain(&bytes, bytes.len());
    assert!(!e.title.is_empty() && e.primary.is_some(), "{statement}");
    e
}

fn reason(e: &Explanation) -> u32 {
    e.answer.reason.map_or(0, |reason| reason.number())
}

/// The statement of the first fix, after the sheet with it has passed.
fn fixed(statement: &str, e: &Explanation) -> Option<String> {
    let bytes = sheet(statement);
    let all = Sheet::new(&bytes);
    let edit = e.helps.iter().find_map(|help| help.edit.as_ref())?;
    let new = all.edited(edit);
    let then = answer_of(&new);
    assert_eq!(then.reason, None, "{statement}: {}", String::from_utf8_lossy(&new));
    Some(String::from_utf8_lossy(Sheet::new(&new).statement(edit.line)).into_owned())
}

fn check(rows: &[(&str, &str, Option<&str>)]) {
    for (statement, title, right) in rows {
        let e = said(statement);
        assert_eq!((reason(&e), e.title.as_str()), (3, *title), "{statement}");
        assert_eq!(fixed(statement, &e).as_deref(), *right, "{statement}");
    }
}

fn help_of(statement: &str) -> String {
    said(statement).helps.iter().map(|help| help.text.clone()).collect::<Vec<_>>().join("\n")
}

fn notes_of(statement: &str) -> String {
    said(statement).notes.join("\n")
}

#[test]
fn ends_of_statements() {
    check(&[
        ("exit", "the `;` at the end of the statement is missing", Some("exit;")),
        ("exit  ", "the `;` at the end of the statement is missing", Some("exit;")),
        ("mov.b32 x, 1", "the `;` at the end of the statement is missing", Some("mov.b32 x, 1;")),
        ("exit; ", "a space stands after the `;`", Some("exit;")),
        ("exit;   ", "3 spaces stand after the `;`", Some("exit;")),
        ("exit;;", "a second `;` stands at the end", Some("exit;")),
        ("exit; exit;", "something stands after the `;`: a line has one statement", None),
        ("exit; now", "something stands after the `;`: a line has one statement", Some("exit;")),
        (" exit;", "a space stands before the opcode", Some("exit;")),
        ("   exit;", "3 spaces stand before the opcode", Some("exit;")),
    ]);
    assert_eq!(help_of("mov.b32 x, 1; mov.b32 y, 2;"), "write it on the next line: `0<TAB>mov.b32 y, 2;`");
}

#[test]
fn comments_and_guards() {
    let comment = "a comment stands in the line; comments may not stand in a sheet";
    check(&[
        ("exit; // done", comment, Some("exit;")),
        ("exit; /* done */", comment, Some("exit;")),
        ("exit; # done", comment, Some("exit;")),
        ("exit // done", comment, Some("exit;")),
        ("/* a */ mov.b32 y, 1;", comment, Some("mov.b32 y, 1;")),
        ("mov.b32 y, /* a */ 1;", comment, Some("mov.b32 y, 1;")),
        ("@p mov.b32 y, 1;", "the statement has a guard, `@p`; guards may not stand in a sheet", Some("mov.b32 y, 1;")),
        ("@!%p1 exit;", "the statement has a guard, `@!%p1`; guards may not stand in a sheet", Some("exit;")),
        ("@p add.s32 r, r, 1;", "the statement has a guard, `@p`; guards may not stand in a sheet", None),
    ]);
    let either =
        |mark: &str| format!("`{mark}` stands between numbers: it may begin a comment or be meant as a division, and neither is taken");
    check(&[
        ("mov.b32 y, 64//2;", &either("//"), None),
        ("mov.b32 y, 64 /*2;", &either("/*"), None),
        ("mov.b32 y, 64 /*2*/;", comment, Some("mov.b32 y, 64;")),
        ("mov.b32 y, 64 // two", comment, Some("mov.b32 y, 64;")),
        ("mov.b32 y, 64; // 2", comment, Some("mov.b32 y, 64;")),
    ]);
    let out = "if a comment is meant, take the `//` and what stands behind it out";
    assert_eq!(help_of("mov.b32 y, 2+64//2;"), format!("if a division is meant, write what it comes to, 34\n{out}"));
    assert_eq!(help_of("mov.b32 y, 7//2;"), format!("if a division is meant: 7/2 is not a whole number\n{out}"));
    assert!(help_of("@p mov.b32 y, 1;").ends_with("take the line out if it is not executed"));
    // a line that is nothing else is taken out
    for statement in ["// a", "# a", "/* a */", ""] {
        let (bytes, e) = (sheet(statement), said(statement));
        let edit = e.helps[0].edit.as_ref().unwrap_or_else(|| panic!("{statement}"));
        let new = Sheet::new(&bytes).edited(edit);
        assert_eq!((answer_of(&new).reason, Sheet::new(&new).count()), (None, Sheet::new(&bytes).count() - 1), "{statement}");
    }
    assert_eq!(said("").title, "the statement is empty");
}

#[test]
fn opcodes() {
    check(&[
        (
            "tcgen05.ld.sync.aligned.32x32b.x3.b32 {a, b, c, d}, [t];",
            "no form has this opcode: `.x3` stands where `.x4` could stand",
            Some("tcgen05.ld.sync.aligned.32x32b.x4.b32 {a, b, c, d}, [t];"),
        ),
        (
            "tcgen05.ld.sync.aligned.32x32b.b32 {a, b}, [t];",
            "no form has this opcode: `.x2` is missing",
            Some("tcgen05.ld.sync.aligned.32x32b.x2.b32 {a, b}, [t];"),
        ),
        (
            "tcgen05.aloc.cta_group::1.sync.aligned.b32 [v], 64;",
            "no form has this opcode: `.aloc` stands where `.alloc` could stand",
            Some("tcgen05.alloc.cta_group::1.sync.aligned.b32 [v], 64;"),
        ),
        (
            "tcgen05.alloc.sync.aligned.cta_group::1.b32 [v], 64;",
            "no form has this opcode: `.sync.aligned.cta_group::1` must stand in the order `.cta_group::1.sync.aligned`",
            Some("tcgen05.alloc.cta_group::1.sync.aligned.b32 [v], 64;"),
        ),
        ("mov.u32 y, 1;", "no form has this opcode: `.u32` stands where `.b32` could stand", Some("mov.b32 y, 1;")),
        ("MOV.B32 y, 1;", "no form has this opcode: `MOV.B32` stands where `mov.b32` could stand", Some("mov.b32 y, 1;")),
        ("exitt;", "no form has this opcode: `exitt` stands where `exit` could stand", Some("exit;")),
        ("mov.b32y, 1;", "a space is missing after the opcode `mov.b32`", Some("mov.b32 y, 1;")),
        ("tcgen05.wait::ld.sync;", "no form has this opcode: `.aligned` is missing", Some("tcgen05.wait::ld.sync.aligned;")),
        ("tcgen05.wait::ld-.sync.aligned;", "a `-` stands in the opcode", Some("tcgen05.wait::ld.sync.aligned;")),
        ("tcgen05.wait:: ld.sync.aligned;", "a ` ` stands in the opcode", Some("tcgen05.wait::ld.sync.aligned;")),
        ("-exit;", "a `-` stands before the opcode", Some("exit;")),
        ("tcgen05.f,nce;", "no form has the opcode `tcgen05.f`", None),
        ("tcgen05.commit.cta_group::1.b64 [m];", "`tcgen05.commit` is not part of a sheet", None),
        ("tcgen05.cp.cta_group::1.128x256b [t], s;", "`tcgen05.cp` is not part of a sheet", None),
        ("tcgen05.shift.cta_group::1.down [t];", "`tcgen05.shift` is not part of a sheet", None),
        ("bra LOOP;", "`bra` is not part of a sheet", None),
        ("ret;", "`ret` is not part of a sheet", None),
        ("LOOP:", "the label `LOOP:` is not part of a sheet", None),
        ("add.s32 r, r, 1;", "`add.s32` is not part of a sheet", None),
        ("{", "`{` begins no statement", None),
        (
            "tcgen05.mma.cta_group::1.kind::mxf8f6f4.block_scale [t], b, b, i, [t], [t], p;",
            "`.kind::mxf8f6f4.block_scale` is not part of any form: block-scaled kinds are not read in this version",
            None,
        ),
        (
            "tcgen05.alloc.cta_group::2.sync.aligned.b32 [v], 64;",
            "`.cta_group::2` is not part of any form: a sheet is for one CTA, so `.cta_group::1` alone is read",
            None,
        ),
        (
            "tcgen05.ld.sync.aligned.32x32b.x1.pack::16b.b32 {r}, [t];",
            "`.pack::16b` is not part of any form: `.pack` is not read in this version",
            None,
        ),
    ]);
    let three = "tcgen05.ld.sync.aligned.32x32b.x3.b32 {a, b, c}, [t];";
    assert!(help_of(three).starts_with("write `.x3` as 2 statements: `.x2` and `.x1`\n"));
    assert!(notes_of(three).contains("`.x1`, `.x2`, `.x4`, `.x8`, `.x16`, `.x32`, `.x64` or `.x128`"));
    assert!(notes_of("tcgen05.mma.cta_group::1.kind::f64 [t], b, b, i, p;").contains("`.kind::f16`, `.kind::tf32`"));
    assert!(notes_of("tcgen05.ld.sync.aligned.64x32b.x1.b32 {a}, [t];").contains("the shape is `.32x32b`, `.16x64b`"));
    assert_eq!(help_of("add.s32 r, r, 1;"), "leave the line out");
    assert!(help_of("ret;").contains("`exit;`"));
}

#[test]
fn marks_between_operands() {
    let ld = |rest: &str| format!("tcgen05.ld.sync.aligned.32x32b.x2.b32 {rest};");
    let right = ld("{r, s}, [t]");
    let rows: [(&str, &str); 9] = [
        ("{r s}, [t]", "a `,` is missing before `s`"),
        ("{r, s} [t]", "a `,` is missing before `[`"),
        ("r, s, [t]", "the braces around the registers are missing"),
        ("{r, s}, t", "the brackets around the address are missing"),
        ("[t], {r, s}", "the operands are exchanged: a load has its registers first"),
        ("{r, s}, [t", "the `]` is missing"),
        ("{r, s, [t]", "the `}` is missing"),
        ("{r, s,}, [t]", "a `,` stands before `}`, and nothing between them"),
        ("{r,, s}, [t]", "a `,` stands before `,`, and nothing between them"),
    ];
    for (rest, title) in rows {
        check(&[(&ld(rest), title, Some(&right))]);
    }
    let mma = "tcgen05.mma.cta_group::1.kind::f16 [t], b, b, i, p;";
    check(&[
        ("mov.b32 y 1;", "a `,` is missing before `1`", Some("mov.b32 y, 1;")),
        ("mov.b32 y = 1;", "`=` stands where `,` must stand", Some("mov.b32 y, 1;")),
        (
            "tcgen05.alloc.cta_group::1.sync.aligned.b32 [v]64;",
            "a `,` is missing before `64`",
            Some("tcgen05.alloc.cta_group::1.sync.aligned.b32 [v], 64;"),
        ),
        ("tcgen05.mma.cta_group::1.kind::f16 [t], b b, i, p;", "a `,` is missing before `b`", Some(mma)),
        ("tcgen05.mma.cta_group::1.kind::f16 t, b, b, i, p;", "the brackets around the address are missing", Some(mma)),
        ("tcgen05.mma.cta_group::1.kind::f16 [t], b, [b], i, p;", "an address stands where a name alone must stand", Some(mma)),
        (
            "tcgen05.mma.cta_group::1.kind::f16 [t], b, b, i, p, 4;",
            "6 operands are given, 1 too many: this mma takes d, a, b, idesc and the predicate",
            Some(mma),
        ),
        (
            "tcgen05.mma.sp.cta_group::1.kind::f16 [t], b, b, i, p;",
            "the metadata is missing: with `.sp` operand 4 is its address",
            Some(mma),
        ),
        (
            "tcgen05.dealloc.cta_group::1.sync.aligned.b32 [v], 64;",
            "an address stands where a name alone must stand",
            Some("tcgen05.dealloc.cta_group::1.sync.aligned.b32 v, 64;"),
        ),
        (
            "tcgen05.alloc.cta_group::1.sync.aligned.b32 [v+0], 64;",
            "the address of an alloc has an offset; it has none, not even `+0`",
            Some("tcgen05.alloc.cta_group::1.sync.aligned.b32 [v], 64;"),
        ),
        ("tcgen05.mma.cta_group::1.kind::f16 [t], b, [b, i, p;", "an address stands where a name alone must stand", Some(mma)),
        ("exit%;", "`%` stands where the statement must end", Some("exit;")),
        ("exit 1;", "`1` stands where the statement must end", Some("exit;")),
    ]);
    check(&[(&ld("{r, s}, [t 4]"), "a `+` is missing before `4`", Some(&ld("{r, s}, [t+ 4]")))]);
    check(&[(
        "tcgen05.st.sync.aligned.32x32b.x1.b32 {r}, [t];",
        "the operands are exchanged: a store has its address first",
        Some("tcgen05.st.sync.aligned.32x32b.x1.b32 [t], {r};"),
    )]);
}

#[test]
fn metadata_of_a_dense_mma() {
    let statement = "tcgen05.mma.cta_group::1.kind::f16 [t], b, b, [t], i, p;";
    let e = said(statement);
    assert_eq!(e.title, "an address stands where idesc must stand: only an mma with `.sp` has metadata");
    let texts: Vec<_> = e.helps.iter().map(|help| (help.text.as_str(), help.edit.is_some())).collect();
    assert_eq!(texts, [("if the mma is dense, take the metadata out", true), ("if the mma is sparse, write it with `.sp`", false)]);
    // the word is that of a dense mma
    assert_eq!(fixed(statement, &e).as_deref(), Some("tcgen05.mma.cta_group::1.kind::f16 [t], b, b, i, p;"));
    // an address behind idesc is none in its place
    assert_eq!(said("tcgen05.mma.cta_group::1.kind::f16 [t], b, b, i[t], p;").title, "`[` stands where `,` must stand");
}

#[test]
fn operands_that_are_missing() {
    check(&[
        ("mov.b32 x;", "the statement ends too early: operand 2 is missing (the number to move)", None),
        ("mov.b32 x", "the statement is not whole: operand 2 is missing (the number to move)", None),
        ("mov.b32 x,", "the statement is not whole: operand 2 is missing (the number to move)", None),
        ("mov.b32;", "the statement ends too early: operand 1 is missing (a name)", None),
        ("mov.b32 x, ;", "a `,` stands before `;`, and nothing between them", None),
        (
            "tcgen05.mma.cta_group::1.kind::f16 [t], b, b, i;",
            "4 of 5 operands are given: this mma takes d, a, b, idesc and the predicate",
            None,
        ),
        (
            "tcgen05.alloc.cta_group::1.sync.aligned.b32 [v];",
            "the statement ends too early: operand 2 is missing (the number of columns)",
            None,
        ),
        ("tcgen05.ld.sync.aligned.32x32b.x1.b32 {}, [t];", "the list of registers is empty", None),
        ("tcgen05.ld.sync.aligned.32x32b.x1.b32 {r}, [];", "the brackets are empty", None),
    ]);
    assert_eq!(notes_of("mov.b32 x;"), "what could stand there: `,`, as in `mov.b32 x, 1;`");
    assert_eq!(
        notes_of("tcgen05.ld.sync.aligned.16x256b.x2.b32 {r} ; [t];"),
        "what could stand there: `,`, as in `tcgen05.ld.sync.aligned.16x256b.x2.b32 {r0, r1, .., r7}, [t+32];`"
    );
    assert_eq!(
        notes_of("tcgen05.mma.cta_group::1.kind::i8 [t], ;"),
        "what could stand there: `[` or a name, as in `tcgen05.mma.cta_group::1.kind::i8 [d], a, b, i, p;`"
    );
}

#[test]
fn lists_that_are_too_long() {
    let list = vec!["r"; 130].join(",");
    let e = said(&format!("tcgen05.ld.sync.aligned.32x32b.x128.b32 {{{list}}}, [t];"));
    assert_eq!(e.title, "the list has 130 registers; a list has at most 128");
    assert_eq!(e.primary.map(|span| span.label).as_deref(), Some("2 registers too many"));
}

#[test]
fn runs_that_are_no_numbers_and_no_names() {
    check(&[
        ("mov.b32 y, 08;", "`08` is no number: a leading zero means octal, which has the digits 0 to 7", Some("mov.b32 y, 8;")),
        ("mov.b32 y, 64u;", "`64u` is no number: only one capital `U` may follow the digits", Some("mov.b32 y, 64;")),
        ("mov.b32 y, 64ULL;", "`64ULL` is no number: only one capital `U` may follow the digits", Some("mov.b32 y, 64;")),
        ("mov.b32 y, 1_000;", "`1_000` is no number: `_` does not part digits", Some("mov.b32 y, 1000;")),
        ("mov.b32 y, 0o17;", "`0o17` is no number: octal is written with a leading zero alone", Some("mov.b32 y, 017;")),
        ("mov.b32 y, 1f;", "`1f` is no number: a byte of it is no decimal digit", Some("mov.b32 y, 0x1f;")),
        ("mov.b32 y, 0x;", "`0x` is no number: no digit follows the `0x`", None),
        ("mov.b32 y, 0xU;", "`0xU` is no number: no digit follows the `0x`", None),
        ("mov.b32 y, 0bU;", "`0bU` is no number: no digit follows the `0b`", None),
        ("mov.b32 y, 019U;", "`019U` is no number: a leading zero means octal, which has the digits 0 to 7", Some("mov.b32 y, 19U;")),
        ("mov.b32 y, 0b102;", "`0b102` is no number: a byte of it is no binary digit", None),
        ("mov.b32 y, 0x1g;", "`0x1g` is no number: a byte of it is no hexadecimal digit", None),
        ("mov.b32 y, 1.5;", "`1.5` has a point; only whole numbers are read", Some("mov.b32 y, 0x3FC00000;")),
        ("mov.b32 tid.x, 1;", "`tid.x` is no name: a name has no `.`", None),
        ("mov.b32 a%b, 1;", "`a%b` is no name: a `%` stands only at the begin of a name", None),
        ("mov.b32 %, 1;", "`%` is no name: it has one byte; a letter, digit, `_` or `$` must follow", None),
        ("mov.b32 1y, 1;", "`1y` is no name: it begins with a digit", None),
        ("mov.b32 y, x;", "`x` stands where a number must be written out", Some("mov.b32 y, 1;")),
        (
            "mov.b32 abcdefghijklmnopqr, 1;",
            "`abcdefghijklmnopqr` is no name: it has 18 bytes, 2 over the longest of 16; write a shorter one in every line that has it",
            None,
        ),
        ("tcgen05.mma.cta_group::1.kind::f16 [t], b, b, 0x08100010, p;", "the number `0x08100010` stands where a name must stand", None),
    ]);
    assert_eq!(
        help_of("tcgen05.mma.cta_group::1.kind::f16 [t], b, b, 0x08100010, p;"),
        "put `0<TAB>mov.b32 i, 0x08100010;` before the line, and write `i` here"
    );
    assert_eq!(
        help_of("tcgen05.ld.sync.aligned.32x32b.x1.b32 {r}, [t+z];"),
        "write the offset in digits: no line up to here moves a number to `z`"
    );
}

const LOAD: &str = "tcgen05.ld.sync.aligned.32x32b.x1.b32 {r}, ";

/// What is not taken in an expression, and what it would come to; a name that is moved a number is that number.
#[test]
fn operators_that_are_not_taken() {
    let ld = |offset: &str| format!("{LOAD}[t{offset}];");
    for (offset, mark, right) in [
        ("+1<<3", "<<", "+8"),
        ("+(1)<<3|4", "<<", "+12"),
        ("+64/2", "/", "+32"),
        ("+100 % 32", "%", "+4"),
        ("+100%32", "%", "+4"),
        ("+2*(64>>1)", ">>", "+64"),
        ("+7&3", "&", "+3"),
    ] {
        check(&[(&ld(offset), &format!("`{mark}` is not taken in an expression"), Some(&ld(right)))]);
    }
    check(&[
        ("mov.b32 y, (1<<4)|3;", "`<<` is not taken in an expression", Some("mov.b32 y, 19;")),
        ("mov.b32 y, ~3;", "`~` is not taken in an expression", None),
        ("mov.b32 y, 1<<99;", "`<<` is not taken in an expression", None),
        ("mov.b32 y, 1==2;", "`==` is not taken in an expression", None),
        ("mov.b32 y, 7/2;", "`/` is not taken in an expression", None),
        ("mov.b32 y, 7/2*2;", "`/` is not taken in an expression", None),
        ("mov.b32 y, 2^6;", "`^` is not taken in an expression", None),
        ("mov.b32 y, 1<<2^6;", "`<<` is not taken in an expression", None),
        (&ld("+2^6"), "`^` is not taken in an expression", None),
        (&format!("{LOAD}[t]+2^6;"), "the offset stands outside the brackets of the address", None),
        ("mov.b32 y, 64.5*2;", "`64.5` has a point; only whole numbers are read", None),
        ("mov.b32 y, 64.0*2;", "`64.0` has a point; only whole numbers are read", Some("mov.b32 y, 64*2;")),
        (
            "mov.b32 y, 0f3F800000*2;",
            "`0f3F800000` is no number: it has the bits of a float, which `mov.b32` moves with `0x` before them",
            None,
        ),
        ("mov.b32 y, 2*x;", "`x` stands where a number must be written out", Some("mov.b32 y, 2*1;")),
        ("mov.b32 y, 2*x8;", "`x8` stands where a number must be written out", None),
        ("mov.b32 y, 2*1.5;", "`1.5` has a point; only whole numbers are read", None),
        ("mov.b32 y, 2*.5;", "`.5` has a point; only whole numbers are read", None),
        ("mov.b32 y, (2).5;", "`.5` has a point; only whole numbers are read", None),
        ("mov.b32 y, 2*08;", "`08` is no number: a leading zero means octal, which has the digits 0 to 7", Some("mov.b32 y, 2*8;")),
    ]);
    for (statement, help) in [
        ("mov.b32 y, 7/2;".into(), "7/2 is not a whole number"),
        ("mov.b32 y, 2^6;".into(), "if a power is meant by `^`, write 64; if exclusive or, 4"),
        (ld("+1+2^6"), "if a power is meant by `^`, write 65; if exclusive or, 5"),
        ("mov.b32 y, 2^40;".into(), ""),
        ("mov.b32 y, 64/0;".into(), "it divides by 0"),
        ("mov.b32 y, 64/;".into(), "a number is missing after the `/`"),
        ("mov.b32 y, 1<<;".into(), "a number is missing after the `<<`"),
        ("mov.b32 y, -64/2;".into(), "it comes to -32, which does not fit here"),
        ("mov.b32 y, 1<<99;".into(), "it comes to more than fits here"),
        ("mov.b32 y, 1==2;".into(), ""),
        ("mov.b32 y, 64/n;".into(), "write what it comes to as one number"),
    ] {
        assert_eq!(help_of(&statement), help, "{statement}");
    }
    assert!(notes_of("mov.b32 y, 64/2;").contains("an expression has `+`, `-`, `*`, a minus before a number, and parentheses"));
    assert!(notes_of("mov.b32 y, 64/2;").contains("what could stand there: `;`, `+`, `-` or `*`, as in `mov.b32 x, 1;`"));
}

#[test]
fn signs_before_numbers() {
    let plus = "a `+` stands where a number must begin: a number has no plus before it";
    let behind = "stands behind a name; an offset follows a `+`, and one below 0 is not read in this version";
    check(&[
        ("mov.b32 y, +1;", plus, Some("mov.b32 y, 1;")),
        ("mov.b32 y, 1++ +2;", plus, Some("mov.b32 y, 1+2;")),
        ("mov.b32 y, (+1);", plus, Some("mov.b32 y, (1);")),
        (&format!("{LOAD}[t++4];"), plus, Some(&format!("{LOAD}[t+4];"))),
        (&format!("{LOAD}[t-4];"), &format!("`-4` {behind}"), None),
        (&format!("{LOAD}[t - 4*2];"), &format!("`- 4*2` {behind}"), None),
        (&format!("{LOAD}[t-4+8];"), "the offset `-4+8` has no `+` before it", Some(&format!("{LOAD}[t+-4+8];"))),
        (
            &format!("{LOAD}[t*4];"),
            "`*4` stands behind a name: a name is no part of an expression, and only `+` and an offset follow it",
            None,
        ),
        ("mov.b32 y, 2**3;", "a `*` stands after a `*`, and no number between them", None),
        ("mov.b32 y, *3;", "a `*` stands where a number must stand", None),
    ]);
    assert_eq!(
        help_of("mov.b32 y, 2**3;"),
        "a power is not taken: an expression has `+`, `-`, `*`, a minus before a number, and parentheses"
    );
}

#[test]
fn parentheses() {
    check(&[
        ("mov.b32 y, (1+(2*3;", "2 `(` are not closed", Some("mov.b32 y, (1+(2*3));")),
        ("mov.b32 y, (1+(2*3", "2 `(` are not closed", Some("mov.b32 y, (1+(2*3));")),
        (&format!("{LOAD}[t+(1];"), "a `(` is not closed", Some(&format!("{LOAD}[t+(1)];"))),
        ("mov.b32 y, --(4;", "a `(` is not closed", Some("mov.b32 y, --(4);")),
        ("mov.b32 y, 1);", "a `)` stands here that closes nothing", Some("mov.b32 y, 1;")),
        ("mov.b32 y, 1+2) );", "a `)` stands here that closes nothing", Some("mov.b32 y, 1+2;")),
        ("mov.b32 y, ();", "the parentheses are empty", None),
        ("mov.b32 y, 4+( );", "the parentheses are empty", None),
        ("mov.b32 y, (;", "a number is missing after the `(`", None),
        ("mov.b32 y, 4+;", "a number is missing after the `+`", Some("mov.b32 y, 4;")),
        ("mov.b32 y, (4 * );", "a number is missing after the `*`", Some("mov.b32 y, (4);")),
        (&format!("{LOAD}[t+4+];"), "a number is missing after the `+`", Some(&format!("{LOAD}[t+4];"))),
        ("mov.b32 y, -;", "a number is missing after the `-`", None),
        (&format!("{LOAD}[t+];"), "a number is missing after the `+`", Some(&format!("{LOAD}[t];"))),
        (&format!("{LOAD}[t + ;"), "a number is missing after the `+`", None),
        ("mov.b32 y, 1 2;", "`2` stands behind a number, and no operator between them", Some("mov.b32 y, 12;")),
        (&format!("{LOAD}[t+(32*65536,4)];"), "a `,` stands inside the parentheses", None),
        ("mov.b32 y, (1, 2);", "a `,` stands inside the parentheses", None),
        (&format!("{LOAD}[t+32*65536,4];"), "a `,` stands inside the brackets", None),
        (&format!("{LOAD}[t+(1, 4];"), "a `(` is not closed", None),
        (
            "tcgen05.st.sync.aligned.32x32b.x1.b32 [t+4, {r};",
            "the `]` is missing",
            Some("tcgen05.st.sync.aligned.32x32b.x1.b32 [t+4], {r};"),
        ),
        ("mov.b32 y, (1)2;", "`2` stands behind a number, and no operator between them", None),
        ("mov.b32 y, 3*1 2;", "`2` stands behind a number, and no operator between them", None),
        ("mov.b32 y, 1 2*3;", "`2` stands behind a number, and no operator between them", None),
        (&format!("{LOAD}[t+1 2];"), "`2` stands behind a number, and no operator between them", Some(&format!("{LOAD}[t+12];"))),
        (&format!("{LOAD}[t+65536 4];"), "`4` stands behind a number, and no operator between them", None),
        (&format!("{LOAD}[t+2 (3)];"), "`(` stands behind a number, and no operator between them", None),
        (&format!("{LOAD}[t+32*65536 4];"), "`4` stands behind a number, and no operator between them", None),
        (&format!("{}[v], 3 3;", ALLOC), "`3` stands behind a number, and no operator between them", None),
        ("mov.b32 y, (1)(2);", "`(` stands behind a number, and no operator between them", Some("mov.b32 y, (1)*(2);")),
        (&format!("{LOAD}[t+2(3)];"), "`(` stands behind a number, and no operator between them", Some(&format!("{LOAD}[t+2*(3)];"))),
    ]);
    let spans = |statement: &str| said(statement).related.iter().map(|span| (span.line, span.from, span.to)).collect::<Vec<_>>();
    assert_eq!(spans("mov.b32 y, (1+(2*3;"), [(6, 14, 15), (6, 17, 18)]);
    assert_eq!((spans("mov.b32 y, 4+( );"), spans("mov.b32 y, 4 * ;")), (vec![(6, 16, 17)], vec![(6, 16, 17)]));
}

/// The place of the 17th level, and where the outermost opened.
#[test]
fn levels() {
    let deep =
        |mark: &str, n: usize| format!("mov.b32 y, 2*{}1{};", mark.repeat(n), if mark == "(" { ")".repeat(n) } else { String::new() });
    for (mark, right) in [("(", "mov.b32 y, 2;"), ("-", "")] {
        let statement = deep(mark, 17);
        let e = said(&statement);
        assert_eq!(e.title, format!("the `{mark}` opens level 17: an expression is nested to 16 levels"));
        assert_eq!((e.answer.column, e.related[0].from, e.related[0].to), (32, 16, 17));
        assert_eq!(fixed(&statement, &e).unwrap_or_default(), right);
    }
    // what it comes to is known up to 64 levels
    assert_eq!(fixed(&deep("(", 64), &said(&deep("(", 64))).as_deref(), Some("mov.b32 y, 2;"));
    assert_eq!(fixed(&deep("(", 65), &said(&deep("(", 65))), None);
    assert_eq!(fixed(&deep("(", 900), &said(&deep("(", 900))), None);
    // a minus is closed where its number ends
    assert_eq!(reason(&said("mov.b32 y, -1+((((((((((((((((2)))))))))))))));")), 3);
}

/// What is said of reason 4: a part of the title, a part of the notes and helps, and the statement that is offered.
#[test]
fn results_out_of_range() {
    let below = "numbers and offsets below 0 are not read in this version";
    let (partial, number) = ("a partial result is at most 9,223,372,036,854,775,807 (2^63-1)", "a number of an expression is at most");
    let ld = |offset: &str| format!("{LOAD}[t+{offset}];");
    let rows = [
        ("mov.b32 y, -4;".into(), format!("`-4` is negative; {below}"), "its bits", Some("mov.b32 y, 0xFFFFFFFC;")),
        ("mov.b64 y, 3-7;".into(), format!("`3-7` is -4; {below}"), "its bits", Some("mov.b64 y, 0xFFFFFFFFFFFFFFFC;")),
        ("mov.b32 y, -2147483649;".into(), format!("`-2147483649` is negative; {below}"), "more than the 32 bits", None),
        (ld("-4"), format!("`-4` is negative; {below}"), "count the column from the start", None),
        (ld("4 - 8"), format!("`4 - 8` is -4; {below}"), "count the column from the start", None),
        (
            "mov.b32 y, 4294967296*4294967296*0;".into(),
            format!("`4294967296*4294967296` is 18,446,744,073,709,551,616; {partial}"),
            "write what it comes to in full, 0",
            Some("mov.b32 y, 0;"),
        ),
        (
            ld("1+(2*4294967296*4294967296)"),
            format!("`2*4294967296*4294967296` is 36,893,488,147,419,103,232; {partial}"),
            "let every part stay in range, and the result between 0 and 4,294,967,295",
            None,
        ),
        (
            "mov.b64 y, -9223372036854775807-2+3;".into(),
            "`-9223372036854775807-2` is -9,223,372,036,854,775,809; a partial result is at least -9,223,372,036,854,775,808 (-2^63)"
                .into(),
            "the result between 0 and 9,223,372,036,854,775,807",
            None,
        ),
        (
            "mov.b64 y, (18446744073709551615);".into(),
            format!("`18446744073709551615` is too large; {number}"),
            "alone, without operators and parentheses, `18446744073709551615` is taken",
            Some("mov.b64 y, 18446744073709551615;"),
        ),
        (
            "mov.b32 y, 0x8000000000000000-9223372036854775807;".into(),
            format!("`0x8000000000000000` is 9,223,372,036,854,775,808; {number}"),
            "in full, 1",
            Some("mov.b32 y, 1;"),
        ),
        (
            "mov.b32 y, 65536*65536;".into(),
            "`65536*65536` is 4,294,967,296: 1 over the largest number of 32 bits".into(),
            "would move it",
            None,
        ),
        (
            ld("65536*65536*2"),
            "`65536*65536*2` is 8,589,934,592, which needs 34 bits, and 32 fit".into(),
            "lane 131,072 and column 0",
            None,
        ),
    ];
    for (statement, title, says, right) in rows {
        let e = said(&statement);
        assert_eq!(reason(&e), 4, "{statement}");
        assert!(e.title.starts_with(&title), "{statement}: {}", e.title);
        assert!(format!("{}\n{}", notes_of(&statement), help_of(&statement)).contains(says), "{statement}: {:?} {:?}", e.notes, e.helps);
        assert_eq!(fixed(&statement, &e).as_deref(), right, "{statement}");
    }
    // the part is marked: alone where it begins the expression, else beside the begin
    let marks = |statement: &str| {
        let e = said(statement);
        let primary = e.primary.unwrap();
        (primary.from, primary.to, e.related.iter().map(|span| (span.from, span.to, span.label.clone())).collect::<Vec<_>>())
    };
    assert_eq!(marks("mov.b32 y, 4294967296*4294967296*0;"), (14, 35, vec![]));
    let label_of = |statement: &str| said(statement).primary.unwrap().label;
    assert_eq!(label_of("mov.b64 y, -1;"), "an expression: 0 to 2^63-1; one number alone: to 2^64-1");
    assert_eq!(label_of("mov.b32 y, -1;"), "0 to 4,294,967,295 fit here");
    let label = "this is 9,223,372,036,854,775,809".to_string();
    assert_eq!(marks("mov.b32 y, 1+(2+9223372036854775807)*3;"), (14, 17, vec![(17, 38, label)]));
    let label = "this has over 127 bits".to_string();
    assert_eq!(marks(&format!("mov.b32 y, 1+{};", "9".repeat(40))), (14, 16, vec![(16, 56, label)]));
}

#[test]
fn numbers_that_are_too_large() {
    let rows = [
        ("mov.b32 y, 4294967296;", "`4294967296` is too large: 1 over the largest number of 32 bits", "moved by `mov.b64`"),
        (
            "mov.b32 y, 040000000002U;",
            "`040000000002U` is 4,294,967,298, which is too large: 3 over the largest number of 32 bits",
            "moved by `mov.b64`",
        ),
        (
            "mov.b64 y, 0x10000000000000000;",
            "`0x10000000000000000` is 18,446,744,073,709,551,616, which is too large: 1 over the largest number of 64 bits",
            "at most 64 bits",
        ),
        (
            "tcgen05.alloc.cta_group::1.sync.aligned.b32 [v], 4294967296;",
            "`4294967296` is too large: 1 over the largest number of 32 bits",
            "32, 64, 128, 256 or 512",
        ),
        (
            "tcgen05.ld.sync.aligned.32x32b.x1.b32 {r}, [t+0x100000004];",
            "`0x100000004` is 4,294,967,300, which is too large: 5 over the largest number of 32 bits",
            "no offset is over 8,323,583",
        ),
    ];
    for (statement, title, help) in rows {
        let e = said(statement);
        assert_eq!((reason(&e), e.title.as_str()), (4, title));
        assert!(help_of(statement).contains(help), "{statement}: {}", help_of(statement));
    }
    assert!(notes_of(rows[0].0).contains("fits in 64 bits"));
    assert!(notes_of(rows[4].0).contains("lane 65,536 and column 4"));
    let long = format!("mov.b32 y, {};", "9".repeat(100));
    assert_eq!(said(&long).title, "`999999999999999999999999..` needs over 128 bits: over the largest number of 32 bits");
}

#[test]
fn counts_of_registers() {
    let ld = |head: &str, list: &str| format!("tcgen05.ld.sync.aligned.{head}.b32 {{{list}}}, [t];");
    let (four, two) = (ld("32x32b.x4", "r0, r1"), ld("32x32b.x2", "r0, r1"));
    let e = said(&four);
    assert_eq!((reason(&e), e.title.as_str()), (5, "`.32x32b.x4` takes 4 registers, and 2 are given"));
    assert_eq!(fixed(&four, &e), Some(two));
    assert_eq!(help_of(&four), "name 2 registers more\nor write `.x2`, which takes 2 registers");
    assert_eq!(e.related.iter().map(|span| (span.from, span.to, span.label.as_str())).collect::<Vec<_>>(), [(41, 49, "2 registers")]);
    assert_eq!(help_of(&ld("16x256b.x2", "a, b, c")), "name 5 registers more\nno `.16x256b.xN` takes 3; `.x1` takes 4");
    assert_eq!(help_of(&ld("16x128b.x1", "a, b, c")), "name 1 register fewer\nno `.16x128b.xN` takes 3; `.x1` takes 2");
    let st = "tcgen05.st.sync.aligned.16x64b.x1.b32 [t], {r, s};";
    assert_eq!(fixed(st, &said(st)).as_deref(), Some("tcgen05.st.sync.aligned.16x64b.x2.b32 [t], {r, s};"));
    let wide = ld("16x256b.x64", "a");
    assert_eq!(said(&wide).title, "`.x64` is too large for `.16x256b`: its largest is `.x32`");
    assert_eq!(
        help_of(&wide),
        "write 2 statements with `.x32`, each with 128 registers, and the address of each 256 columns after the one before"
    );
    assert!(help_of(&ld("16x256b.x128", "a")).contains("1024 columns"));
}

/// What an edit puts before the place moves it to the right: the library gets no further by that.
#[test]
fn a_place_that_moves_is_not_further() {
    for (statement, text) in [
        ("tcgen05.mma.sp.cta_group::1.kind::f16 [t], b, v b, [t], i, p;", "put a `,` between them"),
        ("tcgen05.ld.sync.aligned.32x32b.x1.b32 {r} t[+32];", "put a `,` between them"),
    ] {
        let e = said(statement);
        assert_eq!(reason(&e), 3);
        assert!(!e.helps.iter().any(|help| help.text == text && help.edit.is_some()), "{statement}");
    }
}

/// A kernel with a statement, and lines before it.
fn kernel(before: &str, word: &str, statement: &str) -> Vec<u8> {
    let (alloc, dealloc) = ("0\ttcgen05.alloc.cta_group::1.sync.aligned.b32", "0\ttcgen05.dealloc.cta_group::1.sync.aligned.b32");
    let wait = "0\ttcgen05.wait::ld.sync.aligned;\n";
    let given = if statement.contains("dealloc") { String::new() } else { format!("{wait}{dealloc} t, 64;\n") };
    let value = "0x0000400800100000";
    format!(
        "sheet\t1\tsm_100a\n{alloc} [t], 64;\n0\tmov.b32 i, {word};\n0\tmov.b64 a, {value};\n0\tmov.b64 b, {value};\n{before}\
         0\t{statement}\n{given}0\ttcgen05.relinquish_alloc_permit.cta_group::1.sync.aligned;\n0\texit;\n"
    )
    .into_bytes()
}

/// What is said of a kernel: its title, and each help with the statement that it offers.
fn told(bytes: &[u8]) -> (String, Vec<(String, Option<String>)>) {
    let e = explain(bytes, bytes.len());
    assert_eq!(reason(&e), 3, "{}", String::from_utf8_lossy(bytes));
    let after = |edit| {
        let new = Sheet::new(bytes).edited(edit);
        String::from_utf8_lossy(Sheet::new(&new).statement(edit.line)).into_owned()
    };
    (e.title, e.helps.iter().map(|help| (help.text.clone(), help.edit.as_ref().map(after))).collect())
}

/// Of each statement: a part of the title, and of each help a part of its text and the operands of the statement that it offers, or nothing.
type Row<'a> = (&'a str, &'a str, &'a [(&'a str, &'a str)]);

fn table(before: &str, word: &str, head: &str, rows: &[Row]) {
    for (rest, says, helps) in rows {
        let (title, found) = told(&kernel(before, word, &format!("{head}{rest}")));
        assert!(title.contains(says), "{rest}: {title}");
        assert_eq!(found.len(), helps.len(), "{rest}: {found:?}");
        for ((text, edit), (part, right)) in found.iter().zip(*helps) {
            let right = (!right.is_empty()).then(|| format!("{head}{right}"));
            assert!(text.contains(part), "{rest}: {text}");
            assert_eq!(*edit, right, "{rest}");
        }
    }
}

const MMA: &str = "tcgen05.mma.cta_group::1.kind::f16 ";
const SPARSE: &str = "tcgen05.mma.sp.cta_group::1.kind::f16 ";
const LD: &str = "tcgen05.ld.sync.aligned.32x32b.x1.b32 ";
const ALLOC: &str = "tcgen05.alloc.cta_group::1.sync.aligned.b32 ";
const DEALLOC: &str = "tcgen05.dealloc.cta_group::1.sync.aligned.b32 ";
const DENSE_WORD: &str = "0x08100010";
const SPARSE_WORD: &str = "0x08100014";

#[test]
fn no_name_is_made_up() {
    let right = "[t], a, b, i, p;";
    table(
        "",
        DENSE_WORD,
        MMA,
        &[
            ("[t], a, b, i, !p;", "`!` stands before the name `p`", &[("write `p`", right)]),
            ("[t], a, b, i, ~p;", "`~` stands before the name `p`", &[("write `p`", right)]),
            ("[t], &a, b, i, p;", "`&` stands before the name `a`", &[("write `a`", right)]),
            ("[t], a, b, i, !;", "`!` stands where a name must stand", &[]),
        ],
    );
    table(
        "",
        DENSE_WORD,
        LD,
        &[
            ("{r}, [&t];", "`&` stands before the name `t`", &[("write `t`", "{r}, [t];")]),
            ("{r}, [-t];", "`-` stands before the name `t`", &[("write `t`", "{r}, [t];")]),
        ],
    );
    table("", DENSE_WORD, "mov.b32 ", &[("x, =1;", "`=` stands where a number must stand", &[])]);
    let bytes = kernel("", DENSE_WORD, &format!("{MMA}[t], a, b, i, !p;"));
    assert!(explain(&bytes, bytes.len()).notes[0].contains("not looked up"));
}

#[test]
fn offsets_are_not_lost() {
    let right = "{r}, [t+32];";
    let outside = "the offset stands outside the brackets";
    table(
        "0\tmov.b32 n, 32;\n",
        DENSE_WORD,
        LD,
        &[
            ("{r}, [t]+32;", outside, &[("write `[t+32]`", right)]),
            ("{r}, [t] + 0x20 ;", outside, &[("write `[t+0x20]`", "{r}, [t+0x20] ;")]),
            ("{r}, [t][32];", outside, &[("write `[t+32]`", right)]),
            ("{r}, [t+4][28];", outside, &[("write `[t+4+28]`", "{r}, [t+4+28];")]),
            ("{r}, [t]+4*8;", outside, &[("write `[t+4*8]`", "{r}, [t+4*8];")]),
            ("{r}, [t]+64/2;", outside, &[("write `[t+32]`", right)]),
            ("{r}, [t]+n;", outside, &[("write `[t+32]`", right)]),
            ("{r}, [t]+z;", outside, &[("`[t+NUMBER]`", "")]),
            ("{r}, [t,32];", "a `,` stands in the address", &[("write `[t+32]`", right)]),
            ("{r}, [t, 32 ];", "a `,` stands in the address", &[("write `[t+32]`", right)]),
            ("{r}, [t, z];", "a `,` stands in the address", &[("`[t+NUMBER]`", "")]),
            ("{r}, [32+t];", "the offset stands before the name", &[("write `[t+32]`", right)]),
            ("{r}, [ 32 + t ];", "the offset stands before the name", &[("write `[t+32]`", right)]),
            ("{r}, [2*(8+8)+t];", "the offset stands before the name", &[("write `[t+2*(8+8)]`", "{r}, [t+2*(8+8)];")]),
            ("{r}, [2*16];", "the number `2*16` stands where a name must stand", &[("as in `[t+2*16]`", "")]),
            ("{r}, [-4];", "the number `-4` stands where a name must stand", &[("as in `[t+NUMBER]`", "")]),
            ("{r}, [0];", "the number `0` stands where a name must stand", &[("as in `[t]`", "")]),
            ("{r}, [32];", "the number `32` stands where a name must stand", &[("as in `[t+32]`", "")]),
            ("{r}, [t]-4;", "`-4` stands where the statement must end", &[("take it out if it is not meant", "")]),
            ("{r}, [t] 32;", "`32` stands where the statement must end", &[("take it out if it is not meant", "")]),
            ("{r}, [t], 1;", "operand 3 is one too many", &[("the registers in braces and the address in brackets", "")]),
            ("{r}, [t+8.0];", "`8.0` has a point", &[("an offset is a whole number: write `8`", "{r}, [t+8];")]),
            ("{r}, [t+8.5];", "`8.5` has a point", &[("write a whole number", "")]),
            ("{r}, [t+n];", "`n` stands where a number must be written out", &[("write `32`, which line 6 moves to `n`", right)]),
        ],
    );
    // in an expression a number has up to 63 bits, and a name never stands for one
    let named = "`c` stands where a number must be written out";
    table(
        "0\tmov.b64 c, 0x100000000;\n",
        DENSE_WORD,
        LD,
        &[
            ("{r}, [t+c-4294967296+32];", named, &[("which line 6 moves to `c`", "{r}, [t+0x100000000-4294967296+32];")]),
            ("{r}, [t+c];", named, &[("`c` is 0x100000000, which does not fit in 32 bits", "")]),
            ("{r}, [t+2*z];", "`z` stands where", &[("an expression takes no names: write the number of `z`", "")]),
            ("{r}, [t+z*2];", "`z` stands where", &[("an expression takes no names: write the number of `z`", "")]),
        ],
    );
    table("0\tmov.b64 c, 0x8000000000000000;\n", DENSE_WORD, LD, &[("{r}, [t+2*c];", named, &[("which is over 2^63-1", "")])]);
    // of an expression that was moved the number is written
    let offered = ("write `32`, which line 6 moves to `n`", "{r}, [t+2*32];");
    table("0\tmov.b32 n, 28+4;\n", DENSE_WORD, LD, &[("{r}, [t+2*n];", "`n` stands where a number must be written out", &[offered])]);
    table(
        "",
        DENSE_WORD,
        "tcgen05.st.sync.aligned.32x32b.x1.b32 ",
        &[
            ("[t]+32, {r};", outside, &[("write `[t+32]`", "[t+32], {r};")]),
            ("[t][32], {r};", outside, &[("write `[t+32]`", "[t+32], {r};")]),
        ],
    );
    table("", DENSE_WORD, ALLOC, &[("[v]+0, 64;", "the address of an alloc has an offset", &[("take the offset out", "[v], 64;")])]);
}

#[test]
fn numbers_that_may_be_two() {
    let octal = "a leading zero means octal";
    table(
        "",
        DENSE_WORD,
        "mov.b32 ",
        &[
            ("x, 08100010;", octal, &[("if it is hexadecimal, ", "x, 0x08100010;"), ("if it is decimal, ", "x, 8100010;")]),
            ("x, 0000400800100000;", octal, &[("does not fit in 32 bits", ""), ("does not fit in 32 bits", "")]),
            ("x, 0891;", octal, &[("write `891`", "x, 891;")]),
            ("x, 1e2;", "no decimal digit", &[("if it is hexadecimal, ", "x, 0x1e2;")]),
            ("x, 0f3F800000;", "the bits of a float", &[("write `0x3F800000`", "x, 0x3F800000;")]),
            ("x, 0d3FF0000000000000;", "the bits of a double, which `mov.b64` moves", &[]),
            (
                "x, 32.0;",
                "`32.0` has a point",
                &[("if the whole number is meant, ", "x, 32;"), ("if the bits of a float", "x, 0x42000000;")],
            ),
            ("x, 2.5f;", "`2.5f` has a point", &[("if the bits of a float", "x, 0x40200000;")]),
            ("x, 1, 2;", "operand 3 is one too many", &[("the operands are a name and the number to move", "")]),
            (
                "x, 0x0810 0010;",
                "`0010` stands behind a number, and no operator between them",
                &[("if they are one number, write `0x08100010`", "x, 0x08100010;"), ("put `+`, `-` or `*` between them", "")],
            ),
            (
                "x, i;",
                "`i` stands where a number must be written out",
                &[("write `0x08100010`, which line 3 moves to `i`", "x, 0x08100010;")],
            ),
            ("x, a;", "`a` stands where a number must be written out", &[("does not fit in 32 bits", "")]),
            ("x, t;", "`t` stands where a number must be written out", &[("`t` is an allocation", "")]),
            ("x, y;", "`y` stands where a number must be written out", &[("no line up to here moves a number to `y`", "")]),
            ("1, x;", "the operands are exchanged", &[("exchange them", "x, 1;")]),
            ("(1+2)*3, x;", "the operands are exchanged", &[("exchange them", "x, (1+2)*3;")]),
        ],
    );
    table(
        "",
        DENSE_WORD,
        "mov.b64 ",
        &[
            ("x, 0000400800100000;", octal, &[("hexadecimal", "x, 0x0000400800100000;"), ("decimal", "x, 400800100000;")]),
            ("x, 0d3FF0000000000000;", "the bits of a double", &[("write `0x3FF0000000000000`", "x, 0x3FF0000000000000;")]),
        ],
    );
}

#[test]
fn counts_of_columns() {
    let sizes = "written in digits: 32, 64, 128, 256 or 512";
    table(
        "0\tmov.b32 n, 32;\n",
        DENSE_WORD,
        ALLOC,
        &[
            ("[v], 32.0;", "`32.0` has a point", &[("a count of columns is a whole number: write `32`", "[v], 32;")]),
            ("[v], 32.5;", "`32.5` has a point", &[(sizes, "")]),
            ("[v], 1e2;", "`1e2` is no number", &[(sizes, "")]),
            ("[v], n;", "`n` stands where a number must be written out", &[("write `32`, which line 6 moves to `n`", "[v], 32;")]),
            ("[v], z;", "`z` stands where a number must be written out", &[(sizes, "")]),
            ("64, [v];", "the operands are exchanged: the name comes before the number", &[("exchange them", "[v], 64;")]),
        ],
    );
    table(
        "",
        DENSE_WORD,
        DEALLOC,
        &[
            ("t, z;", "`z` stands where a number must be written out", &[("`t` has 64", "")]),
            ("64, t;", "the operands are exchanged: the name comes before the number", &[("exchange them", "t, 64;")]),
        ],
    );
}

/// A count of columns that is an expression is said with its value.
#[test]
fn counts_that_are_expressions() {
    let rows = [
        (
            "tcgen05.alloc.cta_group::1.sync.aligned.b32 [v], -32;",
            4,
            "`-32` is negative; it is a count of columns",
            "32, 64, 128, 256 or 512",
        ),
        (
            "tcgen05.alloc.cta_group::1.sync.aligned.b32 [v], 32-64;",
            4,
            "`32-64` is -32; it is a count of columns",
            "32, 64, 128, 256 or 512",
        ),
        ("tcgen05.dealloc.cta_group::1.sync.aligned.b32 v, 0-64;", 4, "`0-64` is -64; it is a count of columns", "`v` has 64"),
        ("tcgen05.dealloc.cta_group::1.sync.aligned.b32 v, 64*67108865;", 4, "`64*67108865` is 4,294,967,360: 65 over", "`v` has 64"),
        ("tcgen05.alloc.cta_group::1.sync.aligned.b32 [v], 64+32;", 9, "`v` asks for 96 columns", "ask for 64"),
        ("tcgen05.dealloc.cta_group::1.sync.aligned.b32 v, 2*(64 + 32);", 9, "`v` has 64 columns, but 192 are given back", "give all 64"),
    ];
    for (statement, number, title, help) in rows {
        let e = said(statement);
        assert_eq!(reason(&e), number, "{statement}");
        assert!(e.title.starts_with(title), "{statement}: {}", e.title);
        assert!(help_of(statement).contains(help), "{statement}: {}", help_of(statement));
    }
    let octal = "`064` is octal for 52: a leading zero means octal";
    for (statement, number) in [
        ("tcgen05.alloc.cta_group::1.sync.aligned.b32 [v], 2*064;", 9),
        ("tcgen05.dealloc.cta_group::1.sync.aligned.b32 v, (064);", 9),
        ("mov.b32 y, 07-064;", 4),
    ] {
        assert_eq!((reason(&said(statement)), notes_of(statement).matches(octal).count()), (number, 1), "{statement}");
    }
    assert!(!notes_of("tcgen05.alloc.cta_group::1.sync.aligned.b32 [v], 2*07+00;").contains("octal"));
    let label = |statement: &str| said(statement).primary.map(|span| (span.from, span.to, span.label)).unwrap();
    assert_eq!(label(rows[4].0), (52, 57, "96 columns: `64+32` is 96".into()));
    assert_eq!(label(rows[5].0), (52, 63, "192 columns: `2*(64 + 32)` is 192".into()));
    assert_eq!(fixed(rows[4].0, &said(rows[4].0)).as_deref(), Some("tcgen05.alloc.cta_group::1.sync.aligned.b32 [v], 64;"));
}

#[test]
fn operands_of_a_dense_mma() {
    let right = "[t], a, b, i, p;";
    let takes = "this mma takes d, a, b, idesc and the predicate";
    table(
        "",
        DENSE_WORD,
        MMA,
        &[
            ("[t], a, b, [i], p;", "an address stands where a name alone must stand", &[("write `i`", right)]),
            ("[t], a, b, [t], p;", "an address stands where idesc must stand", &[("without brackets", "")]),
            ("[t], a, [t], i, p;", "an address stands where a name alone must stand", &[("only a may stand in Tensor Memory", "")]),
            ("[t], a, b, i, j, p;", &format!("6 operands are given, 1 too many: {takes}"), &[("take out what does not belong", "")]),
            ("[t], a, b, i, p, 4;", &format!("6 operands are given, 1 too many: {takes}"), &[("take the scale of d, `4`, out", right)]),
            ("[t], a, b, i, {m0, m1, m2, m3}, p;", "disable-output-lane mask is not read", &[("take the list out", right)]),
            (
                "[t], a, i, p;",
                &format!("4 of 5 operands are given: {takes}"),
                &[("`i` is a 32-bit value, and b is a 64-bit one: the operand before `i` may be the missing one, b", "")],
            ),
            ("[t], a, b, p;", "4 of 5 operands are given", &[("`p` is no value that was moved, and idesc is a 32-bit one", "")]),
            ("a, b, i, p;", "4 of 5 operands are given", &[("d may be the operand that is missing", "")]),
            ("[t], a, b, i;", "4 of 5 operands are given", &[("write the predicate after `i`", "")]),
            ("[t], a, b, i", "4 of 5 operands are given", &[("write the predicate after `i`", "")]),
            ("[t], a;", "2 of 5 operands are given", &[("write b, idesc and the predicate after what is there", "")]),
            ("[t], a,, i, p;", "a `,` stands before `,`", &[("operand 3 is b", "")]),
        ],
    );
    let notes = |rest: &str| {
        let bytes = kernel("", DENSE_WORD, &format!("{MMA}{rest}"));
        explain(&bytes, bytes.len()).notes.join("\n")
    };
    let four = notes("[t], a, i, p;");
    assert!(four.contains("`[t]` is d, `a` is a, `i` is b, `p` is idesc and nothing is left for the predicate"), "{four}");
    let six = notes("[t], a, b, i, j, p;");
    assert!(six.contains("`[t]` is d, `a` is a, `b` is b, `i` is idesc, `j` is the predicate and `p` is left over"), "{six}");
}

#[test]
fn operands_of_a_sparse_mma() {
    let metadata = format!("0\t{ALLOC}[m], 32;\n");
    let right = "[t], a, b, [m], i, p;";
    let missing = "the metadata is missing: with `.sp` operand 4 is its address";
    table(
        &metadata,
        SPARSE_WORD,
        SPARSE,
        &[
            ("[t], a, b, m, i, p;", "the brackets around the address are missing", &[("write `[m]`", right)]),
            ("[t], a, b, i, [m], p;", "stands one place late: it comes before idesc", &[("exchange the two", right)]),
            ("[t], a, b, i, p;", missing, &[("before idesc, as `[meta]`", ""), ("if the mma is dense, write it without `.sp`", "")]),
            ("[t], a, b, i, j, p;", missing, &[("before idesc, as `[meta]`", ""), ("if the mma is dense", "")]),
            ("[t], a, b, [m], p;", "5 of 6 operands are given", &[("the operand before `p` may be the missing one, idesc", "")]),
        ],
    );
    // a word that is dense speaks for a dense mma
    let (title, helps) = told(&kernel("", DENSE_WORD, &format!("{SPARSE}[t], a, b, i, p;")));
    assert_eq!(title, missing);
    assert_eq!(helps[0].1, Some(format!("{MMA}[t], a, b, i, p;")));
    assert!(helps[0].0.starts_with("`i` has the word of a dense mma: if the mma is dense"));
    assert!(helps[1].0.starts_with("if it is sparse, write the address of the metadata before idesc"));
    // and a sparse word for `.sp`
    let (_, helps) = told(&kernel(&metadata, SPARSE_WORD, &format!("{MMA}{right}")));
    assert_eq!(helps[0], ("if the mma is sparse, write it with `.sp`".into(), Some(format!("{SPARSE}{right}"))));
    assert_eq!(helps[1], ("if the mma is dense, take the metadata out".into(), None));
}

#[test]
fn spaces_of_an_edit() {
    let comment = "a comment stands in the line";
    let out = "take the comment out";
    table(
        "",
        DENSE_WORD,
        MMA,
        &[
            ("[t], /* x */ a, b, i, p;", comment, &[(out, "[t], a, b, i, p;")]),
            ("[t] /* x */, a, b, i, p;", comment, &[(out, "[t], a, b, i, p;")]),
            ("[/* x */ t], a, b, i, p;", comment, &[(out, "[t], a, b, i, p;")]),
            ("[t], /* x */ a, b, /* y */ i, p;", comment, &[(out, "[t], a, b, /* y */ i, p;")]),
        ],
    );
    table(
        "",
        DENSE_WORD,
        "mov.b32 ",
        &[
            ("/* y */ x, 1;", comment, &[(out, "x, 1;")]),
            ("x = 1;", "`=` stands where `,` must stand", &[("write `,` for it", "x, 1;")]),
            ("x=1;", "`=` stands where `,` must stand", &[("write `,` for it", "x, 1;")]),
        ],
    );
}

#[test]
fn comments_of_several_lines_and_guarded_branches() {
    let (comment, guard) = ("a comment stands in the line", "the statement has a guard");
    table(
        "",
        DENSE_WORD,
        "",
        &[
            ("/* a\n0\tb */", comment, &[("up to the `*/` in line 7: every line of it must go, 6 to 7", "")]),
            ("mov.b32 x, 1; /* a\n0\t * b\n0\t */", comment, &[("every line of it must go, 6 to 8; keep the statement", "")]),
            ("/* a\n0\tb */ mov.b32 x, 1;", comment, &[("every line of it must go, 6 to 7; keep the statement", "")]),
            ("mov.b32 x, 1; /* a", comment, &[("take the comment out", "mov.b32 x, 1;")]),
            ("@p bra LOOP;", guard, &[("branches are left out of a sheet", "")]),
            ("@ !p bra LOOP;", guard, &[("branches are left out of a sheet", "")]),
            ("@p add.s32 r, r, 1;", guard, &[("leave the line out", "")]),
            ("@p", guard, &[("leave the line out", "")]),
            (
                "@p tcgen05.mma.cta_group::1.kind::f17 [t], a, b, i, p;",
                guard,
                &[("no form has the opcode `tcgen05.mma.cta_group::1.kind::f17` either", "")],
            ),
            ("@p mov.b32 x, 1;", guard, &[("if it is executed", "mov.b32 x, 1;"), ("if it is not executed", "")]),
            ("mov.b32 x, 1; mov.b32 y 2;", "something stands after the `;`", &[("write it on the next line", "")]),
        ],
    );
}
