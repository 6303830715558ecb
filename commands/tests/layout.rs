//! Reasons 1 and 2: what is said of a sheet that is too large, and of a line that is laid out wrongly; and that explaining any bytes ends, in
//! ASCII, at the library's place.

use commands::explain::{answer_of, explain, Explanation};
use commands::sheet::Sheet;

const HEADER: &str = "sheet\t1\tsm_100a\n";
const PAIR: &str = "0\ttcgen05.alloc.cta_group::1.sync.aligned.b32 [t], 32;\n0\ttcgen05.dealloc.cta_group::1.sync.aligned.b32 t, 32;\n";

fn said(bytes: &[u8]) -> Explanation {
    explain(bytes, bytes.len())
}

fn reason(e: &Explanation) -> u32 {
    e.answer.reason.map_or(0, |reason| reason.number())
}

fn helps(e: &Explanation) -> String {
    e.helps.iter().map(|help| help.text.clone()).collect::<Vec<_>>().join("\n")
}

/// The sheet after the first fix; none where there is none.
fn fixed(bytes: &[u8]) -> Option<Vec<u8>> {
    let e = said(bytes);
    let edit = e.helps.iter().find_map(|help| help.edit.as_ref())?;
    Some(Sheet::new(bytes).edited(edit))
}

/// A title for a sheet, at its line, and a fix with which it passes.
fn passes(bytes: impl AsRef<[u8]>, line: u32, title: &str) {
    let (bytes, shown) = (bytes.as_ref(), String::from_utf8_lossy(bytes.as_ref()).into_owned());
    let e = said(bytes);
    assert_eq!((reason(&e), e.answer.line, e.title.as_str()), (2, line, title), "{shown:?}");
    let new = fixed(bytes).unwrap_or_else(|| panic!("{shown:?}: no fix"));
    assert_eq!(answer_of(&new).reason, None, "{shown:?}: {:?}", String::from_utf8_lossy(&new));
}

/// A title and some words of its helps, and no edit.
fn says(bytes: impl AsRef<[u8]>, title: &str, help: &str) {
    let bytes = bytes.as_ref();
    let e = said(bytes);
    assert_eq!((reason(&e), e.title.as_str()), (2, title));
    assert!(helps(&e).contains(help), "{}", helps(&e));
    assert_eq!(fixed(bytes), None);
}

fn with(lines: &str) -> String {
    format!("{HEADER}{lines}0\texit;\n")
}

#[test]
fn sizes() {
    let lines = format!("{HEADER}{}", "0\texit;\n".repeat(4_096));
    let e = said(lines.as_bytes());
    assert_eq!((reason(&e), e.title.as_str()), (1, "the sheet has 4,097 lines, 1 over the limit of 4,096"));
    assert_eq!((e.primary, e.notes), (None, vec!["a sheet has at most 65,536 bytes and 4,096 lines".into()]));
    let bytes = format!("{HEADER}{}", "0\ttcgen05.dealloc.cta_group::1.sync.aligned.b32 t, 32;\n".repeat(1_300));
    let e = said(bytes.as_bytes());
    assert_eq!(e.title, "the sheet has 71,516 bytes, 5,980 over the limit of 65,536");
    assert!(e.notes[0].ends_with("this one has 1,301 lines"));
    assert!(!helps(&e).contains("comma"), "without the spaces it is too large too");
    let spaced = format!("{HEADER}{}", "0\ttcgen05.dealloc.cta_group::1.sync.aligned.b32 t, 32;\n".repeat(1_200));
    let e = said(spaced.as_bytes());
    assert_eq!(e.title, "the sheet has 66,016 bytes, 480 over the limit of 65,536");
    assert!(helps(&e).ends_with("no space has to follow a comma: without them it has 1,200 bytes fewer, and fits"), "{}", helps(&e));
    let both = format!("{HEADER}{}", "0\ttcgen05.wait::ld.sync.aligned;\n".repeat(4_100));
    assert_eq!(
        said(both.as_bytes()).title,
        "the sheet has 135,316 bytes, 69,780 over the limit of 65,536, and 4,101 lines, 5 over the limit of 4,096"
    );
}

/// Of the first bytes of a longer file only what is known is said.
#[test]
fn sizes_of_a_file_that_is_not_read_to_its_end() {
    let bytes = format!("{HEADER}{}", "0\texit;\n".repeat(20_000)).into_bytes();
    let e = explain(&bytes[..65_537], bytes.len());
    assert_eq!(
        e.title,
        "the sheet has 160,016 bytes, 94,480 over the limit of 65,536, and at least 8,192 lines, at least 4,096 over the limit of 4,096"
    );
    let bytes = format!("{HEADER}{}", "0\ttcgen05.wait::ld.sync.aligned;\n".repeat(3_000)).into_bytes();
    let e = explain(&bytes[..65_537], bytes.len());
    assert_eq!(e.title, "the sheet has 99,016 bytes, 33,480 over the limit of 65,536");
    assert!(e.notes[0].ends_with("this one has at least 1,987 lines"), "{}", e.notes[0]);
}

#[test]
fn files() {
    passes("", 1, "the sheet is empty");
    passes([b"\xEF\xBB\xBF", with("").as_bytes()].concat(), 1, "the file starts with a byte order mark");
    let sheet = with(PAIR);
    let wide: Vec<u8> = sheet.bytes().flat_map(|b| [b, 0]).collect();
    says(&wide, "the file is UTF-16 text; a sheet is ASCII", "iconv -f UTF-16");
    says([b"\xFF\xFE", &wide[..]].concat(), "the file is UTF-16 text; a sheet is ASCII", "iconv -f UTF-16");
    says(sheet.replace('\n', "\r"), "the lines end in CR alone; each line must end in LF", "tr '\\r' '\\n'");
    passes(&sheet[..sheet.len() - 1], 4, "the last line has no LF at its end");
}

/// A file is said to be something else only where it is.
#[test]
fn files_that_are_no_text() {
    for bytes in [&[0; 1][..], &[0; 64], &[0; 1_000], b"\x7FELF\x02\x01\x01\0\0\0\0\0\0\0\0\0", b"\x1F\x8B\x08\0\0\xFF\xFE\x81\x93"] {
        says(bytes, "the file is no text; a sheet is ASCII", "check which file was given");
    }
    says("s\0h\0e\0", "the file is UTF-16 text; a sheet is ASCII", "iconv");
    says("\0s\0h\0e", "the file is UTF-16 text; a sheet is ASCII", "iconv");
    let foreign = format!("// {}\n{}", "\u{4e2d}".repeat(30), with(""));
    assert_eq!(said(foreign.as_bytes()).title, "line 1 is not the header; the header stands in line 2");
    passes(format!("sheet\t1\tsm_100a\0\n{}", &with("")[HEADER.len()..]), 1, "bytes stand in the header that are not part of it");
}

/// The LF is offered only where the library then accepts the line.
#[test]
fn files_that_are_cut() {
    for (end, line) in [("", 1), ("0", 2), ("0\t", 2), ("0\texi", 2), ("0\texit", 2), ("3\ttcgen05.alloc.cta_gr", 2), ("0 mov.b32 x,", 2)] {
        let bytes = if line == 1 { "sheet\t1\tsm_1".into() } else { format!("{HEADER}{end}") };
        says(&bytes, &format!("the file ends in the middle of line {line}"), "the rest of the file is missing: restore it");
    }
    let refused = format!("{HEADER}0\ttcgen05.alloc.cta_group::1.sync.aligned.b32 [t], 32;\n0\texit;");
    says(&refused, "the last line has no LF at its end", "end the file with an LF; line 3 is then refused: exit while");
    let open = format!("{HEADER}0\tmov.b32 x, 1;");
    let e = said(open.as_bytes());
    assert_eq!(e.title, "the last line has no LF at its end, and no exit follows");
    assert_eq!(helps(&e), "end the file with an LF, if nothing after it is missing");
    assert_eq!(fixed(open.as_bytes()), Some(format!("{open}\n").into_bytes()));
}

#[test]
fn ends_of_lines() {
    let sheet = with(PAIR).replace('\n', "\r\n");
    says(
        &sheet,
        "every line ends in CRLF; a line ends in LF alone",
        "sed -i 's/\\r$//' FILE, or tr -d '\\r' <FILE >NEW\nwith that done the sheet passes",
    );
    let e = said(sheet.as_bytes());
    assert_eq!(e.primary.map(|span| (span.from, span.to)), Some((1, 17)));
    assert_eq!(e.related.iter().map(|span| (span.line, span.from, span.to)).collect::<Vec<_>>(), [(1, 16, 17)]);
    passes(with("0\tmov.b32 x, 1;\r\n"), 2, "line 2 ends in CRLF; a line ends in LF alone");
    says(with("0\tmov.b32 x, 1;\r\n1\tmov.b32 y, 1;\r\n"), "2 of 4 lines end in CRLF; a line ends in LF alone", "sed -i");
    let marked = [b"\xEF\xBB\xBF", sheet.as_bytes()].concat();
    says(&marked, "the file starts with a byte order mark", "sed -i '1s/^\\xEF\\xBB\\xBF//' FILE\nremove the CR");
    assert_eq!(said(&marked).notes[0], "also: every line ends in CRLF; a line ends in LF alone");
    // what is wrong after that is said too
    let wrong = format!("{HEADER}0\texit\n").replace('\n', "\r\n");
    says(&wrong, "every line ends in CRLF; a line ends in LF alone", "with that done line 2 is refused: the statement matches no form");
}

#[test]
fn headers() {
    let rest = format!("{PAIR}0\texit;\n");
    let rows = [
        ("sheet 1 sm_100a\n", "spaces stand in the header where tabs must stand"),
        ("sheet\t\t1\tsm_100a\n", "more than one tab stands between two words of the header"),
        ("sheet\t1\tsm_100a  \n", "blanks stand after the header"),
        (" sheet\t1\tsm_100a\n", "blanks stand before the header"),
        ("Sheet\t1\tSM_100A\n", "in the header `Sheet` must be `sheet` and `SM_100A` must be `sm_100a`"),
        ("shet 1 sm_100a\n", "in the header `shet` must be `sheet`"),
        ("sheet\t1\tsm_100a\tx\n", "the header goes on after its target: 1 word too many"),
        ("", "the header is missing: line 1 is a statement"),
        ("\n", "line 1 is blank; it must be the header"),
        ("\nsheet\t1\tsm_100a\n", "line 1 is blank; the header stands in line 2"),
        ("// a\nsheet\t1\tsm_100a\n", "line 1 is not the header; the header stands in line 2"),
        ("// a\n", "line 1 is not the header"),
        ("sheet\t1\tsm_100a\u{1b}\n", "bytes stand in the header that are not part of it"),
        ("sheet\u{a0}1\u{a0}sm_100a\n", "bytes stand in the header that are not part of it"),
    ];
    for (line, title) in rows {
        passes(format!("{line}{rest}"), 1, title);
    }
    let e = said(b"sheet 1 sm_100a\n0\texit;\n");
    assert_eq!(e.primary.map(|span| span.label).as_deref(), Some("found `sheet 1 sm_100a`, where `sheet<TAB>1<TAB>sm_100a` must stand"));
}

/// What the sheet is for, and what stands in its first line, is not guessed.
#[test]
fn headers_that_are_not_rewritten() {
    let rest = format!("{PAIR}0\texit;\n");
    let alone = "change the header only if this is a sheet of version 1 and its kernel is for sm_100a";
    let rows = [
        ("sheet\t1\tsm_90a", "the target is `sm_90a`"),
        ("sheet\t1\tsm_103a", "the target is `sm_103a`"),
        ("sheet 1 sm_120a", "the target is `sm_120a`"),
        ("\u{feff}sheet\t1\tsm_100f", "the target is `sm_100f`"),
        ("shet\t1\tsm_100", "the target is `sm_100`"),
        ("sheet\t2\tsm_100a", "the version is `2`"),
        ("SHEET\t1.0\tsm_101a", "the version is `1.0` and the target is `sm_101a`"),
        ("sheet\t1", "the target is missing"),
        ("sheet", "the version is missing and the target is missing"),
    ];
    for (line, what) in rows {
        let title = format!("in the header {what}; foot judges sheets of version 1 for sm_100a alone");
        let bytes = format!("{line}\n{rest}");
        match line.strip_prefix('\u{feff}') {
            None => says(bytes, &title, alone),
            Some(_) => {
                says(&bytes, "the file starts with a byte order mark", alone);
                assert_eq!(said(bytes.as_bytes()).notes[0], format!("also: {title}"));
            }
        }
    }
    says(format!("what\n{rest}"), "line 1 is not the header", "if the kernel is for sm_100a");
    says(format!("asm volatile(\"exit;\");\n{rest}"), "line 1 is not the header", "if the kernel is for sm_100a");
    says(format!("0\tmov.b32 x, 1;\n{HEADER}{rest}"), "line 1 is not the header; the header stands in line 2", "move the header to line 1");
    says(".version 8.6\n.target sm_100a\n", "this is PTX, and no sheet", "no other PTX");
    let e = said(rest.as_bytes());
    assert_eq!(helps(&e), "put the header before it, if the kernel is for sm_100a");
}

#[test]
fn spaces_for_tabs() {
    let spaced = with(PAIR).replace('\t', "    ");
    says(&spaced, "spaces stand in the header where tabs must stand", "write one tab for the spaces, in every line: sed -i -E");
    assert!(helps(&said(spaced.as_bytes())).ends_with("with that done the sheet passes"));
    passes(with("0 mov.b32 x, 1;\n"), 2, "a space stands after the warp where one tab must stand");
    passes(with("0    mov.b32 x, 1;\n"), 2, "spaces stand after the warp where one tab must stand");
    says(
        with("0 mov.b32 x, 1;\n1  mov.b32 x, 1;\n"),
        "a space stands after the warp where one tab must stand",
        "with that done the sheet passes",
    );
}

#[test]
fn warps() {
    let rows = [
        ("00\tmov.b32 x, 1;\n", "`00` is no warp: a warp is 0, 1, 2 or 3, or *, which is read as 0"),
        ("w1\tmov.b32 x, 1;\n", "`w1` is no warp: a warp is 0, 1, 2 or 3, or *, which is read as 0"),
        ("mov.b32 x, 1;\n", "the warp field is missing: the line begins with its statement"),
        ("\tmov.b32 x, 1;\n", "the warp field is empty"),
        (" 0\tmov.b32 x, 1;\n", "blanks stand before the warp"),
        ("0mov.b32 x, 1;\n", "no tab stands after the warp: `m` does"),
        ("0:mov.b32 x, 1;\n", "no tab stands after the warp: `:` does"),
        ("0\n", "the line ends after its warp"),
    ];
    for (line, title) in rows {
        passes(with(line), 2, title);
    }
    says(
        with("4\tmov.b32 x, 1;\n"),
        "`4` is no warp: a warp is 0, 1, 2 or 3, or *, which is read as 0",
        "warp 4 of the block is warp 0 of its warpgroup",
    );
    says(
        with("13\tmov.b32 x, 1;\n"),
        "`13` is no warp: a warp is 0, 1, 2 or 3, or *, which is read as 0",
        "warp 13 of the block is warp 1",
    );
    assert_eq!(helps(&said(with("00\tmov.b32 x, 1;\n").as_bytes())), "write `0`");
    for (line, byte) in [("0-3\tmov.b32 x, 1;\n", '-'), ("0,1\tmov.b32 x, 1;\n", ',')] {
        says(with(line), &format!("no tab stands after the warp: `{byte}` does"), "a line for each of them");
    }
    for (line, begin) in [("asm volatile(\"exit;\");\n", "asm"), ("    \"exit;\"\n", "\"exit;\""), ("}\n", "}"), ("foo\texit;\n", "foo")] {
        let title = format!("line 2 begins with `{begin}`, and not with a warp and a tab");
        says(with(line), &title, "after its warp and a tab; C++ and string quotes are not part of a sheet");
    }
}

#[test]
fn lines_that_are_no_statements() {
    passes(with("\n"), 2, "line 2 is blank");
    passes(with("  \t\n"), 2, "line 2 is blank");
    passes(format!("{}\n", with("")), 3, "line 3 is blank");
    passes(with(HEADER), 2, "a second header stands in line 2");
    says(with("").repeat(2), "a second sheet begins here", "put each sheet into its own file");
    passes(with("# a\n"), 2, "line 2 is a comment; comments may not stand in a sheet");
    passes(with("  // a\tb\n"), 2, "line 2 is a comment; comments may not stand in a sheet");
    let two = with("\n\n");
    assert_eq!(helps(&said(two.as_bytes())), "take the line out, and 1 other that is blank too: sed -i '/^\\s*$/d' FILE");
}

#[test]
fn bytes_that_no_line_has() {
    let rows: [(&[u8], &str); 9] = [
        (b"0\tmov.b32 x, 1;\t\n", "a second tab stands in column 16; only the one after the warp may stand in a line"),
        (b"0\tmov.b32\tx,\t1;\t\n", "a second tab stands in column 10; only the one after the warp may stand in a line"),
        (b"0\tmov.b32\tx, 1;\n", "a second tab stands in column 10; only the one after the warp may stand in a line"),
        (b"0\t\tmov.b32 x, 1;\n", "a second tab stands in column 3; only the one after the warp may stand in a line"),
        (b"0\tmov.b32\xC2\xA0x, 1;\n", "a no-break space (C2 A0) stands in column 10; a line has printing ASCII and spaces alone"),
        (
            b"0\tmov.b32 x, \xE2\x80\x9C1;\n",
            "a left double quote (E2 80 9C) stands in column 14; a line has printing ASCII and spaces alone",
        ),
        (b"0\tmov.b32 x, 1\x7F;\n", "a DEL byte (7F) stands in column 15; a line has printing ASCII and spaces alone"),
        (b"0\tmov.b32 x\0, 1;\n", "a NUL byte (00) stands in column 12; a line has printing ASCII and spaces alone"),
        (b"0\tmov.b32 x, 1;\x1B\n", "an escape byte (1B) stands in column 16; a line has printing ASCII and spaces alone"),
    ];
    for (line, title) in rows {
        passes([HEADER.as_bytes(), line, b"0\texit;\n"].concat(), 2, title);
    }
    for (line, help) in [
        ("0\tmov.b32 x, 1;\t\n", "take the tab at the end out"),
        ("0 mov.b32 x, 1;\t\n", "write one tab after the warp and take the tab at the end out"),
        ("0\t\tmov.b32 x, 1;\n", "take the second tab out"),
        ("0\tmov.b32\tx, 1;\n", "write a space for the second tab"),
        ("0\tmov.b32\tx, 1;\t\n", "keep the first tab alone: write spaces, or nothing, for the others"),
    ] {
        assert_eq!(helps(&said(with(line).as_bytes())), help);
    }
    says(
        with("0\tmov.b32 \u{e9}, 1;\n"),
        "the character U+00E9 (C3 A9) stands in column 11; a line has printing ASCII and spaces alone",
        "ASCII",
    );
    let byte = [HEADER.as_bytes(), b"0\tmov.b32 \xFF, 1;\n"].concat();
    says(&byte, "the byte FF stands in column 11; a line has printing ASCII and spaces alone", "ASCII");
    let e = said(&byte);
    assert_eq!(e.primary.map(|span| (span.from, span.to)), Some((1, 12)));
    assert_eq!(e.related.iter().map(|span| (span.from, span.to, span.label.as_str())).collect::<Vec<_>>(), [(11, 12, "the byte FF")]);
}

#[test]
fn long_lines() {
    let line = |length: usize| {
        let names: Vec<String> = (0..128).map(|i| format!("r{i:0>length$}")).collect();
        with(&format!("0\ttcgen05.ld.sync.aligned.32x32b.x128.b32 {{{}}}, [t];\n", names.join(", ")))
    };
    says(line(13), "the line has 2,096 bytes, 48 over the limit of 2,048", "without them the line has 128 bytes fewer");
    says(line(15), "the line has 2,352 bytes, 304 over the limit of 2,048", "shorten each of the 128 registers by 2 bytes");
}

#[test]
fn several_faults_are_put_right_together() {
    passes(format!("{HEADER}0 exit\u{200b};"), 2, "a space stands after the warp where one tab must stand");
    let e = said(format!("{HEADER}0 exit\u{200b};").as_bytes());
    assert_eq!(
        e.notes[..2],
        [
            "also: a zero-width space (E2 80 8B) stands in column 7; a line has printing ASCII and spaces alone",
            "also: the last line has no LF at its end"
        ]
    );
    assert_eq!(helps(&e), "write one tab after the warp, take out a zero-width space (E2 80 8B) and end the file with an LF");
}

/// A sheet that has something of all forms.
const MIXED: &str = "sheet\t1\tsm_100a\n0\tmov.b32 i, 0x08100010;\n0\tmov.b64 b, 0x0000400800100000;\n0\ttcgen05.alloc.cta_group::1.sync.aligned.b32 [d], 64;\n\
    1\ttcgen05.mma.ws.sp.cta_group::1.kind::f16 [d], b, b, [d+8], i, p;\n0\ttcgen05.st.sync.aligned.16x128b.x1.b32 [d+1], {r0, %r1};\n\
    0\ttcgen05.fence::before_thread_sync;\n0\ttcgen05.dealloc.cta_group::1.sync.aligned.b32 d, 64;\n0\texit;\n";

/// Numbers that look random and are the same in each run.
struct Dice(u64);

impl Dice {
    fn roll(&mut self, below: usize) -> usize {
        self.0 = self.0.wrapping_mul(6_364_136_223_846_793_005).wrapping_add(1_442_695_040_888_963_407);
        (self.0 >> 33) as usize % below.max(1)
    }
}

#[test]
fn any_bytes_are_explained_at_the_place_that_the_library_names() {
    let bits: [&[u8]; 30] = [
        b",",
        b";",
        b"[",
        b"]",
        b"{",
        b"}",
        b"+",
        b"-",
        b"*",
        b"(",
        b")",
        b"//",
        b"/*",
        b"*/",
        b"#",
        b"@p ",
        b".",
        b"%",
        b" ",
        b"\t",
        b"\n",
        b"\r\n",
        b"\0",
        b"\xEF\xBB\xBF",
        b"\xC3",
        b"08",
        b"1.5",
        b"exit;",
        b"tcgen05.",
        b"<<",
    ];
    let mut dice = Dice(1);
    for _ in 0..20_000 {
        let mut bytes = MIXED.as_bytes().to_vec();
        for _ in 0..=dice.roll(3) {
            let at = dice.roll(bytes.len() + 1);
            let gone = if dice.roll(2) == 0 { 0 } else { dice.roll(4) };
            let put = if dice.roll(4) == 0 { &b""[..] } else { bits[dice.roll(bits.len())] };
            bytes.splice(at..(at + gone).min(bytes.len()), put.iter().copied());
        }
        let (e, answer) = (said(&bytes), answer_of(&bytes));
        assert_eq!(e.answer, answer);
        if let Some(span) = &e.primary {
            assert_eq!((span.line, span.from), (answer.line as usize, answer.column as usize));
            assert!(span.to >= span.from);
        }
        let texts = [&e.title]
            .into_iter()
            .chain(&e.notes)
            .chain(e.helps.iter().map(|help| &help.text))
            .chain(e.related.iter().map(|span| &span.label));
        for text in texts {
            assert!(
                text.is_ascii() && !text.contains('\n') && (!text.is_empty() || reason(&e) > 5),
                "{text:?}: {:?}",
                String::from_utf8_lossy(&bytes)
            );
        }
    }
}

/// The commands that are named make of a file what is said of them.
#[test]
fn commands_do_what_is_said() {
    let folder = std::env::temp_dir().join(format!("staplehorn-layout-{}", std::process::id()));
    std::fs::create_dir_all(&folder).unwrap();
    let file = folder.join("k.sheet");
    for sheet in [
        "sheet\t1\tsm_100a\r\n0\tmov.b32 x, 1;\r\n0\texit;\r\n",
        "sheet\t1\tsm_100a\r\n0\tmov.b32 x, 1;\r\n0\texit;",
        "\u{FEFF}sheet\t1\tsm_100a\r\n0\texit;\r\n",
        "sheet 1 sm_100a\n0 mov.b32 x, 1;\n0 exit;\n",
        " sheet 1 sm_100a\n0 mov.b32 x, 1;\n0 exit;\n",
        "sheet 1 sm_100a\n0 mov.b32 x, 1;\n0 exit;",
        "sheet 1 sm_100a\n0 mov.b32 x, 1;\n1\t mov.b32 y, 1;\n2  \texit;\n",
    ] {
        std::fs::write(&file, sheet).unwrap();
        let e = said(sheet.as_bytes());
        let (last, others) = e.helps.split_last().unwrap();
        for help in others {
            let command = &help.text[help.text.find("sed -i").unwrap()..];
            let command = command.split(" FILE").next().unwrap();
            assert!(std::process::Command::new("sh").args(["-c", &format!("{command} \"$0\"")]).arg(&file).status().unwrap().success());
        }
        let then = answer_of(&std::fs::read(&file).unwrap());
        let told = match then.reason {
            None => "with that done the sheet passes".to_string(),
            Some(reason) => format!("with that done line {} is refused: {reason}", then.line),
        };
        assert_eq!(last.text, told, "{sheet:?}");
    }
    std::fs::remove_dir_all(&folder).unwrap();
}
