//! Where a refusal points: the column and the operand.

use staplehorn_reference::entries::{all, long, sheet};
use staplehorn_reference::judge::{judge, judge_with_operand};
use staplehorn_reference::statement::{judge_alone, read, read_placed, Part, Verdict};

const A32: &str = "0|@alloc [t], 32;";
const D32: &str = "0|@dealloc t, 32;";
const A64: &str = "0|@alloc [t], 64;";
const B: &str = "0|mov.b64 b, 0x0000400800100000;";
const I: &str = "0|mov.b32 i, 0x08100010;";
const EXIT: &str = "0|exit;";
/// Nothing waits for it.
const LOAD: &str = "0|@ld(32x32b.x1) {r}, [t];";

/// Reason, line, column, held, peak of the lines behind a good first one.
fn answer(lines: &[&str]) -> [usize; 5] {
    let answer = judge(&sheet(lines), &mut [0; 100]);
    [answer.reason as usize, answer.line, answer.column, answer.held as usize, answer.peak as usize]
}

#[track_caller]
fn gives(lines: &[&str], want: [usize; 5]) {
    assert_eq!(answer(lines), want, "{lines:?}");
}

/// The line, alone in its sheet, is refused with 3 at this column.
#[track_caller]
fn three(line: &str, column: usize) {
    gives(&[line], [3, 2, column, 0, 0]);
}

/// The operand that the refusal of the last line points at.
#[track_caller]
fn points_at(lines: &[&str], reason: u32, operand: Option<usize>) {
    let (answer, found) = judge_with_operand(&sheet(lines), &mut [0; 100]);
    assert_eq!((answer.reason, answer.line, found), (reason, lines.len() + 1, operand), "{lines:?}");
}

fn alone(text: &str) -> (u32, usize) {
    let Verdict { reason, column, .. } = judge_alone(text.as_bytes());
    (reason, column)
}

// Places where the rules could be taken in two ways or a slip is near.

#[test]
fn a_space_where_none_may_stand() {
    three("0| exit;", 3);
    three("0|exit; ", 8);
    three("0|exit;  x", 8);
    three("0|exit;;", 8);
}

#[test]
fn spaces_at_the_end_where_more_must_come() {
    three("0|exit  ", 9);
    three("0|exit", 7);
    three("0|mov.b32 x, ", 14);
}

#[test]
fn empty_and_blank_statements() {
    three("0|", 3);
    three("0|   ", 3);
}

#[test]
fn the_opcode_is_one_token() {
    three("0|@ld(32x32b.x3) {r}, [t];", 3);
    for line in ["0|[t];", "0|%x;", "0|@;", "0|;", "0|exit.x;", "0|mov.b32x, 1;"] {
        three(line, 3);
    }
}

#[test]
fn a_run_is_one_token() {
    three("0|mov.b32 x, 64abc;", 14);
    three("0|mov.b32 x, 0x1g;", 14);
    three("0|mov.b32 x, 08;", 14);
    three("0|mov.b32 abcdefghijklmnopq, 1;", 11);
    three("0|mov.b32 %abcdefghijklmnop, 1;", 11);
    three("0|@ld(32x32b.x1) {r, rrrrrrrrrrrrrrrrr}, [t];", 45);
}

#[test]
fn a_list_of_129_names() {
    let names = "r,".repeat(128);
    // the comma behind the 128th name
    three(&format!("0|@ld(32x32b.x128) {{{names}r}}, [t];"), 2 + 39 + 2 + 2 * 128);
    three(&format!("0|@st(32x32b.x128) [t], {{{names}r}};"), 2 + 39 + 2 + 5 + 2 * 128);
    three(&format!("0|@ld(32x32b.x128) {{{names}}}, [t];"), 2 + 39 + 2 + 2 * 128);
    three("0|@ld(32x32b.x1) {}, [t];", 42);
}

#[test]
fn percents() {
    three("0|mov.b32 %%a, 1;", 11);
    three("0|mov.b32 a%b, 1;", 12);
    three("0|mov.b32 %, 1;", 11);
    three("0|mov.b32 a%, 1;", 12);
    three("0|mov.b32 x, 64%;", 16);
}

#[test]
fn three_with_something_else_in_the_line() {
    three("0|mov.b32 x, 4294967296", 24);
    three("0|mov.b32 1x, 4294967296;", 11);
    three("0|mov.b32 x, 4294967296;;", 25);
}

#[test]
fn the_leftmost_that_breaks_the_rule() {
    gives(&[A64, B, I, "0|@mma(f16) [t], x, y, i, p;"], [6, 5, 43, 64, 64]);
    gives(&[A64, B, I, "0|@mma(f16) [t], b, x, y, p;"], [6, 5, 46, 64, 64]);
    gives(&["0|@mma(f16) [t+4294967296], [u+4294967296], b, i, p;"], [4, 2, 41, 0, 0]);
    gives(&["0|@mma(f16) [t+1], [u+4294967296], b, i, p;"], [4, 2, 48, 0, 0]);
    // meta stands between b and idesc
    gives(&[A64, B, "0|@mma.sp(f16) [t], b, b, [x], y, p;"], [6, 4, 53, 64, 64]);
}

#[test]
fn a_name_in_brackets() {
    gives(&[A32, "0|mov.b32 t, 1;"], [6, 3, 11, 32, 32]);
    gives(&[A32, "0|@alloc [t], 32;"], [6, 3, 48, 32, 32]);
    gives(&[A32, "0|@alloc [ t ], 32;"], [6, 3, 49, 32, 32]);
    gives(&["0|@ld(32x32b.x1) {r}, [  t];"], [6, 2, 49, 0, 0]);
}

#[test]
fn an_address_begins_at_its_bracket() {
    gives(&[A64, "0|@ld(32x32b.x1) {r}, [t+64];"], [14, 3, 46, 64, 64]);
    gives(&[A64, "0|@ld(32x32b.x1) {r},  [ t+64];"], [14, 3, 47, 64, 64]);
    gives(&[A64, "0|@st(32x32b.x1) [t+64], {r};"], [14, 3, 41, 64, 64]);
}

#[test]
fn the_leftmost_descriptor_without_a_reading() {
    let zero = "0|mov.b64 b, 0;";
    gives(&[A64, I, zero, "0|@mma(f16) [t], b, b, i, p;"], [12, 5, 43, 64, 64]);
    gives(&[A64, "0|mov.b32 i, 3;", zero, "0|@mma(f16) [t], [t], b, i, p;"], [12, 5, 48, 64, 64]);
    gives(&[A64, "0|mov.b32 i, 3;", B, "0|@mma(f16) [t], b, b, i, p;"], [12, 5, 49, 64, 64]);
}

#[test]
fn warps() {
    gives(&[A32, "1|@dealloc t, 32;"], [8, 3, 1, 32, 32]);
    gives(&[A32, "1|@alloc [u], 32;"], [8, 3, 1, 32, 32]);
    gives(&[A32, "1|@relinquish;"], [8, 3, 1, 32, 32]);
    gives(&[A32, "1|@ld(32x32b.x1) {r}, [t];"], [8, 3, 46, 32, 32]);
    gives(&[A32, "1|@st(32x32b.x1) [t], {r};"], [8, 3, 41, 32, 32]);
}

#[test]
fn exits() {
    gives(&[A32, EXIT], [15, 3, 1, 32, 32]);
    gives(&[A32, D32], [15, 3, 1, 0, 32]);
    gives(&[EXIT, D32], [15, 3, 1, 0, 0]);
    gives(&[], [15, 1, 1, 0, 0]);
    let two = sheet(&[A32, D32, EXIT]);
    let short = judge(&two, &mut []);
    assert_eq!((short.reason, short.line, short.column), (16, 4, 1));
    gives(&[A32, D32, EXIT], [0, 4, 0, 0, 32]);
}

#[test]
fn others_have_the_opcode() {
    gives(&["0|@relinquish;", A32], [10, 3, 3, 0, 0]);
    gives(&["0|@alloc [t], 512;", "0|@alloc [u], 32;"], [11, 3, 3, 512, 512]);
    gives(&["0|@ld(32x32b.x2) {r}, [t];"], [5, 2, 3, 0, 0]);
    gives(&[A32, LOAD, D32], [18, 4, 3, 32, 32]);
    gives(&[A32, LOAD, "0|@dealloc   t , 32 ;"], [18, 4, 3, 32, 32]);
}

#[test]
fn reasons_before_outstanding() {
    gives(&[A32, LOAD, "1|@dealloc u, 64;"], [6, 4, 49, 32, 32]);
    gives(&[A32, LOAD, "1|@dealloc t, 64;"], [8, 4, 1, 32, 32]);
    gives(&[A32, LOAD, "0|@dealloc t, 64;"], [9, 4, 52, 32, 32]);
    gives(&[A32, LOAD, EXIT], [15, 4, 1, 32, 32]);
    gives(&[EXIT, D32], [15, 3, 1, 0, 0]);
}

#[test]
fn layout_has_the_first_column() {
    gives(&[A32, "0|exit\x7f;"], [2, 3, 1, 32, 32]);
    gives(&[A32, ""], [2, 3, 1, 32, 32]);
    assert_eq!(judge(b"", &mut []).column, 1);
    assert_eq!(judge(b"sheet\t2\tsm_100a\n", &mut []).column, 1);
    assert_eq!(judge(&[b'\n'; 5_000], &mut []).column, 0);
}

#[test]
fn the_listing_is_tested_in_three_steps() {
    let mma = "0|@mma(f16) [t], b, b, i, p;";
    let with = |alloc: &str, word: &str| answer(&[alloc, B, &format!("0|mov.b32 i, {word};"), mma]);
    assert_eq!(with(A64, "0x0C000020"), [13, 5, 49, 64, 64]);
    assert_eq!(with(A64, "0x08000020"), [20, 5, 49, 64, 64]);
    assert_eq!(with(A32, "0x08100020"), [21, 5, 49, 32, 32]);
    assert_eq!(with(A32, "0x08100010"), [14, 5, 38, 32, 32]);
    // reading comes before
    assert_eq!(with(A64, "0x0C000060"), [12, 5, 49, 64, 64]);
    assert_eq!(with(A64, "0x08100030"), [12, 5, 49, 64, 64]);
    assert_eq!(with(A64, "0x08100110"), [12, 5, 49, 64, 64]);
}

#[test]
fn which_types_are_21() {
    let mma = "0|@mma(f16) [t], b, b, i, p;";
    // f32 from f16 and bf16, f16 from two bf16, s32
    for word in ["0x08100410", "0x08100480", "0x08100020"] {
        gives(&[A64, B, &format!("0|mov.b32 i, {word};"), mma], [21, 5, 49, 64, 64]);
    }
    gives(&[A64, B, "0|mov.b32 i, 0x080A00A0;", "0|@mma(i8) [t], b, b, i, p;"], [20, 5, 48, 64, 64]);
}

#[test]
fn n_with_ws_and_sp() {
    let a512 = "0|@alloc [t], 512;";
    let sparse = "0|@mma.ws.sp(f16) [t], b, b, [t], i, p;";
    let end = ["0|@dealloc t, 512;", EXIT];
    gives(&[a512, B, "0|mov.b32 i, 0x08400014;", sparse], [20, 5, 60, 512, 512]);
    points_at(&[a512, B, "0|mov.b32 i, 0x08400014;", sparse], 20, Some(4));
    gives(&[a512, B, "0|mov.b32 i, 0x08200014;", sparse, end[0], end[1]], [0, 7, 0, 0, 512]);
    let dense = "0|@mma.ws(f16) [t], b, b, i, p;";
    gives(&[a512, B, "0|mov.b32 i, 0x08400010;", dense, end[0], end[1]], [0, 7, 0, 0, 512]);
    // reading and M come before
    gives(&[a512, B, "0|mov.b32 i, 0x08400010;", sparse], [12, 5, 60, 512, 512]);
    gives(&[a512, B, "0|mov.b32 i, 0x10400014;", sparse], [13, 5, 60, 512, 512]);
}

#[test]
fn statements_alone() {
    assert_eq!(alone(" exit;"), (3, 1));
    assert_eq!(alone("exit; "), (3, 6));
    assert_eq!(alone("exit"), (3, 5));
    assert_eq!(alone(""), (3, 1));
    assert_eq!(alone("mov.b32 x, 4294967296;"), (4, 12));
    assert_eq!(alone("mov.b64 x, 18446744073709551616;"), (4, 12));
    assert_eq!(alone(&long("@ld(32x32b.x2) {r}, [t];")), (5, 1));
    assert_eq!(alone("exit;"), (0, 0));
    // a byte that no line of a sheet may have
    assert_eq!(judge_alone(b"exit\t;"), Verdict { reason: 3, column: 5, operand: None });
    assert_eq!(judge_alone(b"mov.b32 \xff, 1;"), Verdict { reason: 3, column: 9, operand: None });
}

#[test]
fn statements_that_are_too_long() {
    let spaced = |length: usize, end: &str| format!("exit{}{end}", " ".repeat(length - 4 - end.len()));
    assert_eq!(alone(&spaced(4_096, ";")), (0, 0));
    assert_eq!(alone(&spaced(4_097, ";")), (3, 4_098));
    assert_eq!(alone(&spaced(4_097, "x;")), (3, 4_096));
    assert_eq!(alone(&spaced(4_097, "")), (3, 4_098));
    assert_eq!(alone(&spaced(4_097, "; ")), (3, 4_097));
    let nines = |length: usize| format!("mov.b32 x, {};", "9".repeat(length - 12));
    assert_eq!(alone(&nines(4_096)), (4, 12));
    assert_eq!(alone(&nines(4_097)), (3, 4_098));
    assert_eq!(alone(&format!("nothing{};", " ".repeat(5_000))), (3, 1));
    let registers = |spaces: usize| long(&format!("@ld(32x32b.x2) {{r}},{}[t];", " ".repeat(spaces)));
    assert_eq!(alone(&registers(4_000)), (5, 1));
    assert_eq!(alone(&registers(5_000)), (3, registers(5_000).len() + 1));
}

#[test]
fn the_same_name_twice() {
    gives(&["0|@mma(f16) [x], [x], b, i, p;"], [6, 2, 39, 0, 0]);
    // registers and the predicate are not looked up
    gives(&[A32, "0|@ld(32x32b.x1) {x}, [x];"], [6, 3, 47, 32, 32]);
    gives(&[A64, B, "0|@mma(f16) [t], b, b, p, p;"], [6, 4, 49, 64, 64]);
}

#[test]
fn dots_and_colons_behind_the_opcode() {
    three("0|mov.b32 x.y, 1;", 12);
    three("0|mov.b32 x, 1.5;", 15);
    three("0|mov.b32 x:y, 1;", 12);
    three("0|exit$;", 7);
    three("0|exit$x;", 7);
}

#[test]
fn the_form_goes_on_whatever_it_means() {
    gives(&["0|@ld(32x32b.x1) {a, b}, [t];"], [5, 2, 3, 0, 0]);
    gives(&["0|@ld(32x32b.x1) {a, b}, [t+4294967296];"], [4, 2, 52, 0, 0]);
    gives(&["0|@ld(32x32b.x1) {a}, [t];"], [6, 2, 47, 0, 0]);
    three("0|@ld(32x32b.x1) {a, b}, [t+4294967296]", 63);
}

#[test]
fn numbers() {
    gives(&["0|@alloc [t], 33;"], [9, 2, 52, 0, 0]);
    gives(&["0|@alloc [t],   33;"], [9, 2, 54, 0, 0]);
    gives(&[A32, "0|@dealloc t, 64;"], [9, 3, 52, 32, 32]);
    gives(&["0|@ld(32x32b.x1) {r}, [t + 4294967296];"], [4, 2, 51, 0, 0]);
}

#[test]
fn the_129th_value() {
    let mut lines: Vec<String> = (0..128).map(|i| format!("0|mov.b32 v{i}, 1;")).collect();
    lines.push("0|mov.b64  last, 1;".into());
    let lines: Vec<&str> = lines.iter().map(String::as_str).collect();
    gives(&lines, [7, 130, 12, 0, 0]);
    points_at(&lines, 7, Some(0));
}

#[test]
fn stars_count_one_byte() {
    gives(&["*|@dealloc t, 32;"], [6, 2, 49, 0, 0]);
    gives(&["1|@alloc [t], 32;", "*|@dealloc t, 32;"], [8, 3, 1, 32, 32]);
}

// Operands.

#[test]
fn operands() {
    points_at(&["0|mov.b32 x, 4294967296;"], 4, Some(1));
    points_at(&["0|@ld(32x32b.x1) {r}, [t+4294967296];"], 4, Some(1));
    points_at(&["0|@st(32x32b.x1) [t+4294967296], {r};"], 4, Some(0));
    points_at(&["0|@mma.sp(f16) [t], [t], b, [m+4294967296], i, p;"], 4, Some(3));
    points_at(&[A32, "0|mov.b32 t, 1;"], 6, Some(0));
    points_at(&[A32, A32], 6, Some(0));
    points_at(&[D32], 6, Some(0));
    points_at(&["0|@ld(32x32b.x1) {r}, [t];"], 6, Some(1));
    points_at(&["0|@st(32x32b.x1) [t], {r};"], 6, Some(0));
    points_at(&[A32, "1|@ld(32x32b.x1) {r}, [t];"], 8, Some(1));
    points_at(&[A32, "1|@st(32x32b.x1) [t], {r};"], 8, Some(0));
    points_at(&[A32, "1|@dealloc t, 32;"], 8, None);
    points_at(&["0|@alloc [t], 33;"], 9, Some(1));
    points_at(&[A32, "0|@dealloc t, 64;"], 9, Some(1));
    points_at(&["0|@relinquish;", A32], 10, None);
    points_at(&[A32, "0|@alloc [u], 512;"], 11, None);
    points_at(&[A32, "0|@ld(32x32b.x1) {r}, [t+32];"], 14, Some(1));
    points_at(&[A32, EXIT], 15, None);
    points_at(&[A32, LOAD, D32], 18, None);
    points_at(&["0|nothing;"], 3, None);
    points_at(&["0|@ld(32x32b.x2) {r}, [t];"], 5, None);
    points_at(&["9|exit;"], 2, None);
    points_at(&[EXIT], 0, None);
}

#[test]
fn operands_of_mma() {
    let zero = "0|mov.b64 z, 0;";
    let sparse = "0|mov.b32 s, 0x08100014;";
    let bad = "0|mov.b32 n, 0x08020020;";
    let dense = |operands: &str| format!("0|@mma(f16) {operands}, p;");
    let sp = |operands: &str| format!("0|@mma.sp(f16) {operands}, p;");
    for (line, reason, operand) in [
        (dense("[x], b, b, i"), 6, 0),
        (dense("[t], x, b, i"), 6, 1),
        (dense("[t], [x], b, i"), 6, 1),
        (dense("[t], b, x, i"), 6, 2),
        (dense("[t], b, b, x"), 6, 3),
        (sp("[t], b, b, [x], s"), 6, 3),
        (sp("[t], b, b, [t], x"), 6, 4),
        (dense("[t], z, z, i"), 12, 1),
        (dense("[t], b, z, s"), 12, 2),
        (dense("[t], b, b, s"), 12, 3),
        (sp("[t], b, b, [t], i"), 12, 4),
        (dense("[t], b, b, n"), 21, 3),
        (dense("[t+1], b, b, i"), 14, 0),
        (dense("[t], [t+57], b, i"), 14, 1),
        (sp("[t], b, b, [t+63], s"), 14, 3),
    ] {
        points_at(&[A64, B, I, zero, sparse, bad, &line], reason, Some(operand));
    }
    for (word, reason) in [("0x0A100014", 13), ("0x08000014", 20), ("0x08100024", 21)] {
        let line = format!("0|mov.b32 s, {word};");
        points_at(&[A64, B, &line, &sp("[t], b, b, [t], s")], reason, Some(4));
    }
}

#[test]
fn parts_of_a_statement() {
    let parts = |text: &str| read_placed(text.as_bytes()).unwrap().1;
    assert_eq!(parts("exit;"), []);
    let at = |start, name, number| Part { start, name, number };
    assert_eq!(parts("mov.b32 x, 7;"), [at(8, 8, 8), at(11, 11, 11)]);
    let text = "tcgen05.mma.sp.cta_group::1.kind::i8 [ d+1], [a + 0x2] ,b, [m], i ,p;";
    let of = |piece: &str| text.find(piece).unwrap();
    let want = [
        at(of("[ d"), of("d+1"), of("1]")),
        at(of("[a"), of("a + "), of("0x2")),
        at(of("b, "), of("b, "), of("b, ")),
        at(of("[m]"), of("m],"), of("[m]")),
        at(of("i ,"), of("i ,"), of("i ,")),
        at(of("p;"), of("p;"), of("p;")),
    ];
    assert_eq!(parts(text), want);
    let other = "tcgen05.mma.sp.cta_group::1.kind::i8 [ d+1U], [a + 0b] ,b, [m], i ,p;";
    assert_eq!(judge_alone(other.as_bytes()), Verdict { reason: 3, column: other.find("0b").unwrap() + 1, operand: None });
    let other = other.replace("0b]", "0b10]").replace("[m]", "[m+ 017U]");
    let numbers: Vec<usize> = parts(&other).iter().map(|part| part.number).collect();
    assert_eq!(numbers[..2], [other.find("1U").unwrap(), other.find("0b10").unwrap()]);
    assert_eq!(numbers[3], other.find("017U").unwrap());
}

// Over all entries.

/// The statements of all entries, each once.
fn texts() -> std::collections::BTreeSet<Vec<u8>> {
    let mut texts = std::collections::BTreeSet::new();
    for entry in all().iter().filter(|entry| entry.sheet.len() < 20_000) {
        for line in entry.sheet.split(|&byte| byte == b'\n').skip(1) {
            if let [_, b'\t', text @ ..] = line {
                texts.insert(text.to_vec());
            }
        }
    }
    texts
}

/// Statements that read, from which ends are taken.
fn whole() -> Vec<Vec<u8>> {
    let mut whole: Vec<Vec<u8>> = texts().into_iter().filter(|text| read(text).is_ok()).collect();
    let spaces: Vec<Vec<u8>> = whole.iter().map(|text| [text.strip_suffix(b";").unwrap(), b" ;"].concat()).collect();
    whole.extend(spaces);
    whole
}

/// With 3, what stands before the column can be ended so that it reads, or is
/// nothing at all.
#[test]
fn some_form_goes_on_up_to_the_column() {
    let mut ends: Vec<Vec<u8>> = Vec::new();
    for text in whole() {
        for at in 0..text.len() {
            if text.len() - at < 40 && ends.len() < 200_000 {
                ends.push(text[at..].to_vec());
            }
        }
    }
    // what is open in an expression is closed
    for count in 0..=16 {
        let closes = ")".repeat(count);
        ends.extend(["", "1"].map(|operand| format!("{operand}{closes};").into_bytes()));
    }
    ends.sort_by_key(|end| (end.len(), end.clone()));
    ends.dedup();
    for text in texts() {
        let verdict = judge_alone(&text);
        if verdict.reason != 3 || verdict.column == 1 {
            continue;
        }
        let front = &text[..verdict.column - 1];
        let reads = |end: &Vec<u8>| !matches!(read(&[front, end].concat()), Err(3));
        let ended = front.ends_with(b";");
        assert!(ended && read(front) != Err(3) || !ended && ends.iter().any(reads), "{:?}", String::from_utf8_lossy(&text));
    }
}

/// With 3, what stands behind the token at the column does not matter.
#[test]
fn nothing_behind_the_column_matters() {
    for text in texts() {
        let verdict = judge_alone(&text);
        if verdict.reason != 3 || verdict.column > text.len() {
            continue;
        }
        let is_run = |byte: u8| byte.is_ascii_alphanumeric() || matches!(byte, b'_' | b'$' | b'.' | b':');
        let rest = &text[verdict.column..];
        let more = rest.iter().position(|&byte| !is_run(byte) && byte != b'%').unwrap_or(rest.len());
        let front = &text[..verdict.column + more];
        for end in [&b""[..], b" ", b";", b", 1;", b" {r}, [t];", b"]", b" \t"] {
            let other = [front, end].concat();
            assert_eq!(judge_alone(&other), verdict, "{:?}", String::from_utf8_lossy(&other));
        }
    }
}

/// Cut short, a statement that reads is refused one past its end, or at a word
/// that was cut.
#[test]
fn cut_short() {
    for text in whole() {
        for end in 0..text.len() {
            let verdict = judge_alone(&text[..end]);
            assert_eq!(verdict.reason, 3);
            let cut_word = text[verdict.column - 1..end].iter().all(|byte| byte.is_ascii_alphanumeric() || b"_.:$%".contains(byte));
            assert!(verdict.column == end + 1 || cut_word, "{:?}", String::from_utf8_lossy(&text[..end]));
        }
    }
}
