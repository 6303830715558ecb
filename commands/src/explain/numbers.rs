//! Reasons 4 and 5: a number that is too large for its place, and the count of registers. `partial.rs` has expressions.

use super::{counted, grouped, listed, partial, shown, Context, Explanation};
use crate::sheet::Edit;
use crate::statement::{self, Mma, Operand, Shape, Statement, MEMORY, SHAPES};
use crate::{expression, number};

/// By how much a number is over the largest is said where it is less than this.
pub const NEAR: u128 = 1 << 16;

/// How many bits a number has at most where the line is refused for one.
pub fn bits(c: &Context) -> u32 {
    if statement::opcode(c.sheet.statement(c.line())) == b"mov.b64" {
        64
    } else {
        32
    }
}

/// Reason 4.
pub fn too_large(c: &Context, e: &mut Explanation) {
    let read = expression::read(c.sheet.statement(c.line()), c.column().saturating_sub(3)).ok();
    match read.filter(|read| !read.alone) {
        Some(read) => partial::explain(c, e, &read),
        None => alone(c, e),
    }
}

/// A number and nothing else.
fn alone(c: &Context, e: &mut Explanation) {
    let (written, bits) = (c.token(c.column()), bits(c));
    let most = (1u128 << bits) - 1;
    e.title(match value(&written) {
        Some(value) if value.saturating_sub(most) < NEAR => {
            format!("{}: {} over the largest number of {bits} bits", is(&written, value), grouped128(value.saturating_sub(most)))
        }
        Some(value) => format!("`{}` needs {} bits, and {bits} fit", cut(&written), 128 - value.leading_zeros()),
        None => format!("`{}` needs over 128 bits: over the largest number of {bits} bits", cut(&written)),
    });
    e.point(c.column() + written.len(), format!("at most {} fits here", grouped128(most)));
    if let (Some(value), [b'0', b'0'..=b'7', ..]) = (value(&written), written.as_bytes()) {
        e.note(format!("a leading zero means octal: `{}` is {} in decimal", cut(&written), grouped128(value)));
    }
    place(c, e, &written, value(&written));
}

/// What to do about a number that does not fit its place.
pub fn place(c: &Context, e: &mut Explanation, written: &str, value: Option<u128>) {
    match statement::opcode(c.sheet.statement(c.line())) {
        b"mov.b64" => e.help("a value has at most 64 bits: write a number that fits"),
        b"mov.b32" => moved(c, written, e),
        _ if is_offset(c) => offset(value, e),
        _ => e.help(format!("the number of columns is {}", partial::count(c))),
    }
}

/// `0x10` is 16; the number alone where it is written so.
fn is(written: &str, value: u128) -> String {
    match value.to_string() == written {
        true => format!("`{written}` is too large"),
        false => format!("`{}` is {}, which is too large", cut(written), grouped128(value)),
    }
}

/// A number that is not too long to be said in a sentence.
pub fn cut(written: &str) -> String {
    match (written.get(..24), written.len()) {
        (Some(head), length) if length > 48 => format!("{head}.."),
        _ => written.into(),
    }
}

/// What to do about a number that does not fit `mov.b32`: that depends on what its name is used for.
fn moved(c: &Context, written: &str, e: &mut Explanation) {
    let fits = number::b64(written).is_ok();
    let place = c.span(c.line(), 0);
    let name = shown(c.bytes().get(place.0 - 1..place.1 - 1).unwrap_or_default());
    let wide = "a shared memory descriptor (a and b of an mma) has 64 bits and is moved by `mov.b64`";
    match (first_use(c, &name, is_ab), first_use(c, &name, is_idesc)) {
        (Some(line), None) => {
            let edit = Edit { line: c.line(), from: 3, to: 3 + "mov.b32".len(), text: "mov.b64".into() };
            let text = format!("line {line} has `{name}` as a or b of an mma, a shared memory descriptor of 64 bits: move it by `mov.b64`");
            if !fits || !e.fix(c.sheet, text, edit) {
                e.help(wide);
            }
        }
        (None, Some(line)) => e.help(format!("line {line} has `{name}` as idesc of an mma, which has 32 bits: write a number that fits")),
        _ => {
            if fits {
                e.note("the number fits in 64 bits: `mov.b64` would move it");
            }
            e.help(wide);
            e.help("an instruction descriptor (idesc of an mma) has 32 bits and is moved by `mov.b32`: write a number that fits");
        }
    }
}

fn is_ab(mma: &Mma, name: &str) -> bool {
    mma.b == name || matches!(&mma.a, Operand::Descriptor(a) if a == name)
}

fn is_idesc(mma: &Mma, name: &str) -> bool {
    mma.idesc == name
}

/// The first line with an mma that uses a name so, before another number is moved to it.
fn first_use(c: &Context, name: &str, is_used: fn(&Mma, &str) -> bool) -> Option<usize> {
    let bound = |statement: &Statement| matches!(statement, Statement::Mov { name: other, .. } if other == name);
    let mut lines = c.later().take_while(|(_, statement)| !bound(statement));
    lines.find(|(_, statement)| matches!(statement, Statement::Mma(mma) if is_used(mma, name))).map(|(line, _)| line)
}

fn offset(value: Option<u128>, e: &mut Explanation) {
    e.note("the offset of an address is 65,536 times the lane, plus the column counted from the start of the allocation");
    if let Some(value) = value {
        e.note(format!("this one has lane {} and column {}", grouped128(value >> 16), value & 0xFFFF));
    }
    e.help(format!("lanes are 0 to 127 and columns 0 to 511, so no offset is over {}", grouped(127 * 65_536 + 511)));
}

/// The number that is refused is that of an address.
pub fn is_offset(c: &Context) -> bool {
    let at = c.operand().and_then(|operand| c.operands(c.line()).get(operand).map(|place| place.0));
    at.and_then(|column| c.bytes().get(column - 1)) == Some(&b'[')
}

/// The value of a number in one of the four spellings; none if it is none or has over 128 bits.
fn value(written: &str) -> Option<u128> {
    expression::number(written).flatten()
}

/// Says of the first octal number in a text that it is one, if its digits would be another number as decimals.
pub fn octal_in(text: &str) -> Option<String> {
    let runs = text.split(|ch: char| !ch.is_ascii_alphanumeric()).filter(|run| run.starts_with('0'));
    let mut octals = runs.filter_map(|run| Some((run, value(run)?, run.trim_end_matches('U').parse::<u128>().ok()?)));
    let (run, value, _) = octals.find(|(_, value, decimals)| value != decimals)?;
    Some(format!("`{}` is octal for {value}: a leading zero means octal", cut(run)))
}

/// `grouped`, for numbers of 128 bits.
pub fn grouped128(n: u128) -> String {
    match (u64::try_from(n), n / 1_000, n % 1_000) {
        (Ok(n), _, _) => grouped(n),
        (_, thousands, rest) => format!("{},{rest:03}", grouped128(thousands)),
    }
}

/// Reason 5.
pub fn registers(c: &Context, e: &mut Explanation) {
    let Some(Statement::Access { shape, num, registers: given, store, .. }) = &c.statement else { return };
    let opcode = statement::opcode(c.sheet.statement(c.line())).len();
    let given = *given as u64;
    if *num > shape.largest {
        too_wide(shape, *num, opcode, e);
        return other_num(c, shape, *num, given, "if only these registers are meant, ", e);
    }
    let name = format!("`.{}.x{num}`", shape.name);
    let wanted = u64::from(shape.registers * num);
    e.title(format!("{name} takes {}, and {} given", counted(wanted, "register"), are(given)));
    e.point(opcode + 3, format!("takes {}", counted(wanted, "register")));
    if let Some(&place) = c.operands(c.line()).get(usize::from(*store)) {
        e.related(c.line(), place, counted(given, "register"));
    }
    e.note(format!("`.{}.xN` takes {}", shape.name, per(shape)));
    let less = given.abs_diff(wanted);
    e.help(format!("name {} {}", counted(less, "register"), if given < wanted { "more" } else { "fewer" }));
    if right_num(shape, given).is_none() {
        let each = u64::from(shape.registers);
        let low = (1..=given / each).rev().find(|n| right_num(shape, n * each).is_some()).unwrap_or(1);
        e.help(format!("no `.{}.xN` takes {given}; `.x{low}` takes {}", shape.name, low * each));
    }
    other_num(c, shape, *num, given, "or ", e);
}

fn are(given: u64) -> String {
    format!("{} {}", grouped(given), if given == 1 { "is" } else { "are" })
}

/// How many registers a shape takes.
fn per(shape: &Shape) -> String {
    match shape.registers {
        1 => format!("N registers, for N up to {}", shape.largest),
        n => format!("{n} times N registers, for N up to {}", shape.largest),
    }
}

/// The N with which a shape takes so many registers.
fn right_num(shape: &Shape, given: u64) -> Option<u64> {
    let each = u64::from(shape.registers);
    Some(given / each).filter(|n| n * each == given && *n <= shape.largest.into() && n.is_power_of_two())
}

/// Offers the `.xN` that takes as many registers as are given.
fn other_num(c: &Context, shape: &Shape, num: u32, given: u64, when: &str, e: &mut Explanation) {
    let Some(right) = right_num(shape, given) else { return };
    let (old, new) = (format!(".x{num}."), format!(".x{right}."));
    if let Some(at) = c.sheet.statement(c.line()).windows(old.len()).position(|part| part == old.as_bytes()) {
        let edit = Edit { line: c.line(), from: at + 3, to: at + 3 + old.len(), text: new.into() };
        e.fix(c.sheet, format!("{when}write `.x{right}`, which takes {}", counted(given, "register")), edit);
    }
}

/// N is over the largest of its shape.
fn too_wide(shape: &Shape, num: u32, opcode: usize, e: &mut Explanation) {
    e.title(format!("`.x{num}` is too large for `.{}`: its largest is `.x{}`", shape.name, shape.largest));
    e.point(opcode + 3, format!("`.{}` goes up to `.x{}`", shape.name, shape.largest));
    let all: Vec<String> = SHAPES.iter().map(|shape| format!("`.{}` up to `.x{}`", shape.name, shape.largest)).collect();
    e.note(format!("largest N: {}", listed(&all, "and")));
    let columns = shape.columns * num;
    if columns > MEMORY {
        return e.help(format!("`.x{num}` would take {columns} columns, and there are {MEMORY}: write `.x{}` or less", shape.largest));
    }
    e.help(format!(
        "write {} with `.x{}`, each with {}, and the address of each {} columns after the one before",
        counted(num / shape.largest, "statement"),
        shape.largest,
        counted(shape.registers * shape.largest, "register"),
        shape.columns * shape.largest,
    ));
}

#[cfg(test)]
mod tests {
    use super::super::booking::short::{text, told};
    use super::*;

    /// The library reads the same value where it reads one, and none where none is.
    #[test]
    fn values_are_those_of_the_library() {
        let runs = [
            "0",
            "00U",
            "7",
            "64",
            "64U",
            "0100",
            "040000000000U",
            "0x40",
            "0XfFU",
            "0b101",
            "0B0101U",
            "18446744073709551615",
            "0xFFFFFFFFFFFFFFFF",
        ];
        for run in runs {
            assert_eq!(value(run).and_then(|value| u64::try_from(value).ok()), number::plain64(run).ok(), "{run}");
        }
        for run in ["", "U", "08", "0x", "0b", "0b2", "64u", "64UU", "0x1g", "x", "+1", "0x+1", "1_0"] {
            assert_eq!((expression::number(run), number::plain64(run).is_err()), (None, true), "{run}");
        }
        assert_eq!(value("0x10000000000000000"), Some(1 << 64));
        assert_eq!(value(&"9".repeat(60)), None);
    }

    /// By how much a number is too large is said where it is near; octal is said in decimal.
    #[test]
    fn how_far_a_number_is_over() {
        let ld = |offset: &str| format!("0 ld {{r}}, [t+{offset}];");
        let rows = [
            ("0 mov.b32 x, 0x4000404001000002;".into(), "4: `0x4000404001000002` needs 63 bits, and 32 fit\n"),
            ("0 mov.b32 x, 4294967301;".into(), "4: `4294967301` is too large: 6 over the largest number of 32 bits\n"),
            ("0 mov.b32 x, 4295032830;".into(), "4: `4295032830` is too large: 65,535 over the largest number of 32 bits\n"),
            ("0 mov.b32 x, 4295032831;".into(), "4: `4295032831` needs 33 bits, and 32 fit\n"),
            ("0 mov.b64 x, 0x1FFFFFFFFFFFFFFFF;".into(), "4: `0x1FFFFFFFFFFFFFFFF` needs 65 bits, and 64 fit\n"),
            (ld("0400000000000"), "4: `0400000000000` needs 36 bits, and 32 fit\n"),
            (ld("0400000000000"), "note: a leading zero means octal: `0400000000000` is 34,359,738,368 in decimal\n"),
        ];
        for (line, says) in rows {
            let text = text(&[&line, "0 exit;"]);
            assert!(text.contains(says), "{text}");
            assert_eq!(text.contains("octal"), line.contains("+0"), "{text}");
        }
    }

    /// What a number that does not fit 32 bits is meant for is taken from what uses its name.
    #[test]
    fn a_descriptor_that_is_moved_at_the_wrong_width() {
        let helps = |lines: &[&str]| {
            let (e, answers) = told(lines);
            (e.helps.iter().map(|help| help.text.clone()).collect::<Vec<_>>(), answers)
        };
        let (alloc, idesc, end) = ("0 alloc [t], 64;", "0 mov.b32 i, 0x08100010;", ["0 dealloc t, 64;", "0 exit;"]);
        let mov = "0 mov.b32 d, 0x4000404001000002;";
        let (said, answers) = helps(&[alloc, idesc, mov, "0 mma [t], d, d, i, p;", end[0], end[1]]);
        assert_eq!(said, ["line 5 has `d` as a or b of an mma, a shared memory descriptor of 64 bits: move it by `mov.b64`"]);
        assert_eq!(answers.iter().map(|answer| answer.reason).collect::<Vec<_>>(), [None]);
        let (said, answers) = helps(&[alloc, "0 mov.b32 i, 0x1008100010;", "0 mma [t], d, d, i, p;", end[0], end[1]]);
        assert_eq!(said, ["line 4 has `i` as idesc of an mma, which has 32 bits: write a number that fits"]);
        assert!(answers.is_empty());
        // both, none, or only after another number is moved to it
        for later in ["0 mma [t], d, b, d, p;", "0 wait;", "0 mov.b64 d, 1;"] {
            let (said, answers) = helps(&[alloc, mov, later, "0 mma [t], b, b, i, p;", end[0], end[1]]);
            assert_eq!((said.len(), answers.len()), (2, 0), "{later}");
        }
        let (said, answers) = helps(&[alloc, "0 mov.b32 d, 0x10000000000000000;", "0 mma [t], d, d, i, p;"]);
        assert_eq!(
            (said, answers.len()),
            (vec!["a shared memory descriptor (a and b of an mma) has 64 bits and is moved by `mov.b64`".into()], 0)
        );
    }

    /// The N for the registers that are named is offered beside the statements that take all columns.
    #[test]
    fn an_n_that_is_too_large() {
        let list = |n: usize| vec!["r"; n].join(", ");
        let ld = |n: usize| format!("0 tcgen05.ld.sync.aligned.16x256b.x64.b32 {{{}}}, [t];", list(n));
        for (registers, helps, offered) in [(64, 2, 1), (4, 2, 1), (63, 1, 0), (12, 1, 0)] {
            let (e, answers) = told(&["0 alloc [t], 512;", &ld(registers), "0 wait;", "0 dealloc t, 512;", "0 exit;"]);
            assert_eq!((e.helps.len(), answers.len()), (helps, offered), "{registers}");
            assert!(e.helps[0].text.starts_with("write 2 statements with `.x32`"));
            assert!(answers.iter().all(|answer| answer.reason.is_none()));
        }
        let text = text(&["0 alloc [t], 512;", &ld(64), "0 exit;"]);
        assert!(text.contains("if only these registers are meant, write `.x16`, which takes 64 registers"), "{text}");
    }

    #[test]
    fn thousands() {
        assert_eq!(grouped128(1 << 64), "18,446,744,073,709,551,616");
        assert_eq!(grouped128(7), "7");
        assert_eq!(grouped128(u128::MAX), "340,282,366,920,938,463,463,374,607,431,768,211,455");
    }

    /// What is said of largest N and of counts of registers is the library's.
    #[test]
    fn shapes_are_those_of_the_library() {
        for shape in &SHAPES {
            for num in [1, 2, 4, 8, 16, 32, 64, 128] {
                for registers in 1..=128 {
                    let list = vec!["r"; registers as usize].join(",");
                    let text = format!("tcgen05.ld.sync.aligned.{}.x{num}.b32 {{{list}}}, [t];", shape.name);
                    let fits = num <= shape.largest && registers == shape.registers * num;
                    assert_eq!(staplehorn::statement(text.as_bytes()).is_ok(), fits, "{text}");
                }
            }
        }
    }
}
