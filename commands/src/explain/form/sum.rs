//! An expression that breaks off: an operator that is not taken, a level too many, a parenthesis that is open or closes nothing, a number
//! or an operator that is not there.

use super::{brief, extent, is_number, offer, say, Spot};
use crate::explain::{shown, Explanation};
use crate::expression::{self, Stop, LEVELS};
use crate::number;

/// How deep an expression that is nested too deep is still read, to say what it comes to.
const DEEPEST: usize = 64;
/// What is taken.
const TAKEN: &str = "an expression has `+`, `-`, `*`, a minus before a number, and parentheses";

/// An expression, from where it begins up to where it does not go on.
struct Broken<'a> {
    s: &'a Spot<'a>,
    from: usize,
    stop: Stop,
}

pub fn explain(s: &Spot, e: &mut Explanation) -> bool {
    if behind_name(s, e) || bracketed(s, e) {
        return true;
    }
    let Some(b) = Broken::at(s) else { return false };
    if b.stop.operand {
        b.nested(e) || b.plus(e) || b.empty(e) || b.missing(e) || b.doubled(e) || b.foreign(e)
    } else {
        b.extra(e) || b.parted(e) || b.unclosed(e) || b.foreign(e) || b.side_by_side(e)
    }
}

/// `[t-4]`: the offset of an address follows a `+`.
fn behind_name(s: &Spot, e: &mut Explanation) -> bool {
    let is_operator = matches!(s.token, b"-" | b"*" | b"/" | b"<" | b">" | b"|" | b"&");
    if !is_operator || !s.could("+") {
        return false;
    }
    let to = extent(s.text, s.at, b"],;");
    let text = brief(&s.text[s.at..to]);
    s.point(e, to, "the offset of an address follows a `+`");
    if s.token != b"-" {
        e.title(format!("`{text}` stands behind a name: a name is no part of an expression, and only `+` and an offset follow it"));
        return say(e, "write `[NAME+NUMBER]`");
    }
    let value = expression::read(s.text, s.at).ok().filter(|read| read.whole.to == to).and_then(|read| read.whole.value);
    if value.is_some_and(|value| value >= 0) {
        e.title(format!("the offset `{text}` has no `+` before it"));
        return offer(s, e, "put a `+` before it", s.edit(s.at, s.at, "+"));
    }
    e.title(format!("`{text}` stands behind a name; an offset follows a `+`, and one below 0 is not read in this version"));
    say(e, "count the column from the start of the allocation, so that the offset is 0 or more")
}

/// `[t+4,8]`: a comma before the `]`.
fn bracketed(s: &Spot, e: &mut Explanation) -> bool {
    let is_closed = s.rest().iter().find(|b| b"[]{;".contains(b)) == Some(&b']');
    s.token == b"," && s.could("]") && is_closed && comma(s, e, "brackets")
}

/// Says of a comma what it stands inside of; what is meant by it is not known.
fn comma(s: &Spot, e: &mut Explanation, inside: &str) -> bool {
    e.title(format!("a `,` stands inside the {inside}"));
    s.point(e, s.at + 1, format!("found `,`, where {} or an operator must stand", s.must()));
    say(e, format!("one number or one expression stands inside the {inside}: write an operator for the `,`, or take it out"))
}

/// Where the number begins that the place is in or behind: after the `+` of an address, or after the comma of a mov, alloc or dealloc.
pub fn begins(s: &Spot) -> Option<usize> {
    let before = s.before();
    let skip = |from: usize| from + s.text[from..].len() - s.text[from..].trim_ascii_start().len();
    let open = before.iter().rposition(|b| b"[,".contains(b))?;
    let first = skip(open + 1);
    let opcode = s.opcode();
    if before[open] == b',' {
        let is_number = opcode.starts_with("mov.") || opcode.contains("alloc.");
        return (is_number && s.operand() == 1).then_some(first);
    }
    let run = s.text[first..].iter().take_while(|b| b.is_ascii_alphanumeric() || b"_$%".contains(b)).count();
    let plus = skip(first + run);
    (run > 0 && !opcode.contains("alloc") && plus < s.at && s.text[plus] == b'+').then(|| skip(plus + 1))
}

impl<'a> Broken<'a> {
    /// The expression that the place is in or behind, if the library stops where this reading does.
    fn at(s: &'a Spot<'a>) -> Option<Broken<'a>> {
        let from = begins(s).filter(|&from| from <= s.at)?;
        let stop = match expression::read(s.text, from) {
            Ok(read) => {
                let gap = s.text.get(read.whole.to..s.at)?;
                gap.iter().all(|&b| b == b' ').then(|| Stop { at: s.at, open: Vec::new(), operand: false })?
            }
            Err(stop) => stop,
        };
        (stop.at == s.at).then_some(Broken { s, from, stop })
    }

    /// What stands before the place, spaces left out: in the expression, or the `+` of the address.
    fn last(&self) -> Option<u8> {
        self.s.before().trim_ascii_end().last().copied().filter(|&b| b != b',')
    }

    fn ends(&self) -> bool {
        matches!(self.s.token, b")" | b"]" | b"," | b";" | b"")
    }

    fn relate(&self, e: &mut Explanation, at: usize, label: &str) {
        e.related(self.s.c.line(), (at + 3, at + 4), label);
    }

    /// One number of this value can stand there.
    fn fits(&self, value: i128) -> bool {
        (0..=if self.s.opcode() == "mov.b64" { u64::MAX.into() } else { i128::from(u32::MAX) }).contains(&value)
    }

    /// Offers what the expression comes to, where that is known and can stand there; else says why none is offered.
    fn comes_to(&self, e: &mut Explanation, value: Result<i128, Lack>, to: usize) -> bool {
        let s = self.s;
        match value {
            Ok(value) if self.fits(value) => {
                offer(s, e, format!("write what it comes to, {value}"), s.edit(self.from, to, value.to_string()))
            }
            Ok(value) => say(e, format!("it comes to {value}, which does not fit here")),
            Err(Lack::Large) => say(e, "it comes to more than fits here"),
            Err(Lack::Zero) => say(e, "it divides by 0"),
            Err(Lack::Missing(mark)) => say(e, format!("a number is missing after the `{mark}`")),
            Err(Lack::Part(a, b)) => say(e, format!("{a}/{b} is not a whole number")),
            Err(Lack::Unknown) => say(e, "write what it comes to as one number"),
        }
    }

    /// A `^` may be a power or exclusive or: says what either comes to, and offers neither.
    fn caret(&self, e: &mut Explanation, text: &str) -> bool {
        let as_read = |caret| evaluated(text, caret).ok().filter(|&value| self.fits(value));
        if let (Some(power), Some(or)) = (as_read(Caret::Power), as_read(Caret::Or)) {
            e.help(format!("if a power is meant by `^`, write {power}; if exclusive or, {or}"));
        }
        true
    }

    fn nested(&self, e: &mut Explanation) -> bool {
        let s = self.s;
        if !self.stop.is_nested(s.text) {
            return false;
        }
        let mark = shown(s.token);
        e.title(format!("the `{mark}` opens level {}: an expression is nested to {LEVELS} levels", LEVELS + 1));
        s.point(e, s.at + 1, format!("{LEVELS} levels are open here"));
        self.relate(e, self.stop.open[0], "the outermost of them opens here");
        e.note("a parenthesis is a level up to its `)`, and a minus before a number or a parenthesis up to the end of that");
        let read = expression::deep(s.text, self.from, DEEPEST).ok();
        let to = read.map_or(s.at, |read| read.whole.to);
        say(e, "take out parentheses and signs that change nothing");
        self.comes_to(e, read.and_then(|read| read.whole.value).ok_or(Lack::Unknown), to)
    }

    /// A plus before a number.
    fn plus(&self, e: &mut Explanation) -> bool {
        let s = self.s;
        if s.token != b"+" {
            return false;
        }
        let to = s.at + s.rest().iter().take_while(|b| b"+ ".contains(b)).count();
        e.title("a `+` stands where a number must begin: a number has no plus before it");
        s.point(e, s.at + 1, "found `+`, where a number must stand");
        offer(s, e, "take the `+` out", s.edit(s.at, to, ""))
    }

    fn empty(&self, e: &mut Explanation) -> bool {
        if self.s.token != b")" || self.last() != Some(b'(') {
            return false;
        }
        e.title("the parentheses are empty");
        self.s.point(e, self.s.at + 1, "a number must stand before the `)`");
        self.relate(e, self.s.end() - 1, "they open here");
        say(e, "write a number between them")
    }

    /// An operator or a parenthesis after which nothing stands.
    fn missing(&self, e: &mut Explanation) -> bool {
        let (s, Some(mark)) = (self.s, self.last().filter(|_| self.ends())) else { return false };
        let mark = char::from(mark);
        e.title(format!("a number is missing after the `{mark}`"));
        let found = if s.token.is_empty() { "the line ends here".into() } else { format!("found `{}`", brief(s.token)) };
        s.point(e, s.at + s.token.len(), format!("{found}, where a number must stand"));
        self.relate(e, s.end() - 1, "nothing stands behind it");
        let kept = s.text[..s.end() - 1].trim_ascii_end().len();
        if "+-*".contains(mark) && s.reads_with(kept, s.at, b"") {
            return offer(s, e, format!("write the number, or take the `{mark}` out"), s.edit(kept, s.at, ""));
        }
        say(e, "write the number")
    }

    /// A `*` where a number must stand.
    fn doubled(&self, e: &mut Explanation) -> bool {
        let s = self.s;
        if s.token != b"*" {
            return false;
        }
        let last = self.last().map(char::from).filter(|ch| "+-*".contains(*ch));
        e.title(match last {
            Some(last) => format!("a `*` stands after a `{last}`, and no number between them"),
            None => "a `*` stands where a number must stand".into(),
        });
        s.point(e, s.at + 1, "a number must stand here");
        match last {
            Some('*') => say(e, format!("a power is not taken: {TAKEN}")),
            _ => say(e, "a `*` has a number on both sides"),
        }
    }

    /// A `)` that closes nothing.
    fn extra(&self, e: &mut Explanation) -> bool {
        let s = self.s;
        if s.token != b")" {
            return false;
        }
        let all = s.rest().iter().take_while(|b| b") ".contains(b)).count();
        let to = s.at + s.rest()[..all].trim_ascii_end().len();
        e.title("a `)` stands here that closes nothing");
        s.point(e, to, "no `(` is open here");
        offer(s, e, "take it out, or put a `(` where it opens", s.edit(s.at, to, ""))
    }

    /// A comma inside parentheses that are closed behind it.
    fn parted(&self, e: &mut Explanation) -> bool {
        let (s, open) = (self.s, self.stop.parentheses(self.s.text));
        let inside = s.rest().split(|b| b"];".contains(b)).next().unwrap_or_default();
        let count = |mark| inside.iter().filter(|&&b| b == mark).count();
        let Some(&last) = open.last().filter(|_| s.token == b"," && count(b')') > count(b'(')) else { return false };
        self.relate(e, last, "they open here");
        comma(s, e, "parentheses")
    }

    /// A `(` that is not closed where the expression ends.
    fn unclosed(&self, e: &mut Explanation) -> bool {
        let (s, open) = (self.s, self.stop.parentheses(self.s.text));
        if open.is_empty() || !self.ends() {
            return false;
        }
        e.title(if open.len() == 1 { "a `(` is not closed".into() } else { format!("{} `(` are not closed", open.len()) });
        let found = if s.token.is_empty() { "the line ends here".into() } else { format!("found `{}`", brief(s.token)) };
        s.point(e, s.at + s.token.len(), format!("{found}, where `)` must stand"));
        for &at in open.iter().take(4) {
            self.relate(e, at, "it opens here");
        }
        let close = ")".repeat(open.len());
        let ended = format!("{close};");
        match s.token.is_empty() && s.reads_with(s.end(), s.text.len(), ended.as_bytes()) {
            true => offer(s, e, format!("write `{ended}` at the end"), s.edit(s.end(), s.text.len(), ended)),
            false => offer(s, e, format!("put `{close}` before it"), s.edit(s.end(), s.end(), close)),
        }
    }

    /// An operator that is not taken.
    fn foreign(&self, e: &mut Explanation) -> bool {
        let s = self.s;
        let marks: &[u8] = if self.stop.operand { b"~!" } else { b"/%<>|&^=?" };
        let length = s.rest().iter().take_while(|b| marks.contains(b)).count();
        if length == 0 {
            return false;
        }
        let mark = brief(&s.rest()[..length]);
        e.title(format!("`{mark}` is not taken in an expression"));
        s.point(e, s.at + length, "no operator of a sheet");
        e.note(TAKEN);
        let to = extent(s.text, self.from, b"],;");
        let text = shown(&s.text[self.from..to]);
        match value(&text) {
            _ if text.contains('^') => self.caret(e, &text),
            // a comparison comes to no number
            Err(Lack::Unknown) if text.contains(['=', '?', '!']) => true,
            value => self.comes_to(e, value, to),
        }
    }

    /// Two numbers without an operator.
    fn side_by_side(&self, e: &mut Explanation) -> bool {
        let s = self.s;
        let is_run = is_number(s.token);
        if !is_run && s.token != b"(" {
            return false;
        }
        let (found, to) = (brief(s.token), s.at + s.token.len());
        e.title(format!("`{found}` stands behind a number, and no operator between them"));
        s.point(e, to, format!("found `{found}`, where {} or an operator must stand", s.must()));
        // with a gap before the `(` a `+` may be meant as well
        if !is_run && s.end() == s.at {
            return offer(s, e, "if they are multiplied, put a `*` between them", s.edit(s.at, s.at, "*"));
        }
        // the two are all of the operand
        let is_all = is_number(&s.text[self.from..s.end()]) && to == extent(s.text, self.from, b"],;");
        let joined = [&s.text[self.from..s.end()], s.token].concat();
        let edit = s.edit(s.end(), s.at, "");
        if is_run && is_all && is_number(&joined) && (s.opcode().starts_with("mov.") || s.passes(&edit)) {
            e.fix(s.c.sheet, format!("if they are one number, write `{}`", brief(&joined)), edit);
        }
        say(e, "put `+`, `-` or `*` between them, or take one of them out")
    }
}

/// `64//2` and `64/*2`: a comment, or a division. Neither is offered, for with the comment out the statement would read.
pub fn divided(s: &Spot, e: &mut Explanation) -> bool {
    let mark = &s.rest()[..s.rest().len().min(2)];
    let Some(b) = Broken::at(s).filter(|b| !b.stop.operand && matches!(mark, b"//" | b"/*")) else { return false };
    if expression::read(s.text, s.at + 2).is_err() {
        return false;
    }
    let mark = shown(mark);
    e.title(format!("`{mark}` stands between numbers: it may begin a comment or be meant as a division, and neither is taken"));
    s.point(e, s.at + 2, "a comment or a division");
    let to = extent(s.text, b.from, b"],;");
    let text = format!("{}/{}", shown(&s.text[b.from..s.at]), shown(&s.text[s.at + 2..to]));
    match value(&text) {
        Ok(value) if b.fits(value) => e.help(format!("if a division is meant, write what it comes to, {value}")),
        Err(Lack::Part(a, b)) => e.help(format!("if a division is meant: {a}/{b} is not a whole number")),
        Err(Lack::Zero) => e.help("if a division is meant: it divides by 0"),
        _ => {}
    }
    say(e, format!("if a comment is meant, take the `{mark}` and what stands behind it out"))
}

/// Operators by how loosely they bind, those that are not taken too.
const BINDING: [&[&str]; 6] = [&["|"], &["^"], &["&"], &["<<", ">>"], &["+", "-"], &["*", "/", "%"]];

/// Why an expression with operators that are not taken has no value that can be written for it.
#[derive(Clone, Copy, PartialEq, Eq, Debug)]
pub enum Lack {
    /// It divides by 0.
    Zero,
    /// A division that is not exact.
    Part(i128, i128),
    /// Nothing stands behind an operator.
    Missing(&'static str),
    /// It has over 64 bits.
    Large,
    /// It is none that is read here, or may mean several things.
    Unknown,
}

/// What a `^` is read as.
#[derive(Clone, Copy, PartialEq, Eq)]
enum Caret {
    Nothing,
    Or,
    Power,
}

/// The value of an expression that may have operators that are not taken; none with a `^`, which may mean two things.
pub fn value(text: &str) -> Result<i128, Lack> {
    evaluated(text, Caret::Nothing)
}

fn evaluated(text: &str, caret: Caret) -> Result<i128, Lack> {
    let mut reader = Reader { text, depth: 0, caret };
    let value = reader.level(0)?;
    reader.text.trim_start().is_empty().then_some(value).ok_or(Lack::Unknown)
}

struct Reader<'a> {
    text: &'a str,
    depth: usize,
    caret: Caret,
}

impl Reader<'_> {
    fn take(&mut self, mark: &str) -> bool {
        let rest = self.text.trim_start().strip_prefix(mark);
        self.text = rest.unwrap_or(self.text);
        rest.is_some()
    }

    fn level(&mut self, level: usize) -> Result<i128, Lack> {
        let Some(operators) = BINDING.get(level) else { return self.powers() };
        let mut value = self.level(level + 1)?;
        while let Some(operator) = operators.iter().find(|&&mark| (mark != "^" || self.caret == Caret::Or) && self.take(mark)) {
            if self.text.trim_start().is_empty() || self.text.trim_start().starts_with(')') {
                return Err(Lack::Missing(operator));
            }
            let other = self.level(level + 1)?;
            value = small(combined(operator, value, other)?)?;
        }
        Ok(value)
    }

    /// Powers, the right one first; of a base below 0 it is not plain whether the minus belongs to it.
    fn powers(&mut self) -> Result<i128, Lack> {
        let base = self.unit()?;
        if self.caret != Caret::Power || !self.take("^") {
            return Ok(base);
        }
        let exponent = self.nested(Self::powers)?;
        match u32::try_from(exponent) {
            Ok(exponent) if base >= 0 => base.checked_pow(exponent).ok_or(Lack::Large).and_then(small),
            _ => Err(Lack::Unknown),
        }
    }

    /// One level further in, if that is not too deep.
    fn nested(&mut self, inner: fn(&mut Self) -> Result<i128, Lack>) -> Result<i128, Lack> {
        if self.depth == LEVELS {
            return Err(Lack::Unknown);
        }
        self.depth += 1;
        let value = inner(self)?;
        self.depth -= 1;
        Ok(value)
    }

    /// A number, a sign and what it belongs to, or what stands in parentheses.
    fn unit(&mut self) -> Result<i128, Lack> {
        if self.take("-") {
            return Ok(-self.nested(Self::unit)?);
        }
        if self.take("(") {
            let value = self.nested(|reader| reader.level(0))?;
            return self.take(")").then_some(value).ok_or(Lack::Unknown);
        }
        let text = self.text.trim_start();
        let length = text.bytes().take_while(u8::is_ascii_alphanumeric).count();
        self.text = &text[length..];
        number::plain64(&text[..length]).map(i128::from).map_err(|_| Lack::Unknown)
    }
}

/// A result of at most 64 bits.
fn small(value: i128) -> Result<i128, Lack> {
    (value.unsigned_abs() < 1 << 64).then_some(value).ok_or(Lack::Large)
}

/// The result of an operator. A division is exact; other operators that are not taken have one only where none is negative, for there
/// signs are no matter.
fn combined(operator: &str, a: i128, b: i128) -> Result<i128, Lack> {
    match operator {
        "+" => Ok(a + b),
        "-" => Ok(a - b),
        "*" => a.checked_mul(b).ok_or(Lack::Large),
        "/" | "%" if b == 0 => Err(Lack::Zero),
        "/" if a % b == 0 => Ok(a / b),
        "/" => Err(Lack::Part(a, b)),
        _ if a < 0 || b < 0 => Err(Lack::Unknown),
        "|" => Ok(a | b),
        "^" => Ok(a ^ b),
        "&" => Ok(a & b),
        "%" => Ok(a % b),
        "<<" if b < 63 => a.checked_mul(1 << b).ok_or(Lack::Large),
        "<<" => Err(Lack::Large),
        _ if b < 63 => Ok(a >> b),
        _ => Err(Lack::Unknown),
    }
}

#[cfg(test)]
mod tests {
    use super::{evaluated, value, Caret, Lack};

    #[test]
    fn values() {
        for (text, right) in [
            ("(32*65536)+4", 2_097_156),
            (" 1 << 16 | 0x10 ", 65_552),
            ("2+3*4-1", 13),
            ("8 - 2 - 1", 5),
            ("- (-4)", 4),
            ("-4", -4),
            ("-64/2", -32),
            ("4/-2", -2),
            ("96/8*2 + 100%8", 28),
            ("6&3|8", 10),
        ] {
            assert_eq!(value(text), Ok(right), "{text}");
        }
        for none in ["", "(1", "x", "1 2", "08", "2^6", "-1|1", "1//2", "1/*2", "64/n", "1<2", "8>>99"] {
            assert_eq!(value(none), Err(Lack::Unknown), "{none}");
        }
        for (text, lack) in [
            ("4/0", Lack::Zero),
            ("4%(1-1)", Lack::Zero),
            ("(3+4)/2*2", Lack::Part(7, 2)),
            ("64/", Lack::Missing("/")),
            ("(1<<)", Lack::Missing("<<")),
            ("1<<99", Lack::Large),
            ("18446744073709551615*2", Lack::Large),
        ] {
            assert_eq!(value(text), Err(lack), "{text}");
        }
        assert_eq!(value(&"(".repeat(2000)), Err(Lack::Unknown));
        assert_eq!(value(&"-".repeat(2000)), Err(Lack::Unknown));
    }

    /// A power binds closer than all others, and exclusive or between `|` and `&`.
    #[test]
    fn carets() {
        for (text, power, or) in [("2^6", Ok(64), Ok(4)), ("1+2^3^2", Ok(513), Ok(2)), ("6&3^1|8", Ok(10), Ok(11))] {
            assert_eq!((evaluated(text, Caret::Power), evaluated(text, Caret::Or)), (power, or), "{text}");
        }
        assert_eq!((evaluated("-2^6", Caret::Power), evaluated("2^99", Caret::Power)), (Err(Lack::Unknown), Err(Lack::Large)));
        assert!(evaluated(&"2^".repeat(2000), Caret::Power).is_err());
    }
}
