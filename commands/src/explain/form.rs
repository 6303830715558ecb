//! Reason 3: the statement matches no form. What could stand at the library's column is asked of the library: a candidate can stand there
//! if the library, given the text before it and the candidate, points past the candidate's begin.

mod address;
mod digits;
mod mma;
mod opcode;
mod sum;

use super::layout::is_comment;
use super::{answer_of, counted, listed, shown, Context, Explanation};
use crate::sheet::Edit;
use crate::{expression, number, statement};
use staplehorn::Reason;

/// What is tried at a place, and what it is called.
const SAMPLES: [(&str, &str); 10] = [
    (",", "`,`"),
    (";", "`;`"),
    ("[", "`[`"),
    ("]", "`]`"),
    ("{", "`{`"),
    ("}", "`}`"),
    (")", "`)`"),
    ("+", "`+`"),
    ("x", "a name"),
    ("1", "a number"),
];
/// What an expression may go on with, beside that.
const SIGNS: [&str; 4] = ["+", "-", "*", "("];

const LONGEST_NAME: usize = 16;
const MOST_REGISTERS: usize = 128;

/// A place in a statement at which no form goes on.
struct Spot<'a> {
    c: &'a Context<'a>,
    text: &'a [u8],
    at: usize,
    /// What stands there: the opcode, a run of letters, digits, `_` and `$` with a `%` before it or not, one byte, or nothing.
    token: &'a [u8],
    /// The samples that could stand there; a `+` only where it is that of an address.
    could: Vec<&'static str>,
    /// The signs of an expression that could stand there.
    signs: Vec<&'static str>,
}

impl<'a> Spot<'a> {
    fn new(c: &'a Context<'a>) -> Spot<'a> {
        let text = c.sheet.statement(c.line());
        let at = c.column().saturating_sub(3).min(text.len());
        let could = |sample: &&str| at > 0 && can_stand(&text[..at], sample);
        let mut signs: Vec<_> = SIGNS.into_iter().filter(could).collect();
        if signs[..] == ["+"] {
            signs.clear();
        }
        let could = SAMPLES.iter().map(|row| row.0).filter(|sample| could(sample) && !signs.contains(sample)).collect();
        Spot { c, text, at, token: token(&text[at..], at == 0), could, signs }
    }

    fn before(&self) -> &'a [u8] {
        &self.text[..self.at]
    }

    fn rest(&self) -> &'a [u8] {
        &self.text[self.at..]
    }

    /// Where what stands before the place ends, spaces left out.
    fn end(&self) -> usize {
        self.before().trim_ascii_end().len()
    }

    fn could(&self, sample: &str) -> bool {
        self.could.contains(&sample)
    }

    /// What could stand there, in words; an expression goes on with more.
    fn must(&self) -> String {
        listed(&self.words(), "or")
    }

    fn words(&self) -> Vec<String> {
        SAMPLES.iter().filter(|row| self.could(row.0)).map(|row| row.1.into()).collect()
    }

    /// All that could stand there, in words.
    fn all(&self) -> String {
        listed(&[self.words(), self.signs.iter().map(|sign| format!("`{sign}`")).collect()].concat(), "or")
    }

    fn edit(&self, from: usize, to: usize, text: impl Into<Vec<u8>>) -> Edit {
        Edit { line: self.c.line(), from: from + 3, to: to + 3, text: text.into() }
    }

    /// The edit that puts another statement in place of this one.
    fn instead(&self, new: &[u8]) -> Edit {
        let edit = Edit::between(self.c.line(), self.text, new);
        Edit { from: edit.from + 2, to: edit.to + 2, ..edit }
    }

    /// The library would read the statement with another text in a place.
    fn reads_with(&self, from: usize, to: usize, text: &[u8]) -> bool {
        reads(&[&self.text[..from], text, &self.text[to.max(from)..]].concat())
    }

    /// The library gets past the line with an edit.
    fn passes(&self, edit: &Edit) -> bool {
        let answer = answer_of(&self.c.sheet.edited(edit));
        answer.reason.is_none() || answer.line as usize > self.c.line()
    }

    /// The places of the operands as they stand, also where the `;` is missing.
    fn places(&self) -> Vec<(usize, usize)> {
        let body = self.text.split(|&b| b == b';').next().unwrap_or_default();
        statement::operands(&[body, b";"].concat())
    }

    fn operands(&self) -> Vec<&'a [u8]> {
        self.places().into_iter().map(|(from, to)| &self.text[from..to]).collect()
    }

    /// The statement with two operands in each other's place, the first of them named first.
    fn exchanged(&self, one: usize, other: usize) -> Option<Vec<u8>> {
        let places = self.places();
        let (&(a, b), &(c, d)) = (places.get(one)?, places.get(other)?);
        let text = self.text;
        Some([&text[..a], &text[c..d], &text[b..c], &text[a..b], &text[d..]].concat())
    }

    /// Points from the place up to a place in the statement.
    fn point(&self, e: &mut Explanation, to: usize, label: impl Into<String>) {
        e.point(to.max(self.at) + 3, label);
    }

    fn opcode(&self) -> String {
        shown(statement::opcode(self.text))
    }

    /// Which operand the place is in or before, from 0: the commas outside braces that stand before it.
    fn operand(&self) -> usize {
        let mut depth = 0;
        let commas = self.before().iter().filter(|&&b| {
            depth += i32::from(b == b'{') - i32::from(b == b'}');
            b == b',' && depth <= 0
        });
        commas.count()
    }

    /// The warp field of the line.
    fn warp(&self) -> String {
        shown(self.c.bytes().get(..1).unwrap_or_default())
    }

    /// The operands that the opcode takes, in words.
    fn roles(&self) -> &'static [&'static str] {
        opcode::operands(&self.opcode()).1
    }

    /// The operand at the place, in words.
    fn role(&self) -> Option<&'static str> {
        self.roles().get(self.operand()).copied()
    }
}

/// What a text begins with.
fn token(text: &[u8], first: bool) -> &[u8] {
    let run = |text: &[u8]| text.iter().take_while(|b| b.is_ascii_alphanumeric() || b"_$".contains(b)).count();
    let length = match text.first() {
        _ if first => statement::opcode(text).len(),
        Some(b'%') => 1 + run(&text[1..]),
        _ => run(text),
    };
    &text[..length.max(1).min(text.len())]
}

/// Whether a form goes on with a candidate after a text: the library says so.
fn can_stand(before: &[u8], candidate: &str) -> bool {
    let word = |b: Option<&u8>| b.is_some_and(|b| b.is_ascii_alphanumeric() || b"_$%".contains(b));
    let gap = if word(before.last()) && word(candidate.as_bytes().first()) { " " } else { "" };
    let text = [before, gap.as_bytes(), candidate.as_bytes()].concat();
    let begins = before.len() + gap.len() + 1;
    !staplehorn::statement(&text).is_err_and(|refused| refused.reason == Reason::Form && refused.column <= begins)
}

/// The library reads it, whatever its numbers and its count of registers are.
fn reads(text: &[u8]) -> bool {
    !staplehorn::statement(text).is_err_and(|refused| refused.reason == Reason::Form)
}

fn is_name(text: &[u8]) -> bool {
    reads(&[b"mov.b32 ", text, b",1;"].concat())
}

fn is_number(text: &[u8]) -> bool {
    !matches!(number::plain64(&shown(text)), Err(number::Fault::Spelling | number::Fault::Octal))
}

/// What may be wrong, in the order in which it is asked; each says whether it is that.
type Hint = fn(&Spot, &mut Explanation) -> bool;
const HINTS: [Hint; 24] = [
    blank,
    lead,
    guard,
    comment,
    after,
    opcode::explain,
    full,
    swapped,
    address::explain,
    sum::explain,
    closer,
    mma::count,
    end,
    bad_number,
    bad_name,
    digits::name,
    digits::dot,
    stray,
    mma::metadata,
    mma::mask,
    wrapped,
    comma,
    many,
    few,
];

pub fn explain(c: &Context, e: &mut Explanation) {
    let spot = Spot::new(c);
    if !HINTS.iter().any(|hint| hint(&spot, e)) {
        let found = brief(spot.token);
        e.title(format!("`{found}` cannot stand here"));
        spot.point(e, spot.at + spot.token.len(), format!("found `{found}`"));
    }
    if !spot.could.is_empty() && !is_comment(spot.rest()) {
        e.note(format!("what could stand there: {}, as in `{}`", spot.all(), opcode::shortened(&spot.opcode())));
    }
}

/// No statement at all.
fn blank(s: &Spot, e: &mut Explanation) -> bool {
    if !s.text.trim_ascii().is_empty() {
        return false;
    }
    e.title("the statement is empty");
    s.point(e, s.text.len(), "a statement must stand here");
    offer(s, e, "take the line out", s.c.sheet.without(s.c.line()))
}

/// Spaces before the opcode.
fn lead(s: &Spot, e: &mut Explanation) -> bool {
    let inner = s.text.trim_ascii_start();
    let spaces = s.text.len() - inner.len();
    if s.at > 0 || spaces == 0 {
        return false;
    }
    e.title(if spaces == 1 { "a space stands before the opcode".into() } else { format!("{spaces} spaces stand before the opcode") });
    s.point(e, spaces, "the statement begins directly after the tab");
    offer(s, e, "take the spaces out", s.edit(0, spaces, ""))
}

/// `@p` or `@!p`.
fn guard(s: &Spot, e: &mut Explanation) -> bool {
    if s.at > 0 || !s.text.starts_with(b"@") {
        return false;
    }
    let lead = 1 + s.text[1..].iter().take_while(|b| b"! ".contains(b)).count();
    let length = lead + s.text[lead..].iter().take_while(|b| b.is_ascii_alphanumeric() || b"_$%".contains(b)).count();
    let spaces = s.text[length..].len() - s.text[length..].trim_ascii_start().len();
    let name = brief(&s.text[..length]);
    e.title(format!("the statement has a guard, `{name}`; guards may not stand in a sheet"));
    s.point(e, length, "the guard");
    e.note("a sheet is the record of what is executed, so nothing in it depends on a predicate");
    let inner = &s.text[length + spaces..];
    let opcode = shown(statement::opcode(inner));
    if !reads(inner) && !opcode::opcodes().contains(&opcode) {
        return match opcode.split('.').next().unwrap_or_default() {
            "bra" | "brx" | "call" | "ret" => say(
                e,
                "branches are left out of a sheet: write the statements that are executed one after another, a loop as often as it is run",
            ),
            "tcgen05" | "mov" => say(e, format!("the guard is not all: no form has the opcode `{}` either", brief(opcode.as_bytes()))),
            _ => say(e, "leave the line out: without its guard it is not part of a sheet either"),
        };
    }
    offer(s, e, "write the statement without the guard if it is executed", s.edit(0, length + spaces, ""));
    say(e, "take the line out if it is not executed")
}

/// A comment before, in or after the statement.
fn comment(s: &Spot, e: &mut Explanation) -> bool {
    let spaces = s.rest().len() - s.rest().trim_ascii_start().len();
    let text = s.rest().trim_ascii_start();
    if !is_comment(text) {
        return false;
    }
    let closed = ends_comment(text).filter(|_| text.starts_with(b"/*"));
    let length = closed.unwrap_or(text.len());
    if closed.is_none() && (text.starts_with(b"//") || last_line(s).is_none()) && sum::divided(s, e) {
        return true;
    }
    e.title("a comment stands in the line; comments may not stand in a sheet");
    s.point(e, s.at + spaces + length, "the comment");
    if text.starts_with(b"/*") && closed.is_none() && over_lines(s, e) {
        return true;
    }
    let (before, behind) = (s.before().trim_ascii_end(), text[length..].trim_ascii());
    let kept = [before, gap(before, behind), behind].concat();
    if kept.is_empty() {
        return offer(s, e, "take the line out", s.c.sheet.without(s.c.line()));
    }
    let ended = [&kept[..], b";"].concat();
    offer(s, e, "take the comment out", s.instead(if reads(&ended) { &ended } else { &kept }))
}

/// The later line in which a comment ends, and where.
fn last_line(s: &Spot) -> Option<(usize, usize)> {
    let ends = |line: usize| Some((line, ends_comment(s.c.sheet.line(line))?));
    (s.c.line() + 1..=s.c.sheet.count()).find_map(ends)
}

/// A comment that ends in a later line.
fn over_lines(s: &Spot, e: &mut Explanation) -> bool {
    let Some((last, end)) = last_line(s) else { return false };
    let alone = s.before().is_empty() && s.c.sheet.line(last)[end..].trim_ascii().is_empty();
    let kept = if alone { "" } else { "; keep the statement that stands before or after it" };
    say(e, format!("the comment goes on up to the `*/` in line {last}: every line of it must go, {} to {last}{kept}", s.c.line()))
}

/// Past the end of a block comment.
fn ends_comment(text: &[u8]) -> Option<usize> {
    text.windows(2).position(|pair| pair == b"*/").map(|at| at + 2)
}

/// The space that stands between two parts of a statement.
fn gap(before: &[u8], behind: &[u8]) -> &'static [u8] {
    let tight = before.last().is_none_or(|b| b"[{(+-*".contains(b)) || behind.first().is_none_or(|b| b",;]})+-*".contains(b));
    if tight {
        b""
    } else {
        b" "
    }
}

/// Anything after the `;`.
fn after(s: &Spot, e: &mut Explanation) -> bool {
    if !s.before().ends_with(b";") || !reads(s.before()) {
        return false;
    }
    let (rest, more) = (s.rest(), s.rest().trim_ascii());
    let out = s.edit(s.at, s.text.len(), "");
    if more.is_empty() {
        let stand = if rest.len() == 1 { "a space stands".into() } else { format!("{} spaces stand", rest.len()) };
        e.title(format!("{stand} after the `;`"));
        s.point(e, s.text.len(), "the line ends directly after its `;`");
        return offer(s, e, "take out what stands after the `;`", out);
    }
    if more.iter().all(|b| b"; ".contains(b)) {
        e.title("a second `;` stands at the end");
        s.point(e, s.text.len(), "nothing follows a `;`");
        return offer(s, e, "take it out", out);
    }
    e.title("something stands after the `;`: a line has one statement");
    s.point(e, s.text.len(), "nothing follows a `;`");
    if reads(more) {
        return say(e, format!("write it on the next line: `{}<TAB>{}`", s.warp(), brief(more)));
    }
    if statement::opcode(more).contains(&b'.') {
        return say(e, "if it is a statement of a sheet, write it on the next line");
    }
    offer(s, e, "take it out", out)
}

/// The line ends, and the statement does not.
fn end(s: &Spot, e: &mut Explanation) -> bool {
    if !s.rest().is_empty() {
        return false;
    }
    s.point(e, s.text.len(), format!("the line ends here, and {} must follow", s.must()));
    if s.could(";") {
        e.title("the `;` at the end of the statement is missing");
        return offer(s, e, "end the statement with `;`", s.edit(s.end(), s.text.len(), ";"));
    }
    e.title(format!("the statement is not whole: {}", lacking(s)));
    true
}

/// The operand that is not there, in words.
fn lacking(s: &Spot) -> String {
    let next = s.operand() + usize::from(s.could(","));
    match s.roles().get(next) {
        Some(role) => format!("operand {} is missing ({role})", next + 1),
        None => format!("{} must follow", s.must()),
    }
}

/// A list of more names than a list has.
fn full(s: &Spot, e: &mut Explanation) -> bool {
    if s.token != b"," || s.could[..] != ["}"] {
        return false;
    }
    let Some(open) = s.before().iter().rposition(|&b| b == b'{') else { return false };
    let list = s.text[open..].split(|&b| b == b'}').next().unwrap_or_default();
    let names = list.split(|&b| b == b',').count();
    e.title(format!("the list has {names} registers; a list has at most {MOST_REGISTERS}"));
    s.point(e, open + list.len(), format!("{} too many", counted((names - MOST_REGISTERS.min(names)) as u64, "register")));
    say(e, "write several statements, each with the registers of its own columns")
}

/// Two operands the other way round.
fn swapped(s: &Spot, e: &mut Explanation) -> bool {
    let what = match s.token {
        b"[" if s.could("{") => "a load has its registers first",
        b"{" if s.could("[") => "a store has its address first",
        b"(" | b"-" => "the name comes before the number",
        token if is_number(token) => "the name comes before the number",
        _ => return false,
    };
    let places = s.places();
    let Some(new) = s.exchanged(0, 1).filter(|new| places.len() == 2 && s.operand() == 0 && reads(new)) else { return false };
    e.title(format!("the operands are exchanged: {what}"));
    s.point(e, places[0].1, "this is the second operand");
    offer(s, e, "exchange them", s.instead(&new))
}

/// A bracket or brace that is not closed.
fn closer(s: &Spot, e: &mut Explanation) -> bool {
    let lost = SAMPLES.iter().map(|row| row.0).find(|mark| ["]", "}"].contains(mark) && s.could(mark));
    let (mark, at) = match (lost, s.token) {
        (Some(mark), b"," | b";" | b"") => (mark, s.end()),
        // in a list, after a comma
        (None, b"[") if s.before().trim_ascii_end().ends_with(b",") && is_in_list(s) => ("}", s.end() - 1),
        _ => return false,
    };
    e.title(format!("the `{mark}` is missing"));
    let found = if s.token.is_empty() { "the line ends here".into() } else { format!("found `{}`", brief(s.token)) };
    s.point(e, s.at + s.token.len(), format!("{found}, and nothing has closed the {}", if mark == "]" { "`[`" } else { "`{`" }));
    offer(s, e, format!("close it with `{mark}`"), s.edit(at, at, mark))
}

fn is_in_list(s: &Spot) -> bool {
    let last = |mark: u8| s.before().iter().rposition(|&b| b == mark);
    last(b'{') > last(b'}')
}

/// A run that starts with a digit.
fn bad_number(s: &Spot, e: &mut Explanation) -> bool {
    if !s.token.first().is_some_and(u8::is_ascii_digit) || !(s.could("1") || s.could("x")) {
        return false;
    }
    if s.could("1") {
        digits::run(s, e)
    } else {
        no_name(s, e)
    }
}

/// A run that starts with a digit where a name stands.
fn no_name(s: &Spot, e: &mut Explanation) -> bool {
    let to = expression::read(s.text, s.at).map_or(s.at + s.token.len(), |read| read.whole.to);
    let found = brief(&s.text[s.at..to]);
    s.point(e, to, expected(s));
    if !is_number(s.token) {
        e.title(format!("`{found}` is no name: it begins with a digit"));
        return true;
    }
    e.title(format!("the number `{found}` stands where a name must stand"));
    let moved = |width, name| format!("put `{}<TAB>mov.b{width} {name}, {found};` before the line, and write `{name}` here", s.warp());
    match s.role().and_then(|role| role.split(',').next()) {
        Some("idesc") => say(e, moved(32, "i")),
        Some(name @ ("a" | "b")) => say(e, moved(64, name)),
        Some("the predicate") => say(e, "write a name, such as `p`: it is not looked up"),
        _ => true,
    }
}

/// What must stand at the place, in words.
fn expected(s: &Spot) -> String {
    let begins = s.before().trim_ascii_end().ends_with(b",") || s.end() == s.opcode().len();
    match s.role().filter(|_| begins && !is_in_list(s)) {
        Some(role) => format!("operand {} must stand here: {role}", s.operand() + 1),
        None => format!("{} must stand here", s.must()),
    }
}

/// A run that starts as a name and is none.
fn bad_name(s: &Spot, e: &mut Explanation) -> bool {
    let begins = s.token.first().is_some_and(|b| b.is_ascii_alphabetic() || b"_$%".contains(b));
    let (found, to) = (brief(s.token), s.at + s.token.len());
    if !begins {
        return false;
    }
    let head = s.before().iter().rev().take_while(|b| b.is_ascii_alphanumeric() || b"_$".contains(b)).count();
    if head > 0 && s.at - head >= s.opcode().len() && s.token.starts_with(b"%") {
        e.title(format!("`{}` is no name: a `%` stands only at the begin of a name", brief(&s.text[s.at - head..to])));
        s.point(e, to, "this starts another name");
        return true;
    }
    if s.could("x") && !is_name(s.token) {
        e.title(format!("`{found}` is no name: {}", naming(s.token)));
        s.point(e, to, counted(s.token.len() as u64, "byte"));
        e.note("a name is a letter and up to 15 letters, digits, `_` or `$`, or one of `_`, `$` and `%` and 1 to 15 of these");
        return true;
    }
    false
}

/// Why a run is no name.
fn naming(run: &[u8]) -> String {
    match run {
        _ if run.len() > LONGEST_NAME => {
            format!(
                "it has {} bytes, {} over the longest of {LONGEST_NAME}; write a shorter one in every line that has it",
                run.len(),
                run.len() - LONGEST_NAME
            )
        }
        b"%" | b"_" | b"$" => "it has one byte; a letter, digit, `_` or `$` must follow".into(),
        _ => "it begins with what no name begins with".into(),
    }
}

/// Bytes that begin no token before a name.
fn stray(s: &Spot, e: &mut Explanation) -> bool {
    let odd = s.rest().iter().take_while(|b| !b.is_ascii_alphanumeric() && !b"_$%[]{},+; ".contains(b)).count();
    let name = token(&s.rest()[odd..], false);
    if odd == 0 || !s.could("x") || !is_name(name) {
        return false;
    }
    let (marks, name) = (brief(&s.rest()[..odd]), brief(name));
    e.title(format!("`{marks}` stands before the name `{name}`; it is no part of a name, and must go"));
    s.point(e, s.at + odd, expected(s));
    if s.role().is_some_and(|role| role.starts_with("the predicate")) {
        e.note("the predicate is a plain name and is not looked up, so that it makes no difference here whether it is negated");
    }
    offer(s, e, format!("write `{name}`"), s.edit(s.at, s.at + odd, ""))
}

/// An operand that lacks its brackets or braces, or that has some where a name stands.
fn wrapped(s: &Spot, e: &mut Explanation) -> bool {
    let name = is_name(s.token);
    let (title, to, new) = match () {
        () if s.token == b"[" && s.could("x") => {
            let to = super::token_end(s.c.bytes(), s.c.column()) - 3;
            let inner = s.text.get(s.at + 1..to - 1).unwrap_or_default().trim_ascii();
            ("an address stands where a name alone must stand", to, inner.to_vec())
        }
        () if name && s.could("[") => {
            let to = extent(s.text, s.at, b",;");
            ("the brackets around the address are missing", to, [b"[", &s.text[s.at..to], b"]"].concat())
        }
        () if name && s.could("{") => {
            let to = registers(s);
            ("the braces around the registers are missing", to, [b"{", &s.text[s.at..to], b"}"].concat())
        }
        () => return false,
    };
    if !s.reads_with(s.at, to, &new) {
        return false;
    }
    e.title(title);
    s.point(e, to, expected(s));
    if s.token == b"[" && s.opcode().starts_with("tcgen05.mma") && s.c.history.allocation(&shown(&new)).is_some() {
        return say(
            e,
            "of the operands that are multiplied only a may stand in Tensor Memory: write the name of a shared memory descriptor",
        );
    }
    let text = if new.is_empty() { "take it out".into() } else { format!("write `{}`", brief(&new)) };
    offer(s, e, text, s.edit(s.at, to, new))
}

/// Up to one of some bytes, spaces before it left out.
fn extent(text: &[u8], from: usize, stops: &[u8]) -> usize {
    let to = text[from..].iter().position(|b| stops.contains(b)).map_or(text.len(), |length| from + length);
    from + text[from..to].trim_ascii_end().len()
}

/// Where registers without braces end: before the address, or the statement's end.
fn registers(s: &Spot) -> usize {
    let stop = extent(s.text, s.at, b"[;");
    let list = s.text[s.at..stop].trim_ascii_end();
    s.at + list.strip_suffix(b",").unwrap_or(list).trim_ascii_end().len()
}

/// A text that is not too long to be said in a sentence.
fn brief(text: &[u8]) -> String {
    match text.len() {
        0..=48 => shown(text),
        length => format!("{} .. {}", shown(&text[..20]), shown(&text[length - 20..])),
    }
}

/// A lost comma, or a lost `+`.
fn comma(s: &Spot, e: &mut Explanation) -> bool {
    let Some(mark) = [",", "+"].into_iter().find(|mark| s.could(mark)) else { return false };
    if mark == "+" && !is_number(s.token) {
        return false;
    }
    let found = brief(s.token);
    let gap = if s.end() == s.at && mark == "," { ", " } else { mark };
    let run = is_name(s.token) || is_number(s.token);
    if !run && !s.reads_with(s.end(), s.end(), gap.as_bytes()) {
        return false;
    }
    e.title(format!("a `{mark}` is missing before `{found}`"));
    s.point(e, s.at + s.token.len(), format!("found `{found}`, where {} must stand", s.must()));
    offer(s, e, format!("put a `{mark}` between them"), s.edit(s.end(), s.end(), gap))
}

/// The statement could end, and something else stands there. It is taken out only if nothing is lost with it.
fn many(s: &Spot, e: &mut Explanation) -> bool {
    if !s.could(";") {
        return false;
    }
    let (roles, to) = (s.roles(), extent(s.text, s.at, b";"));
    let found = &s.text[s.at..to];
    s.point(e, to, "the `;` must stand here");
    if s.token == b"," {
        e.title(format!("operand {} is one too many: `{}` takes {}", roles.len() + 1, s.opcode(), counted(roles.len() as u64, "operand")));
        let roles: Vec<String> = roles.iter().map(|&role| role.into()).collect();
        return say(e, format!("take out the one that does not belong: the operands are {}", listed(&roles, "and")));
    }
    e.title(format!("`{}` stands where the statement must end", brief(found)));
    if roles.is_empty() || !found.iter().any(u8::is_ascii_alphanumeric) {
        return offer(s, e, "end the statement here", s.instead(&[&s.text[..s.end()], b";"].concat()));
    }
    say(e, "take it out if it is not meant, or write it where it belongs: nothing follows the last operand")
}

/// A comma, a closing mark or the `;` where an operand or more of it must stand.
fn few(s: &Spot, e: &mut Explanation) -> bool {
    if s.could.is_empty() {
        return false;
    }
    let found = brief(s.token);
    let behind = s.before().trim_ascii_end();
    s.point(e, s.at + s.token.len(), format!("found `{found}`, where {} must stand", s.must()));
    match s.token {
        b"}" if behind.ends_with(b"{") => {
            e.title("the list of registers is empty");
            say(e, "name at least one register")
        }
        b"]" if behind.ends_with(b"[") => {
            e.title("the brackets are empty");
            say(e, "write a name between them")
        }
        b"}" | b"]" | b";" | b"," if behind.ends_with(b",") => nothing(s, e),
        b";" => {
            e.title(format!("the statement ends too early: {}", lacking(s)));
            true
        }
        b"+" if s.opcode().contains("alloc") => {
            e.title("the address of an alloc has an offset; it has none, not even `+0`");
            offer(s, e, "take the offset out", s.edit(s.end(), extent(s.text, s.at, b"],;"), ""))
        }
        _ => other(s, e),
    }
}

/// Nothing between a comma and what follows it.
fn nothing(s: &Spot, e: &mut Explanation) -> bool {
    e.title(format!("a `,` stands before `{}`, and nothing between them", brief(s.token)));
    match s.token {
        b";" => {}
        b"," if !s.reads_with(s.at, s.at + 1, b"") => {}
        b"," => drop(e.fix(s.c.sheet, "take one of them out", s.edit(s.at, s.at + 1, ""))),
        _ => drop(e.fix(s.c.sheet, "take the `,` out", s.edit(s.end() - 1, s.at, ""))),
    }
    match s.role() {
        Some(role) if !is_in_list(s) => say(e, format!("operand {} is {role}", s.operand() + 1)),
        _ => true,
    }
}

/// Anything else: where only one mark could stand, it may have been meant. A name or a number is never made up.
fn other(s: &Spot, e: &mut Explanation) -> bool {
    e.title(format!("`{}` stands where {} must stand", brief(s.token), s.must()));
    let [mark] = s.could[..] else { return true };
    let behind = s.text[s.at + s.token.len()..].trim_ascii_start();
    let new = [s.before().trim_ascii_end(), mark.as_bytes(), if mark == "," { b" " } else { b"" }, behind].concat();
    if !["x", "1"].contains(&mark) && reads(&new) {
        e.fix(s.c.sheet, format!("write `{mark}` for it"), s.instead(&new));
    }
    true
}

/// Offers an edit, or its words alone where the library gets no further with it; true, for the end of a hint.
fn offer(s: &Spot, e: &mut Explanation, text: impl Into<String>, edit: Edit) -> bool {
    let text = text.into();
    e.fix(s.c.sheet, text.clone(), edit) || say(e, text)
}

/// Offers words; true, for the end of a hint.
fn say(e: &mut Explanation, text: impl Into<String>) -> bool {
    e.help(text);
    true
}
