//! Why a sheet is refused, in words. Reason, line, column, held and peak are the library's answer and come from nowhere else. What is
//! added is taken from lines that the library accepted; the allocations that are named add up to the held that it answered, or none is
//! named. A fix is shown only if the library, asked about the sheet with that fix, gets further than before.

mod booking;
mod cells;
mod descriptors;
mod form;
mod layout;
mod names;
mod numbers;
mod outstanding;
mod partial;

use crate::expression;
use crate::history::History;
use crate::sheet::{Edit, Sheet};
use crate::statement::{self, Statement};
use staplehorn::{Answer, Reason};
use std::cell::OnceCell;

/// Bytes of a line, from a column, counted from 1, up to one before another, with what is said of them.
#[derive(Clone, PartialEq, Eq, Debug)]
pub struct Span {
    pub line: usize,
    pub from: usize,
    pub to: usize,
    pub label: String,
}

/// What would have been right, and, where the library has been asked about it, the edit.
#[derive(Clone, PartialEq, Eq, Debug)]
pub struct Help {
    pub text: String,
    pub edit: Option<Edit>,
}

#[derive(Clone, Debug)]
pub struct Explanation {
    /// The library's.
    pub answer: Answer,
    /// One sentence, without a full stop.
    pub title: String,
    /// What is pointed at: from the library's column on. None for reason 1 and on a pass.
    pub primary: Option<Span>,
    /// Earlier lines that are behind it.
    pub related: Vec<Span>,
    /// What is behind it, each a sentence or a few lines.
    pub notes: Vec<String>,
    pub helps: Vec<Help>,
    /// What the accepted lines did, if it agrees with the library's held; placed where the library could be asked.
    pub history: Option<History>,
}

/// What an explanation is made from.
pub struct Context<'a> {
    pub sheet: &'a Sheet<'a>,
    pub answer: Answer,
    pub history: History,
    /// The refused line's statement, where it reads.
    pub statement: Option<Statement>,
    /// How many bytes were given, those after a sheet's most included.
    pub size: usize,
    /// What `later` has read.
    ahead: OnceCell<Vec<(usize, Statement)>>,
}

impl<'a> Context<'a> {
    pub fn line(&self) -> usize {
        self.answer.line as usize
    }

    pub fn column(&self) -> usize {
        self.answer.column as usize
    }

    /// The refused line.
    pub fn bytes(&self) -> &'a [u8] {
        self.sheet.line(self.line())
    }

    pub fn warp(&self) -> u32 {
        self.sheet.warp(self.line())
    }

    /// The places of a line's operands, as columns, from and up to; the line's statement reads.
    pub fn operands(&self, line: usize) -> Vec<(usize, usize)> {
        statement::operands(self.sheet.statement(line)).into_iter().map(|(from, to)| (from + 3, to + 3)).collect()
    }

    /// Which operand of the refused line the column is in, from 0.
    pub fn operand(&self) -> Option<usize> {
        self.operands(self.line()).iter().position(|&(from, to)| (from..to).contains(&self.column()))
    }

    /// What stands at a column of the refused line, as text: see `token_end`.
    pub fn token(&self, column: usize) -> String {
        let bytes = self.bytes();
        let from = column.saturating_sub(1).min(bytes.len());
        shown(&bytes[from..token_end(bytes, column) - 1])
    }

    /// The number or the expression that starts at the column of the refused line, as text.
    pub fn number(&self) -> String {
        let (text, from) = (self.sheet.statement(self.line()), self.column().saturating_sub(3));
        match expression::read(text, from.min(text.len())) {
            Ok(read) => shown(&text[from..read.whole.to]),
            Err(_) => self.token(self.column()),
        }
    }

    /// The place of a line's operand, counted from 0; of its opcode where it has no such operand.
    pub fn span(&self, line: usize, operand: usize) -> (usize, usize) {
        let opcode = (3, 3 + statement::opcode(self.sheet.statement(line)).len());
        self.operands(line).get(operand).copied().unwrap_or(opcode)
    }

    /// The lines after the refused one that read, each with its statement. The library has not judged them.
    pub fn later(&self) -> impl Iterator<Item = (usize, &Statement)> {
        let lines = self.line() + 1..=self.sheet.count();
        let read = || lines.filter_map(|line| Some((line, statement::read(self.sheet.statement(line))?))).collect();
        self.ahead.get_or_init(read).iter().map(|(line, statement)| (*line, statement))
    }
}

/// One past the last column of what starts at a column: an address or list up to its bracket, a run of letters, digits, `_`, `$` and `%`
/// (at column 3 also `.` and `:`), else one byte; at the line's end the column itself.
pub fn token_end(line: &[u8], column: usize) -> usize {
    let from = column.saturating_sub(1).min(line.len());
    let rest = &line[from..];
    let length = match rest.first() {
        None => 0,
        Some(b'[') => rest.iter().position(|&b| b == b']').map_or(1, |i| i + 1),
        Some(b'{') => rest.iter().position(|&b| b == b'}').map_or(1, |i| i + 1),
        Some(_) => {
            let word = |b: &u8| b.is_ascii_alphanumeric() || b"_$%".contains(b) || column == 3 && b".:".contains(b);
            rest.iter().take_while(|b| word(b)).count().max(1)
        }
    };
    from + length + 1
}

/// Bytes as text: each byte that does not print as `\x` and two digits.
pub fn shown(bytes: &[u8]) -> String {
    bytes.iter().map(|&b| if (32..127).contains(&b) { (b as char).to_string() } else { format!("\\x{b:02x}") }).collect()
}

/// `1 column`, `2 columns`.
pub fn counted(n: impl Into<u64>, word: &str) -> String {
    let n = n.into();
    format!("{} {word}{}", grouped(n), if n == 1 { "" } else { "s" })
}

/// A number with a comma between thousands.
pub fn grouped(n: u64) -> String {
    let digits = n.to_string();
    let mut text = String::new();
    for (i, digit) in digits.chars().enumerate() {
        if i > 0 && (digits.len() - i) % 3 == 0 {
            text.push(',');
        }
        text.push(digit);
    }
    text
}

/// `a`, `a and b`, `a, b and c`.
pub fn listed(parts: &[String], word: &str) -> String {
    match parts {
        [] => String::new(),
        [one] => one.clone(),
        [first @ .., last] => format!("{} {word} {last}", first.join(", ")),
    }
}

/// The one of some names that is nearest to a name, if it is near.
pub fn nearest<'n>(name: &str, names: impl Iterator<Item = &'n str>) -> Option<&'n str> {
    let near = names
        .map(|other| (strsim::damerau_levenshtein(name, other), other))
        .filter(|&(distance, other)| distance > 0 && distance * 3 <= other.len().max(name.len()).max(3));
    near.min_by_key(|&(distance, _)| distance).map(|(_, other)| other)
}

impl Explanation {
    fn new(answer: Answer) -> Explanation {
        let title = answer.reason.map_or_else(|| "passed".into(), |reason| reason.to_string());
        Explanation { answer, title, primary: None, related: Vec::new(), notes: Vec::new(), helps: Vec::new(), history: None }
    }

    /// Says in other words what is wrong.
    pub fn title(&mut self, text: impl Into<String>) {
        self.title = text.into();
    }

    /// Says something of what stands at the library's column, up to `to`.
    pub fn point(&mut self, to: usize, label: impl Into<String>) {
        let from = self.answer.column as usize;
        self.primary = Some(Span { line: self.answer.line as usize, from, to: to.max(from), label: label.into() });
    }

    pub fn related(&mut self, line: usize, (from, to): (usize, usize), label: impl Into<String>) {
        self.related.push(Span { line, from, to, label: label.into() });
    }

    pub fn note(&mut self, text: impl Into<String>) {
        self.notes.push(text.into());
    }

    pub fn help(&mut self, text: impl Into<String>) {
        self.helps.push(Help { text: text.into(), edit: None });
    }

    /// Offers an edit, if the library gets further with it; says whether it does.
    pub fn fix(&mut self, sheet: &Sheet, text: impl Into<String>, edit: Edit) -> bool {
        let further = gets_further(sheet, &self.answer, &edit);
        if further {
            self.helps.push(Help { text: text.into(), edit: Some(edit) });
        }
        further
    }
}

/// The order in which the reasons of a line are asked; that exit is missing is asked after all of them.
const ASKED: [u32; 18] = [1, 2, 3, 4, 5, 6, 7, 8, 9, 10, 11, 12, 13, 20, 21, 14, 15, 18];

/// The library passes a sheet after an edit, or refuses it later than it did: at a later line, for a reason that is asked later, or further
/// right.
fn gets_further(sheet: &Sheet, old: &Answer, edit: &Edit) -> bool {
    let edited = sheet.edited(edit);
    let new = answer_of(&edited);
    let place = |sheet: &Sheet, answer: &Answer, moved: i64, shifted: i64| {
        (i64::from(answer.line) - moved, rank(sheet, answer), i64::from(answer.column) - shifted)
    };
    match new.reason {
        None => true,
        Some(Reason::Size) => false,
        Some(_) => place(&Sheet::new(&edited), &new, sheet.moved(edit), shifted(old, edit)) > place(sheet, old, 0, 0),
    }
}

/// When a refusal was asked in its line.
fn rank(sheet: &Sheet, answer: &Answer) -> usize {
    let asked = ASKED.iter().position(|&n| answer.reason.is_some_and(|reason| reason.number() == n));
    asked.filter(|_| !booking::is_without_exit(sheet, answer)).unwrap_or(ASKED.len())
}

/// By how many columns an edit moves what was refused to the right: one that stands before it in its line.
fn shifted(old: &Answer, edit: &Edit) -> i64 {
    let before = edit.line == old.line as usize && edit.to <= old.column as usize && edit.added() == 0;
    if before {
        edit.text.len() as i64 - (edit.to - edit.from) as i64
    } else {
        0
    }
}

/// The library's answer.
pub fn answer_of(sheet: &[u8]) -> Answer {
    staplehorn::judge_into(sheet, &mut vec![0; staplehorn::MOST_ALLOCS])
}

/// Explains what the library answers for a sheet. `size` is how many bytes there were where `bytes` has only the first of them.
pub fn explain(bytes: &[u8], size: usize) -> Explanation {
    told(&Sheet::new(bytes), answer_of(bytes), size)
}

/// Explains an answer for a sheet.
fn told(sheet: &Sheet, answer: Answer, size: usize) -> Explanation {
    let mut e = Explanation::new(answer);
    let mut c = Context { sheet, answer, history: History::default(), statement: None, size, ahead: OnceCell::new() };
    let Some(reason) = answer.reason else {
        let mut history = History::of(sheet, answer.line as usize);
        let placed = staplehorn::judge(sheet.bytes).is_ok_and(|passed| history.put(&passed.starts));
        e.history = (placed && history.held() == 0).then_some(history);
        return e;
    };
    if reason == Reason::Size {
        layout::size(&c, &mut e);
        return e;
    }
    e.point(token_end(c.bytes(), c.column()), "");
    c.statement = statement::read(sheet.statement(c.line()));
    let accepted = if booking::is_without_exit(sheet, &answer) { c.line() } else { c.line().saturating_sub(1) };
    c.history = History::of(sheet, accepted);
    if c.history.held() != answer.held {
        // says no more than what is proved
        return e;
    }
    c.history.place(answer.peak);
    say(reason, &c, &mut e);
    e.history = Some(c.history);
    e
}

/// What is to be said of each reason.
fn say(reason: Reason, c: &Context, e: &mut Explanation) {
    match reason {
        Reason::Layout => layout::explain(c, e),
        Reason::Form => form::explain(c, e),
        Reason::Number => numbers::too_large(c, e),
        Reason::Registers => numbers::registers(c, e),
        Reason::Name => names::explain(c, e),
        Reason::Values => names::full(c, e),
        Reason::Warp => match c.statement {
            Some(Statement::Access { .. }) => cells::lane(c, e),
            _ => booking::warp(c, e),
        },
        Reason::Columns => booking::columns(c, e),
        Reason::Relinquished => booking::relinquished(c, e),
        Reason::Space => booking::space(c, e),
        Reason::Descriptor | Reason::ShapeM | Reason::ShapeN | Reason::Types => descriptors::explain(c, e),
        Reason::Cells => cells::explain(c, e),
        Reason::Exit => booking::exit(c, e),
        Reason::Outstanding => outstanding::explain(c, e),
        _ => {}
    }
}

#[cfg(test)]
mod tests {
    use super::*;

    /// Where the lines do not add up to the library's held, nothing is said but its answer.
    #[test]
    fn only_what_is_proved() {
        let bytes = b"sheet\t1\tsm_100a\n0\ttcgen05.alloc.cta_group::1.sync.aligned.b32 [t], 64;\n0\texit;\n";
        let (sheet, answer) = (Sheet::new(bytes), answer_of(bytes));
        let e = told(&sheet, answer, bytes.len());
        assert_eq!((e.title.as_str(), e.helps.len(), e.history.is_some()), ("exit while `t` holds 64 columns", 1, true));
        let other = Answer { held: 32, ..answer };
        let e = told(&sheet, other, bytes.len());
        assert_eq!((e.answer, e.title), (other, Reason::Exit.to_string()));
        assert_eq!((e.related.len(), e.notes.len(), e.helps.len(), e.history.is_none()), (0, 0, 0, true));
        assert_eq!(e.primary, Some(Span { line: 3, from: 1, to: 2, label: String::new() }));
    }

    /// The reasons are asked in the order of docs/FORMAT.md's table; 16 is not a line's.
    #[test]
    fn the_order_of_reasons() {
        let (_, table) = include_str!("../../../docs/FORMAT.md").split_once("| No. | The line is refused because |\n").expect("the table");
        let rows = table.lines().skip(1).map_while(|line| line.strip_prefix("| ")?.split(' ').next()?.parse().ok());
        assert_eq!(rows.filter(|&number: &u32| number != 16).collect::<Vec<_>>(), ASKED);
    }

    #[test]
    fn names_that_are_near() {
        let among = |name, names: [&'static str; 2]| nearest(name, names.into_iter());
        assert_eq!(among("prods", ["probs", "out"]), Some("probs"));
        assert_eq!(among("prods", ["scores", "out"]), None);
        // one of five bytes differs, and two do
        assert_eq!((among("abcde", ["abcdx", "q"]), among("abcde", ["abcxy", "q"])), (Some("abcdx"), None));
        // the name itself is none
        assert_eq!(among("probs", ["probs", "q"]), None);
    }
}
