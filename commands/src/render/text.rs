//! An explanation as text, laid out as rustc does it: codespan-reporting draws the lines and carets, over the few lines that are shown.

use super::{allocations, figures, number, plain, primary};
use crate::explain::{counted, Explanation, Help, Span};
use crate::history::Allocation;
use crate::sheet::{Edit, Sheet};
use codespan_reporting::diagnostic::{Diagnostic, Label, LabelStyle};
use codespan_reporting::files::{Error, Files};
use codespan_reporting::term::termcolor::{Buffer, Color, ColorSpec};
use codespan_reporting::term::{emit, Chars, Config, Styles};
use std::collections::BTreeMap;
use std::ops::Range;

/// A line of more bytes is clipped to about `WIDTH` of them.
const WHOLE: usize = 110;
const WIDTH: usize = 100;
/// Bytes that are shown on each side of an edit in a clipped line.
const AROUND: usize = 30;
const DOTS: &str = "...";
/// Stands for `DOTS` where only one character can stand: no text has it, for each is made of those that print.
const GAP: char = '\u{1}';
/// The most rows of a pass, and the most lines of an edit, taken away or put there.
const MOST_ROWS: usize = 40;
const MOST_LINES: usize = 20;

/// The text: its first line has the report's five figures. It ends in LF, without an empty line, and no line ends in a blank.
pub fn render(name: &str, sheet: &Sheet, e: &Explanation, colour: bool) -> Vec<u8> {
    let name: String = name.chars().map(|c| if c.is_control() { '?' } else { c }).collect();
    match e.answer.reason {
        None => passed(&name, e).into_bytes(),
        Some(_) => refused(&name, sheet, e, colour),
    }
}

fn passed(name: &str, e: &Explanation) -> String {
    let mut text = format!("{name}: passed {}\n", figures(&e.answer));
    let Some(all) = allocations(e) else { return text };
    if all.is_empty() {
        return text + "no allocations\n";
    }
    text += &format!("{}:\n", counted(all.len() as u64, "allocation"));
    let width = all.iter().take(MOST_ROWS).map(|a| a.name.len()).max().unwrap_or(0).max(4);
    text += &format!("  {:width$}  first column  columns  taken at line  given back at line\n", "name");
    for a in all.iter().take(MOST_ROWS) {
        text += &row(a, width);
    }
    if let more @ 1.. = all.len().saturating_sub(MOST_ROWS) {
        text += &format!("  and {more} more\n");
    }
    text
}

fn row(a: &Allocation, width: usize) -> String {
    let start = a.start.map_or("-".into(), |start| start.to_string());
    let end = a.end.map_or("-".into(), |end| end.to_string());
    format!("  {:width$}  {start:>12}  {:>7}  {:>13}  {end:>18}\n", plain(&a.name), a.columns, a.line)
}

fn refused(name: &str, sheet: &Sheet, e: &Explanation, colour: bool) -> Vec<u8> {
    let (source, labels) = Source::new(name, sheet, primary(e), &e.related);
    let located = !labels.is_empty();
    let notes = e.notes.iter().map(|note| entry("note", note)).chain(e.helps.iter().map(|h| help(sheet, h)));
    let diagnostic = Diagnostic::error()
        .with_code(number(&e.answer).to_string())
        .with_message(format!("{} {}", plain(&e.title), figures(&e.answer)))
        .with_labels(labels)
        .with_notes(notes.collect());
    let mut buffer = if colour { Buffer::ansi() } else { Buffer::no_color() };
    // a buffer takes everything, and each label is in the source
    let _ = emit(&mut buffer, &config(), &source, &diagnostic);
    finished(buffer.as_slice(), (!located).then_some(name))
}

fn config() -> Config {
    let bold = |colour| ColorSpec::new().set_fg(Some(colour)).set_bold(true).set_intense(true).clone();
    let [secondary_label, line_number, source_border, note_bullet] = [(); 4].map(|()| bold(Color::Blue));
    Config {
        chars: Chars { source_border_left_break: GAP, ..Chars::ascii() },
        styles: Styles {
            primary_label_error: bold(Color::Red),
            secondary_label,
            line_number,
            source_border,
            note_bullet,
            ..Styles::default()
        },
        ..Config::default()
    }
}

/// The lines of what was drawn, without blanks at their ends and without an empty last one; a name that has no line of its own stands
/// under the first.
fn finished(drawn: &[u8], name: Option<&str>) -> Vec<u8> {
    let mut lines: Vec<Vec<u8>> = drawn.split(|&b| b == b'\n').map(trimmed).collect();
    while lines.last().is_some_and(|line| line.is_empty()) {
        lines.pop();
    }
    if let Some(name) = name {
        lines.insert(1.min(lines.len()), format!("  --> {name}").into_bytes());
    }
    lines.iter().flat_map(|line| line.iter().copied().chain([b'\n'])).collect()
}

/// A line without the blanks at its end; colours are kept.
fn trimmed(line: &[u8]) -> Vec<u8> {
    let (mut text, mut blanks, mut colours) = (Vec::new(), Vec::new(), Vec::new());
    let mut rest = line;
    while let Some(&byte) = rest.first() {
        let is_colour = byte == 0x1b;
        let length = if is_colour { rest.iter().position(|&b| b == b'm').map_or(rest.len(), |i| i + 1) } else { 1 };
        let (now, after) = rest.split_at(length);
        rest = after;
        if is_colour || byte == b' ' {
            blanks.extend_from_slice(now);
            colours.extend_from_slice(if is_colour { now } else { &[] });
        } else {
            text.append(&mut blanks);
            colours.clear();
            text.extend_from_slice(if byte == GAP as u8 { DOTS.as_bytes() } else { now });
        }
    }
    text.append(&mut colours);
    text
}

/// `note: ...`, further lines under its first word.
fn entry(word: &str, text: &str) -> String {
    let lines: Vec<String> = text.lines().map(plain).collect();
    format!("{word}: {}", lines.join(&format!("\n{:1$}", "", word.len() + 2)))
}

fn help(sheet: &Sheet, h: &Help) -> String {
    let mut text = entry("help", &h.text);
    for line in h.edit.iter().flat_map(|edit| changes(sheet, edit)) {
        text = text + "\n" + &line;
    }
    text
}

/// The lines that an edit takes away, each after its number and `-`, and those that it puts there, after the number that they get and `+`:
/// with their tabs, so that they can be copied.
fn changes(sheet: &Sheet, edit: &Edit) -> Vec<String> {
    let bytes = sheet.bytes;
    let (from, to) = sheet.range(edit);
    let begin = bytes[..from].iter().rposition(|&b| b == b'\n').map_or(0, |i| i + 1);
    let at_line = to == 0 || bytes[to - 1] == b'\n';
    let is_whole = at_line && (edit.text.ends_with(b"\n") || edit.text.is_empty() && from == begin);
    let end = if is_whole { to } else { bytes[to..].iter().position(|&b| b == b'\n').map_or(bytes.len(), |i| to + i) };
    let closed = is_whole || end == bytes.len();
    let new = [&bytes[begin..from], &edit.text, &bytes[to..end]].concat();
    let (old, new) = (lines_of(&bytes[begin..end], closed), lines_of(&new, closed));
    let first = edit.line.min(sheet.count() + 1);
    let within = |length: usize| (from - begin).saturating_sub(AROUND)..from - begin + length.min(WIDTH) + AROUND;
    match (&old[..], &new[..]) {
        (a, b) if a == b => Vec::new(),
        ([a], [b]) if a.len().max(b.len()) > WHOLE => {
            let part = |line: &[u8], length| Clip::new(line, within(length), copied).text;
            vec![format!("{first} - {}", part(a, to - from)), format!("{first} + {}", part(b, edit.text.len()))]
        }
        _ => [signed(first, '-', &old), signed(first, '+', &new)].concat(),
    }
}

/// The lines of a part of a sheet; it is closed if no LF follows it, so that one at its end begins no further line.
fn lines_of(bytes: &[u8], closed: bool) -> Vec<&[u8]> {
    match bytes {
        [] if closed => Vec::new(),
        [but_last @ .., b'\n'] if closed => but_last.split(|&b| b == b'\n').collect(),
        _ => bytes.split(|&b| b == b'\n').collect(),
    }
}

fn signed(first: usize, sign: char, lines: &[&[u8]]) -> Vec<String> {
    let numbered = lines.iter().take(MOST_LINES).enumerate();
    let mut text: Vec<String> = numbered.map(|(i, line)| format!("{} {sign} {}", first + i, copied(line))).collect();
    if let more @ 1.. = lines.len().saturating_sub(MOST_LINES) {
        text.push(format!("{sign} {DOTS} {}", counted(more as u64, "more line")));
    }
    text
}

fn prints(byte: u8) -> bool {
    byte == b'\t' || (b' '..=b'~').contains(&byte)
}

/// Bytes as text, one character for each: `?` where it is neither a tab nor prints.
fn printed(bytes: &[u8]) -> String {
    bytes.iter().map(|&b| if prints(b) { b as char } else { '?' }).collect()
}

/// Bytes as text, so that nothing is lost: what does not print as `\x` and two digits, blanks at the end in words.
fn copied(bytes: &[u8]) -> String {
    let blanks = bytes.iter().rev().take_while(|&&b| b == b' ' || b == b'\t').count();
    let (line, end) = bytes.split_at(bytes.len() - blanks);
    let line: String = line.iter().map(|&b| if prints(b) { (b as char).to_string() } else { format!("\\x{b:02x}") }).collect();
    match end {
        [] => line,
        [b' '] => line + "<space>",
        [b'\t'] => line + "<tab>",
        _ => format!("{line}<{blanks} blanks>"),
    }
}

/// A line as it is shown: all of it, or a part between dots.
struct Clip {
    text: String,
    /// The bytes of the line that are shown.
    window: Range<usize>,
    /// How many dots stand before them.
    lead: usize,
}

impl Clip {
    /// A few bytes more than the window, if dots would take as much room.
    fn new(line: &[u8], window: Range<usize>, text_of: fn(&[u8]) -> String) -> Clip {
        let start = if window.start <= DOTS.len() { 0 } else { window.start.min(line.len()) };
        let end = if window.end + DOTS.len() >= line.len() { line.len() } else { window.end.max(start) };
        let lead = if start > 0 { DOTS } else { "" };
        let tail = if end < line.len() { DOTS } else { "" };
        Clip { text: format!("{lead}{}{tail}", text_of(&line[start..end])), window: start..end, lead: lead.len() }
    }

    /// A line with the part that is to be seen, in bytes from 0.
    fn around(line: &[u8], part: Range<usize>) -> Clip {
        if line.len() <= WHOLE {
            return Clip::new(line, 0..line.len(), printed);
        }
        let spare = WIDTH.saturating_sub(part.len()) / 2;
        let start = part.start.saturating_sub(spare).min(line.len() - WIDTH);
        Clip::new(line, start..start + WIDTH, printed)
    }

    /// Where bytes of the line stand in the text, if that has a character for each; what is not in the window is in the dots.
    fn place(&self, part: Range<usize>) -> Range<usize> {
        let Range { start, end } = self.window;
        let from = if part.start < start { 0 } else { part.start.min(end) - start + self.lead };
        let to = if part.end > end { self.text.len() } else { part.end.max(start) - start + self.lead };
        from..to.max(from)
    }
}

/// The lines that are shown. Codespan counts them by `line_index`: here that is the line's number in the sheet, so it sees the gaps.
struct Source<'n> {
    name: &'n str,
    text: String,
    /// The place of each line in the text, its LF included.
    lines: BTreeMap<usize, Range<usize>>,
    /// The column that stands behind the name: that of the primary span.
    column: usize,
}

impl<'n> Source<'n> {
    /// The source with a label for each span.
    fn new(name: &'n str, sheet: &Sheet, primary: Option<Span>, related: &[Span]) -> (Source<'n>, Vec<Label<()>>) {
        let spans: Vec<(LabelStyle, &Span)> =
            primary.iter().map(|s| (LabelStyle::Primary, s)).chain(related.iter().map(|s| (LabelStyle::Secondary, s))).collect();
        let first = primary.as_ref().or(related.iter().min_by_key(|s| (s.line, s.from)));
        let mut source = Source { name, text: String::new(), lines: BTreeMap::new(), column: first.map_or(0, |s| s.from) };
        let mut labels = Vec::new();
        for number in numbers(&spans) {
            let here: Vec<_> = spans.iter().filter(|(_, s)| s.line == number).collect();
            let parts: Vec<_> = here.iter().map(|(_, s)| part(s)).collect();
            let clip = Clip::around(sheet.line(number), focus(&parts));
            let start = source.text.len();
            for ((style, span), part) in here.iter().zip(parts) {
                let place = clip.place(part);
                let label = Label::new(*style, (), start + place.start..start + place.end);
                labels.push(label.with_message(plain(&span.label)));
            }
            source.text += &clip.text;
            source.text.push('\n');
            source.lines.insert(number, start..source.text.len());
        }
        (source, labels)
    }
}

/// The lines of spans, and a line alone between two of them.
fn numbers(spans: &[(LabelStyle, &Span)]) -> Vec<usize> {
    let mut numbers: Vec<usize> = spans.iter().map(|(_, s)| s.line).collect();
    numbers.sort_unstable();
    numbers.dedup();
    let between: Vec<usize> = numbers.windows(2).filter(|pair| pair[1] - pair[0] == 2).map(|pair| pair[0] + 1).collect();
    numbers.extend(between);
    numbers.sort_unstable();
    numbers
}

/// A span as bytes of its line, from 0.
fn part(s: &Span) -> Range<usize> {
    let from = s.from.saturating_sub(1);
    from..s.to.saturating_sub(1).max(from)
}

/// What is to be seen of a line: all its parts, or the first where they are too far apart.
fn focus(parts: &[Range<usize>]) -> Range<usize> {
    let Some(first) = parts.first() else { return 0..0 };
    let all = parts.iter().fold(first.clone(), |all, part| all.start.min(part.start)..all.end.max(part.end));
    if all.len() <= WIDTH {
        all
    } else {
        first.clone()
    }
}

impl<'a> Files<'a> for Source<'_> {
    type FileId = ();
    type Name = &'a str;
    type Source = &'a str;

    fn name(&'a self, (): ()) -> Result<&'a str, Error> {
        Ok(self.name)
    }

    fn source(&'a self, (): ()) -> Result<&'a str, Error> {
        Ok(&self.text)
    }

    fn line_index(&'a self, (): (), byte: usize) -> Result<usize, Error> {
        let line = self.lines.iter().find(|(_, range)| range.contains(&byte));
        line.map(|(&number, _)| number).ok_or(Error::IndexTooLarge { given: byte, max: self.text.len() })
    }

    fn line_number(&'a self, (): (), index: usize) -> Result<usize, Error> {
        Ok(index)
    }

    /// Only the column of the first span is ever asked for.
    fn column_number(&'a self, (): (), _index: usize, _byte: usize) -> Result<usize, Error> {
        Ok(self.column)
    }

    fn line_range(&'a self, (): (), index: usize) -> Result<Range<usize>, Error> {
        self.lines.get(&index).cloned().ok_or(Error::LineTooLarge { given: index, max: self.lines.len() })
    }
}
