//! Reasons 1 and 2: how large a sheet is, and how its lines are laid out.

use super::{answer_of, counted, grouped, listed, nearest, shown, Context, Explanation};
use crate::command::MOST_COUNTED;
use crate::sheet::{Edit, Sheet};
use crate::statement;
use staplehorn::{Reason, MOST_BYTES};

const MOST_LINES: usize = 4_096;
const MOST_LINE: usize = 2_048;
const HEADER: &[u8] = b"sheet\t1\tsm_100a";
/// What to do where a line, or many, have spaces for their tab.
const TAB: &str = "write one tab after the warp";
const TABS: &str = "write one tab for the spaces, in every line";
const MARK: &[u8] = b"\xEF\xBB\xBF";

/// Reason 1: which limit, and by how much.
pub fn size(c: &Context, e: &mut Explanation) {
    let (bytes, lines) = (c.size.max(c.sheet.bytes.len()), c.sheet.count());
    let least = if bytes > c.sheet.bytes.len() { "at least " } else { "" };
    let mut over = Vec::new();
    if bytes > MOST_COUNTED {
        over.push(format!("over {} bytes, and the limit is {}", n(MOST_COUNTED), n(MOST_BYTES)));
    } else if bytes > MOST_BYTES {
        over.push(format!("{} bytes, {} over the limit of {}", n(bytes), n(bytes - MOST_BYTES), n(MOST_BYTES)));
    }
    if lines > MOST_LINES {
        over.push(format!("{least}{} lines, {least}{} over the limit of {}", n(lines), n(lines - MOST_LINES), n(MOST_LINES)));
    }
    if !over.is_empty() {
        e.title(format!("the sheet has {}", over.join(", and ")));
    }
    let has = if lines > MOST_LINES { String::new() } else { format!("; this one has {least}{}", counted(lines as u64, "line")) };
    e.note(format!("a sheet has at most {} bytes and {} lines{has}", n(MOST_BYTES), n(MOST_LINES)));
    e.help(
        "loops are written out in a sheet: check fewer of their rounds, or split the kernel into sheets that each give back what they take",
    );
    let spaces = c.sheet.bytes.windows(2).filter(|pair| pair == b", ").count();
    if lines <= MOST_LINES && bytes - spaces <= MOST_BYTES {
        e.help(format!("no space has to follow a comma: without them it has {least}{} fewer, and fits", counted(spaces as u64, "byte")));
    }
}

fn n(number: usize) -> String {
    grouped(number as u64)
}

/// A line that is refused for its layout.
struct Line<'a> {
    sheet: &'a Sheet<'a>,
    number: usize,
    /// All of its bytes.
    whole: &'a [u8],
    /// Without a byte order mark and a CR at its end.
    text: &'a [u8],
    /// How many bytes stand before `text`.
    lead: usize,
}

/// One thing that is wrong with a line.
#[derive(Default)]
struct Fault {
    title: String,
    /// The bytes to look at, as places in the line.
    at: (usize, usize),
    label: String,
    remedy: String,
    /// What puts it right, where that is not the repaired line.
    edit: Option<Edit>,
    /// No edit of this line puts it right: it is in the file as a whole, or what was meant cannot be told.
    no_edit: bool,
    /// What puts it right in all of the file, where other lines have it too.
    command: Option<Command>,
}

impl Fault {
    fn new(title: impl Into<String>, at: (usize, usize), label: impl Into<String>, remedy: impl Into<String>) -> Fault {
        Fault { title: title.into(), at, label: label.into(), remedy: remedy.into(), ..Fault::default() }
    }
}

/// A command that the reader may run over the file.
#[derive(Clone, Copy, PartialEq)]
enum Command {
    Mark,
    Ends,
    Tabs,
}

impl Command {
    fn text(self) -> &'static str {
        match self {
            Command::Mark => r"sed -i '1s/^\xEF\xBB\xBF//' FILE",
            Command::Ends => r"sed -i 's/\r$//' FILE, or tr -d '\r' <FILE >NEW",
            Command::Tabs => r"sed -i -E '1s/^\s*(\S+)\s+(\S+)\s+(\S+)\s*$/\1\t\2\t\3/; 2,$s/^([0-3*])\s+/\1\t/' FILE",
        }
    }

    /// What it makes of a line.
    fn apply(self, number: usize, line: &[u8]) -> Vec<u8> {
        match self {
            Command::Mark if number == 1 => line.strip_prefix(MARK).unwrap_or(line).to_vec(),
            Command::Mark => line.to_vec(),
            Command::Ends => line.strip_suffix(b"\r").unwrap_or(line).to_vec(),
            Command::Tabs if number == 1 => match words(line)[..] {
                [a, b, c] => [a, b, c].join(&b'\t'),
                _ => line.to_vec(),
            },
            Command::Tabs => match line {
                [warp @ (b'0'..=b'3' | b'*'), blank, ..] if blank.is_ascii_whitespace() => {
                    [&[*warp, b'\t'], line[1..].trim_ascii_start()].concat()
                }
                _ => line.to_vec(),
            },
        }
    }
}

/// Reason 2.
pub fn explain(c: &Context, e: &mut Explanation) {
    let whole = c.bytes();
    let unmarked = if c.line() == 1 { whole.strip_prefix(MARK).unwrap_or(whole) } else { whole };
    let text = unmarked.strip_suffix(b"\r").unwrap_or(unmarked);
    let line = Line { sheet: c.sheet, number: c.line(), whole, text, lead: whole.len() - unmarked.len() };
    let faults = match file(&line) {
        Some(fault) => vec![fault],
        None => [mark, end, start, tab, byte, long, cut].iter().filter_map(|check| check(&line)).collect(),
    };
    let Some((first, others)) = faults.split_first() else { return };
    e.title(first.title.clone());
    point(&line, first, e);
    for other in others {
        e.note(format!("also: {}", other.title));
    }
    remedies(&line, &faults, e);
    e.note(if line.number == 1 {
        "line 1 of a sheet is `sheet<TAB>1<TAB>sm_100a`, with one tab at each <TAB>"
    } else {
        "a line is a warp (0, 1, 2, 3 or *), one tab, a statement of printing ASCII bytes and spaces, and LF"
    });
}

/// The whole line from column 1 up to the culprit, and the culprit where it is not all of that.
fn point(line: &Line, fault: &Fault, e: &mut Explanation) {
    let (from, to) = fault.at;
    if from == 0 {
        e.point(to + 1, fault.label.clone());
    } else {
        e.point(to.min(line.whole.len()) + 1, if line.number == 1 { "the header" } else { "the layout of this line is wrong" });
        e.related(line.number, (from + 1, to + 1), fault.label.clone());
    }
}

fn remedies(line: &Line, faults: &[Fault], e: &mut Explanation) {
    if faults.iter().any(|fault| matches!(fault.command, Some(Command::Ends | Command::Tabs))) {
        return commands(line, faults, e);
    }
    let plain = faults.iter().all(|fault| !fault.no_edit);
    let texts: Vec<String> = faults.iter().map(|fault| fault.remedy.clone()).filter(|text| !text.is_empty()).collect();
    let edit = faults.iter().find_map(|fault| fault.edit.clone()).or_else(|| repaired(line).filter(|_| plain));
    if !edit.is_some_and(|edit| e.fix(line.sheet, listed(&texts, "and"), edit)) {
        for text in texts {
            e.help(text);
        }
    }
}

/// Offers what puts the whole file right, and says what the library then answers.
fn commands(line: &Line, faults: &[Fault], e: &mut Explanation) {
    let run: Vec<Command> = faults.iter().filter_map(|fault| fault.command).collect();
    for fault in faults {
        let command = fault.command.map_or_else(String::new, |command| format!(": {}", command.text()));
        e.help(format!("{}{command}", fault.remedy));
    }
    let mut bytes = Vec::new();
    for number in 1..=line.sheet.count() {
        let made = run.iter().fold(line.sheet.line(number).to_vec(), |text, command| command.apply(number, &text));
        bytes.extend([&made[..], b"\n"].concat());
    }
    if line.sheet.is_cut() {
        bytes.pop();
    }
    let then = answer_of(&bytes);
    e.help(match then.reason {
        None => "with that done the sheet passes".into(),
        Some(reason) => format!("with that done line {} is refused: {reason}", then.line),
    });
}

/// What is wrong with the file as a whole: then nothing of a line is worth saying.
fn file(line: &Line) -> Option<Fault> {
    let (bytes, all) = (line.sheet.bytes, (0, line.whole.len()));
    if bytes.is_empty() {
        let edit = Some(Edit::before(1, [HEADER, b"\n0\texit;\n"].concat()));
        let fault = Fault::new("the sheet is empty", all, "no byte stands here", "the smallest sheet is the header and an exit");
        return Some(Fault { edit, ..fault });
    }
    let ends = line.text.iter().filter(|&&b| b == b'\r').count();
    let fault = if is_unended(line) && is_begun(line) {
        let title = format!("the file ends in the middle of line {}", line.number);
        Fault::new(title, all, "no more of the line stands in the file, and no LF", "the rest of the file is missing: restore it")
    } else if line.sheet.count() == 1 && line.text.starts_with(&[HEADER, b"\r"].concat()) {
        let label = format!("{} and no LF stand in the file", counted(ends as u64, "CR"));
        let remedy = r"write LF for each CR: tr '\r' '\n' <FILE >NEW";
        Fault::new("the lines end in CR alone; each line must end in LF", (0, HEADER.len() + 1), label, remedy)
    } else {
        let (title, label, remedy) = other_file(bytes).filter(|_| line.number == 1)?;
        Fault::new(title, all, label, remedy)
    };
    Some(Fault { no_edit: true, ..fault })
}

/// What a file is that is no ASCII from its start, where it is bound to be something else.
fn other_file(bytes: &[u8]) -> Option<(&'static str, &'static str, &'static str)> {
    let head = &bytes[..bytes.len().min(64)];
    let zeros = head.iter().filter(|&&b| b == 0).count();
    let others = head.iter().filter(|&&b| b != 0 && !(32..127).contains(&b) && !b.is_ascii_whitespace()).count();
    let marked = head.starts_with(b"\xFF\xFE") || head.starts_with(b"\xFE\xFF");
    let is_every = |from: usize| head.iter().skip(from).step_by(2).all(|&b| b == 0);
    if marked || others == 0 && head.len() > 1 && is_every(0) != is_every(1) {
        let label = if marked { "the file starts with a UTF-16 byte order mark" } else { "every second byte is NUL" };
        return Some(("the file is UTF-16 text; a sheet is ASCII", label, "write the file as ASCII: iconv -f UTF-16 -t UTF-8 FILE >NEW"));
    }
    let text = std::str::from_utf8(bytes).is_ok_and(|text| !text.contains('\0'));
    ((zeros + others) * 3 > head.len() && !text).then_some((
        "the file is no text; a sheet is ASCII",
        "these bytes are no text",
        "check which file was given: a sheet is a text, the header and one line for each statement",
    ))
}

/// The last line, without an LF.
fn is_unended(line: &Line) -> bool {
    line.sheet.is_cut() && line.number == line.sheet.count()
}

/// It begins as a line does, and stops short of its end.
fn is_begun(line: &Line) -> bool {
    match line.text {
        text if line.number == 1 => !text.is_empty() && text != HEADER && HEADER.starts_with(text),
        text => matches!(text, [b'0'..=b'3' | b'*', ..]) && !text.contains(&b';'),
    }
}

fn mark(line: &Line) -> Option<Fault> {
    let label = "the bytes EF BB BF, a UTF-8 byte order mark, stand before the header";
    let fault = Fault::new("the file starts with a byte order mark", (0, MARK.len()), label, "save the file without a byte order mark");
    (line.lead > 0).then_some(Fault { command: Some(Command::Mark), ..fault })
}

/// A CR at the end.
fn end(line: &Line) -> Option<Fault> {
    let all = line.sheet.count();
    let have = (1..=all).filter(|&i| line.sheet.line(i).ends_with(b"\r")).count();
    let which = match have {
        1 => format!("line {} ends", line.number),
        _ if have == all => "every line ends".into(),
        _ => format!("{} of {} lines end", n(have), n(all)),
    };
    let at = (line.whole.len().saturating_sub(1), line.whole.len());
    let remedy = if have > 1 { "remove the CR at the end of every line" } else { "take the CR out" };
    let fault = Fault::new(format!("{which} in CRLF; a line ends in LF alone"), at, "a CR stands before the LF", remedy);
    line.whole.ends_with(b"\r").then_some(Fault { command: (have > 1).then_some(Command::Ends), ..fault })
}

/// How the line begins: the header, or a warp and a tab.
fn start(line: &Line) -> Option<Fault> {
    if line.number == 1 {
        return header(line);
    }
    let (text, number) = (line.text, line.number);
    let after_exit = statement::opcode(line.sheet.statement(number - 1)) == b"exit";
    let (title, remedy) = match () {
        () if text.trim_ascii().is_empty() => (format!("line {number} is blank"), blanks(line)),
        () if words(text) == words(HEADER) && after_exit => {
            let fault =
                Fault::new("a second sheet begins here", (0, text.len()), "a header, after exit", "put each sheet into its own file");
            return Some(Fault { no_edit: true, ..fault });
        }
        () if words(text) == words(HEADER) => (format!("a second header stands in line {number}"), "take the line out".into()),
        () if is_comment(text.trim_ascii_start()) => {
            (format!("line {number} is a comment; comments may not stand in a sheet"), "take the line out".into())
        }
        () => return warp(line),
    };
    let label = if text.trim_ascii().is_empty() { "no warp, no tab and no statement".into() } else { format!("found `{}`", visible(text)) };
    let fault = Fault::new(title, (0, line.whole.len()), label, remedy);
    Some(Fault { edit: Some(line.sheet.without(number)), ..fault })
}

/// What to do about blank lines: one is taken out by an edit, several by a command.
fn blanks(line: &Line) -> String {
    let sheet = line.sheet;
    let others = (2..=sheet.count()).filter(|&i| i != line.number && sheet.line(i).trim_ascii().is_empty()).count();
    match others {
        0 => "take the line out".into(),
        _ => format!(
            r"take the line out, and {} that {} blank too: sed -i '/^\s*$/d' FILE",
            counted(others as u64, "other"),
            if others == 1 { "is" } else { "are" }
        ),
    }
}

/// Line 1.
fn header(line: &Line) -> Option<Fault> {
    let text = ascii(line.text).unwrap_or(line.text.to_vec());
    let found = words(&text);
    let label = format!("found `{}`, where `sheet<TAB>1<TAB>sm_100a` must stand", visible(line.text));
    let fault = Fault::new("line 1 is not the header", (line.lead, line.whole.len()), label, "write the header");
    if line.text == HEADER {
        return None;
    }
    if found == words(HEADER) {
        let command = tabs(line);
        let remedy = if command.is_some() { TABS.into() } else { fault.remedy };
        return Some(Fault { title: header_blanks(line.text).into(), command, remedy, ..fault });
    }
    let first = found.first().map(|word| shown(word).to_lowercase()).unwrap_or_default();
    let sheet = first == "sheet" || nearest(&first, ["sheet"].into_iter()).is_some();
    Some(if sheet { header_words(&found, fault) } else { no_header(line, &found, fault) })
}

/// The header's words are right, and what stands between or around them is not.
fn header_blanks(text: &[u8]) -> &'static str {
    let inner = text.trim_ascii();
    match () {
        () if inner == HEADER && text.starts_with(HEADER) => "blanks stand after the header",
        () if inner == HEADER => "blanks stand before the header",
        () if text.iter().any(is_foreign) => "bytes stand in the header that are not part of it",
        () if inner.contains(&b' ') => "spaces stand in the header where tabs must stand",
        () => "more than one tab stands between two words of the header",
    }
}

/// Some of the header's words differ. The version and the target are the author's to say: there is no edit for another one.
fn header_words(found: &[&[u8]], fault: Fault) -> Fault {
    let right = words(HEADER);
    let part = |what: &str, i: usize| match found.get(i) {
        Some(word) if word.eq_ignore_ascii_case(right[i]) => None,
        Some(word) => Some(format!("the {what} is `{}`", visible(word))),
        None => Some(format!("the {what} is missing")),
    };
    let other: Vec<String> = [part("version", 1), part("target", 2)].into_iter().flatten().collect();
    if !other.is_empty() {
        let title = format!("in the header {}; foot judges sheets of version 1 for sm_100a alone", listed(&other, "and"));
        let remedy = "change the header only if this is a sheet of version 1 and its kernel is for sm_100a: other targets have other rules";
        return Fault { title, label: "foot does not judge such a sheet".into(), remedy: remedy.into(), no_edit: true, ..fault };
    }
    let differ = found.iter().zip(&right).filter(|(word, right)| word != right);
    let parts: Vec<String> = differ.map(|(word, right)| format!("`{}` must be `{}`", visible(word), shown(right))).collect();
    let title = match parts.is_empty() {
        true => format!("the header goes on after its target: {} too many", counted((found.len() - right.len()) as u64, "word")),
        false => format!("in the header {}", listed(&parts, "and")),
    };
    Fault { title, ..fault }
}

/// Line 1 is something else: a statement, PTX, a comment, or nothing. What stands there is not written over.
fn no_header(line: &Line, found: &[&[u8]], fault: Fault) -> Fault {
    let text = line.text.trim_ascii_start();
    let idle = text.is_empty() || is_comment(text);
    if line.sheet.line(2).trim_ascii() == HEADER {
        let title = format!("line 1 is {}; the header stands in line 2", if text.is_empty() { "blank" } else { "not the header" });
        let remedy = if idle { "take line 1 out" } else { "move the header to line 1" }.into();
        return Fault { title, remedy, edit: idle.then(|| line.sheet.without(1)), no_edit: !idle, ..fault };
    }
    if found.first().is_some_and(|word| [&b".version"[..], b".target", b".visible", b".entry"].contains(word)) {
        let remedy = "a sheet has the tcgen05 statements of one block in the order in which they are issued, each after its warp and a tab, and no other PTX";
        return Fault { title: "this is PTX, and no sheet".into(), remedy: remedy.into(), no_edit: true, ..fault };
    }
    if is_statement(text) || found.len() > 1 && matches!(found[0], [b'0'..=b'3' | b'*']) {
        let remedy = "put the header before it, if the kernel is for sm_100a".into();
        let edit = Some(Edit::before(1, [HEADER, b"\n"].concat()));
        return Fault { title: "the header is missing: line 1 is a statement".into(), edit, remedy, ..fault };
    }
    let (title, label) = match text.is_empty() {
        true => ("line 1 is blank; it must be the header".into(), "`sheet<TAB>1<TAB>sm_100a` must stand here".into()),
        false => (fault.title, fault.label),
    };
    Fault { title, label, remedy: "write the header, if the kernel is for sm_100a".into(), no_edit: !idle, ..fault }
}

/// The warp field and the byte after it.
fn warp(line: &Line) -> Option<Fault> {
    let inner = line.text.trim_ascii_start();
    let blanks = line.text.len() - inner.len();
    match line.text {
        [b'0'..=b'3' | b'*', b'\t', ..] => None,
        [b'0'..=b'3' | b'*', rest @ ..] if !rest.first().is_some_and(u8::is_ascii_digit) => Some(after_warp(line, rest)),
        _ if is_statement(inner) => {
            let title =
                if blanks > 0 { "the warp field is empty" } else { "the warp field is missing: the line begins with its statement" };
            let at = (0, if blanks > 0 { blanks } else { statement::opcode(inner).len().max(1) });
            let remedy = "begin the line with the warp that executes it and a tab; if that is warp 0, with `0`";
            Some(Fault::new(title, at, "the warp that executes it and one tab must begin the line", remedy))
        }
        _ if blanks > 0 && field_repaired(inner).is_some() => {
            let label = counted(blanks as u64, "blank");
            Some(Fault::new("blanks stand before the warp", (0, blanks), label, "begin the line with its warp"))
        }
        _ => Some(field(line, blanks)),
    }
}

/// A legal warp, and then no tab.
fn after_warp(line: &Line, rest: &[u8]) -> Fault {
    let blanks = rest.len() - rest.trim_ascii_start().len();
    if rest.is_empty() {
        let remedy = "take the line out, if no statement is missing after the warp";
        let fault = Fault::new("the line ends after its warp", (0, 1), "one tab and a statement must follow", remedy);
        return Fault { edit: Some(line.sheet.without(line.number)), ..fault };
    }
    if blanks == 0 {
        let title = format!("no tab stands after the warp: `{}` does", shown(&rest[..1]));
        let each = "write one warp and a tab; what several warps execute is a line for each of them";
        return Fault::new(title, (1, 2), "one tab must stand here", if field_repaired(line.text).is_some() { TAB } else { each });
    }
    let command = tabs(line);
    let title = format!("{} after the warp where one tab must stand", if blanks == 1 { "a space stands" } else { "spaces stand" });
    let remedy = if command.is_some() { TABS } else { TAB };
    Fault { command, ..Fault::new(title, (1, 1 + blanks), counted(blanks as u64, "blank"), remedy) }
}

/// A warp field that is none.
fn field(line: &Line, blanks: usize) -> Fault {
    let text = &line.text[blanks..];
    let length = text.iter().position(|b| b.is_ascii_whitespace()).unwrap_or(text.len());
    let found = visible(&text[..length]);
    let mut title = format!("`{found}` is no warp: a warp is 0, 1, 2 or 3, or *, which is read as 0");
    let remedy = match found.parse::<u64>() {
        Ok(n @ 0..=3) => format!("write `{n}`"),
        Ok(n) => format!("warps count from 0 in their warpgroup: warp {n} of the block is warp {} of its warpgroup", n % 4),
        Err(_) if field_repaired(text).is_some() => "write the number of the warp alone".into(),
        Err(_) => {
            title = format!("line {} begins with `{found}`, and not with a warp and a tab", line.number);
            "write one PTX statement in a line, after its warp and a tab; C++ and string quotes are not part of a sheet".into()
        }
    };
    Fault::new(title, (blanks, blanks + length), "the warp field is one byte", remedy)
}

/// The line is no statement at all: no more is to be said of it.
fn is_other(line: &Line) -> bool {
    start(line).is_some_and(|fault| fault.edit.is_some() || fault.no_edit)
}

/// A tab in the statement.
fn tab(line: &Line) -> Option<Fault> {
    if line.number == 1 || is_other(line) {
        return None;
    }
    let end = line.text.trim_ascii_end().len();
    let mut tabs = (0..line.text.len()).filter(|&at| line.text[at] == b'\t').peekable();
    let first = tabs.next_if(|&at| at == 1 || at < end);
    let second = tabs.next()?;
    let more = tabs.count();
    let title = format!("a second tab stands in column {}; only the one after the warp may stand in a line", second + 1);
    let label = if more == 0 { "the second tab".into() } else { format!("the first of {} tabs that may not stand here", more + 1) };
    let remedy = match () {
        () if more > 0 => "keep the first tab alone: write spaces, or nothing, for the others",
        () if second >= end => "take the tab at the end out",
        () if first == second.checked_sub(1) => "take the second tab out",
        () => "write a space for the second tab",
    };
    Some(Fault::new(title, (second, second + 1), label, remedy))
}

fn is_foreign(b: &u8) -> bool {
    !(32..127).contains(b) && *b != b'\t'
}

/// A byte that no line has.
fn byte(line: &Line) -> Option<Fault> {
    if is_other(line) {
        return None;
    }
    let at = line.text.iter().position(is_foreign)?;
    let (length, what, with) = character(&line.text[at..]);
    let from = at + line.lead;
    let remedy = match with {
        Some("") => format!("take out {what}"),
        Some(" ") => format!("write a space for {what}"),
        Some(text) => format!("write `{text}` for {what}"),
        None => format!("write ASCII for {what}"),
    };
    let title = format!("{what} stands in column {}; a line has printing ASCII and spaces alone", from + 1);
    Some(Fault::new(title, (from, from + length), what, remedy))
}

/// Characters that editors, word processors and web pages put in, and what stands for them in a sheet.
const KNOWN: [(char, &str, &str); 16] = [
    ('\0', "a NUL byte", ""),
    ('\r', "a CR", ""),
    ('\u{1b}', "an escape byte", ""),
    ('\u{7f}', "a DEL byte", ""),
    ('\u{a0}', "a no-break space", " "),
    ('\u{ad}', "a soft hyphen", ""),
    ('\u{200b}', "a zero-width space", ""),
    ('\u{2009}', "a thin space", " "),
    ('\u{2018}', "a left quote", ""),
    ('\u{2019}', "a right quote", ""),
    ('\u{201c}', "a left double quote", ""),
    ('\u{201d}', "a right double quote", ""),
    ('\u{feff}', "a byte order mark", ""),
    ('\u{ff0c}', "a full-width comma", ","),
    ('\u{ff1b}', "a full-width semicolon", ";"),
    ('\u{ff0b}', "a full-width plus", "+"),
];

/// The character that some bytes begin with: its length, what it is, and what could stand for it.
fn character(bytes: &[u8]) -> (usize, String, Option<&'static str>) {
    let read = (1..=4).find_map(|length| Some((length, std::str::from_utf8(bytes.get(..length)?).ok()?.chars().next()?)));
    let hex = |bytes: &[u8]| bytes.iter().map(|b| format!("{b:02X}")).collect::<Vec<_>>().join(" ");
    match read {
        None => (1, format!("the byte {}", hex(&bytes[..bytes.len().min(1)])), None),
        Some((length, ch)) => {
            let hex = hex(&bytes[..length]);
            match KNOWN.iter().find(|row| row.0 == ch) {
                Some((_, name, with)) => (length, format!("{name} ({hex})"), Some(*with)),
                None if length == 1 => (1, format!("the control byte {hex}"), Some("")),
                None => (length, format!("the character U+{:04X} ({hex})", ch as u32), None),
            }
        }
    }
}

fn long(line: &Line) -> Option<Fault> {
    let length = line.whole.len();
    let over = length.checked_sub(MOST_LINE).filter(|&over| over > 0 && line.number > 1)?;
    let title = format!("the line has {} bytes, {} over the limit of {}", n(length), n(over), n(MOST_LINE));
    Some(Fault::new(title, (0, length), format!("{} bytes before the LF", n(length)), shorter(line.text, over)))
}

/// How a line can lose some bytes.
fn shorter(text: &[u8], over: usize) -> String {
    let spaces = text.windows(2).filter(|pair| pair == b", ").count();
    let names = text.split(|b| b"{}".contains(b)).nth(1).map_or(0, |list| list.split(|&b| b == b',').count());
    if spaces >= over {
        return format!("no space has to follow a comma: without them the line has {} fewer", counted(spaces as u64, "byte"));
    }
    // a name has 16 bytes at most, and one is left
    let each = (over - spaces).checked_div(names).map_or(usize::MAX, |bytes| bytes + 1);
    if names < 2 || each > 15 {
        return "write a shorter statement".into();
    }
    format!(
        "write no space after the commas, and shorten each of the {names} registers by {}: their names are not looked up",
        counted(each as u64, "byte")
    )
}

/// The last line without its LF; the library is asked what it says of the line with one.
fn cut(line: &Line) -> Option<Fault> {
    if !is_unended(line) || line.number > 1 && is_other(line) {
        return None;
    }
    let ended = repaired(line).map(|edit| line.sheet.edited(&edit)).unwrap_or_default();
    let then = answer_of(&ended);
    // an exit after it leaves the line as the last that may be refused
    let refused = answer_of(&[&ended[..], b"0\texit;\n"].concat()).line as usize == line.number;
    let (doubt, remedy) = match then.reason {
        Some(reason) if refused => ("", format!("end the file with an LF; line {} is then refused: {reason}", line.number)),
        Some(Reason::Exit) => (", and no exit follows", "end the file with an LF, if nothing after it is missing".into()),
        _ => ("", "end the file with an LF".into()),
    };
    let title = format!("the last line has no LF at its end{doubt}");
    let fault = Fault::new(title, (0, line.whole.len()), "the file ends here without an LF", remedy);
    Some(Fault { no_edit: refused, ..fault })
}

/// The command for tabs, where other lines have spaces for their tab too.
fn tabs(line: &Line) -> Option<Command> {
    let sheet = line.sheet;
    (2..=sheet.count()).any(|i| i != line.number && is_spaced(sheet.line(i))).then_some(Command::Tabs)
}

/// A warp and then a space.
fn is_spaced(line: &[u8]) -> bool {
    matches!(line, [b'0'..=b'3' | b'*', b' ', ..])
}

fn words(text: &[u8]) -> Vec<&[u8]> {
    text.split(|b| b.is_ascii_whitespace()).filter(|word| !word.is_empty()).collect()
}

pub fn is_comment(text: &[u8]) -> bool {
    [&b"//"[..], b"/*", b"#"].iter().any(|begin| text.starts_with(begin))
}

/// It begins as a statement does.
fn is_statement(text: &[u8]) -> bool {
    let opcode = statement::opcode(text);
    opcode.starts_with(b"tcgen05.") || opcode.starts_with(b"mov.") || opcode == b"exit" || text.starts_with(b"@")
}

/// The line with all that is plain put right.
fn repaired(line: &Line) -> Option<Edit> {
    let mut new = if line.number == 1 { HEADER.to_vec() } else { ascii(&field_repaired(line.text)?)? };
    if is_unended(line) {
        new.push(b'\n');
    }
    Some(Edit::between(line.number, line.whole, &new))
}

/// The line with its warp and one tab; none where the warp cannot be told.
fn field_repaired(text: &[u8]) -> Option<Vec<u8>> {
    let inner = text.trim_ascii();
    if is_statement(inner) {
        return Some([b"0\t", inner].concat());
    }
    let begins = inner.iter().position(|b| b.is_ascii_whitespace()).unwrap_or(1).max(1).min(inner.len());
    let (field, rest) = match inner {
        // a warp and then something that is neither a blank nor a digit
        [b'0'..=b'3' | b'*', b, ..] if !b.is_ascii_digit() => inner.split_at(1),
        _ => inner.split_at(begins),
    };
    let rest = rest.strip_prefix(b":").or(rest.strip_prefix(b",")).unwrap_or(rest).trim_ascii_start();
    let warp = match field {
        [warp @ (b'0'..=b'3' | b'*')] => *warp,
        [letters @ .., warp @ b'0'..=b'3'] if letters.iter().all(|&b| b == b'0' || b.is_ascii_alphabetic()) => *warp,
        _ => return None,
    };
    // what stands right after the warp is no part of it only if it is a statement
    let parted = field.len() > 1 || inner.get(1).is_none_or(u8::is_ascii_whitespace) || is_statement(rest);
    parted.then(|| [&[warp, b'\t'], rest].concat())
}

/// The line with a space for each tab after the first and with what stands for characters that are not ASCII.
fn ascii(line: &[u8]) -> Option<Vec<u8>> {
    let (head, mut rest) = line.split_at(line.len().min(2));
    let mut new = head.to_vec();
    while let Some(&b) = rest.first() {
        let (length, with) = match b {
            b'\t' => (1, " "),
            32..=126 => {
                new.push(b);
                (1, "")
            }
            _ => {
                let (length, _, with) = character(rest);
                (length, with?)
            }
        };
        new.extend(with.bytes());
        rest = &rest[length..];
    }
    Some(new)
}

/// A short text with its tabs written as `<TAB>`.
fn visible(bytes: &[u8]) -> String {
    let cut = &bytes[..bytes.len().min(40)];
    let text = cut.split(|&b| b == b'\t').map(shown).collect::<Vec<_>>().join("<TAB>");
    if cut.len() < bytes.len() {
        text + " .."
    } else {
        text
    }
}
