//! The picture of a sheet, as SVG: the 512 columns of Tensor Memory across, the lines down. Each allocation is a block at the place that the
//! library gave it, what uses it a thin mark inside. Lines after a refused one are not drawn; a strip says how many there are.

mod page;
mod words;

use crate::explain::{counted, grouped, Explanation};
use crate::history::{Access, Allocation, History, Use};
use crate::sheet::Sheet;
use crate::statement::{self, Address, Statement, MEMORY as COLUMNS};
use page::{Label, Page};
use staplehorn::{Answer, Reason};
use std::collections::HashMap;
use std::fmt::Write;

const WIDTH: f64 = 900.0;
/// Where the memory starts, and how wide a column is.
const LEFT: f64 = 54.0;
const TOP: f64 = 128.0;
const UNIT: f64 = 1.5;
const RIGHT: f64 = LEFT + COLUMNS as f64 * UNIT;

/// The tallest row, and the height that all rows together may have.
const ROW: f64 = 22.0;
const TALLEST: f64 = 1_400.0;
/// Marks that are nearer to each other than this are merged.
const MARK: f64 = 6.0;
/// A mark is narrow below this.
const NARROW: f64 = 8.0;
/// No block is lower than this.
const BLOCK: f64 = 2.0;
/// How wide a letter is at the most, for the sizes of type in which texts are fitted.
const LETTER: f64 = 7.3;
const SANS: f64 = 7.4;
const SMALL: f64 = 6.4;
/// Stands where a text was cut: two dots would be a directory's name.
const CUT: char = '\u{2026}';
/// How far below the top of its block a label may stand.
const NEAR: f64 = 80.0;
/// How many tints blocks have.
const TINTS: usize = 6;

/// A selector and a property, with its colour in light and in dark.
const COLOURS: [(&str, &str, &str, &str); 29] = [
    (".bg", "fill", "#ffffff", "#0d1117"),
    (".memory", "fill", "#f4f6f8", "#161b22"),
    (".frame", "stroke", "#afb8c1", "#484f58"),
    (".grid", "stroke", "#e3e7eb", "#232a32"),
    (".rest", "fill", "#eaedf0", "#1d232b"),
    ("text", "fill", "#1f2328", "#e6edf3"),
    (".quiet", "fill", "#59636e", "#9198a1"),
    (".passed", "fill", "#1a7f37", "#3fb950"),
    (".refused", "fill", "#c21c2b", "#ff7b72"),
    (".stop", "stroke", "#c21c2b", "#ff7b72"),
    (".peak", "stroke", "#4a5560", "#b1bac4"),
    (".ld", "stroke", "#0a58b0", "#79c0ff"),
    (".st", "stroke", "#a83e00", "#ffa657"),
    (".mma", "fill", "#8653bd", "#b58be6"),
    (".b0", "fill", "#dce8f6", "#1b2d45"),
    (".b0", "stroke", "#668cb8", "#4f7cb0"),
    (".b1", "fill", "#dcede1", "#193426"),
    (".b1", "stroke", "#5d9570", "#458a5d"),
    (".b2", "fill", "#f3e9d3", "#372c16"),
    (".b2", "stroke", "#9f864d", "#937738"),
    (".b3", "fill", "#e6e3f3", "#2a2743"),
    (".b3", "stroke", "#8a82b8", "#726aa3"),
    (".b4", "fill", "#d8ecec", "#143437"),
    (".b4", "stroke", "#589394", "#3f888b"),
    (".b5", "fill", "#f1e3de", "#3a2822"),
    (".b5", "stroke", "#a97f6e", "#96695a"),
    (".leak", "stroke", "#c21c2b", "#ff7b72"),
    (".asked", "fill", "#c21c2b", "#ff7b72"),
    (".asked", "stroke", "#c21c2b", "#ff7b72"),
];

const STYLE: &str = "text{font:12px system-ui,-apple-system,'Segoe UI',Roboto,'DejaVu Sans',sans-serif;pointer-events:none}\
.mono{font-family:ui-monospace,SFMono-Regular,Menlo,Consolas,'DejaVu Sans Mono',monospace}\
.small{font-size:11px}.file{font-size:17px;font-weight:600}.strong{font-weight:600}\
.end{text-anchor:end}.mid{text-anchor:middle}.grid,.frame,.block{stroke-width:1}.stop{stroke-width:2}.leak{stroke-width:1.75}\
.peak{stroke-width:1.25;stroke-dasharray:7 3 1.5 3}.ld{stroke-width:2}.st{stroke-width:2;stroke-dasharray:3.5 2}\
.many .ld{stroke-width:1.25}.many .st{stroke-width:1.25;stroke-dasharray:2 1.25}\
.narrow{stroke-width:4}.plate{fill-opacity:.85;stroke-width:0}.asked{fill-opacity:.2;stroke-width:1.5}";

/// Draws a sheet. The name is the file's; any text will do.
pub fn svg(name: &str, sheet: &Sheet, e: &Explanation) -> String {
    let plan = Plan::new(sheet, e);
    let mut page = Page::default();
    page.memory(&plan);
    page.blocks(&plan);
    page.marks(&plan, sheet);
    page.peak(&plan);
    page.names(&plan);
    page.lines(&plan);
    page.head(name, &plan);
    page.legend(&plan);
    page.stop(&plan, &e.title);
    page.asked(&plan);
    let height = page.foot(&plan, &e.title);
    page.close(name, &plan, &e.title, height)
}

/// What is drawn where.
struct Plan<'a> {
    answer: Answer,
    /// What the accepted lines did, if it is known; and if the places are known too, the allocations and their blocks.
    history: Option<&'a History>,
    placed: Option<Vec<Placed<'a>>>,
    /// Lines of the sheet, and how many of them are drawn.
    lines: usize,
    drawn: usize,
    /// The height of a row, and where the last one ends.
    row: f64,
    bottom: f64,
    /// Where the red line stands, and where the peak's.
    stop: Option<f64>,
    peak: Option<(usize, f64)>,
    /// The columns that the refused line asks for.
    asked: Option<Asked>,
    /// The alloc of what the refused line gives back too early.
    early: Option<usize>,
}

/// Columns of the memory, from one that may be past its end, and what is said of them.
struct Asked {
    from: u32,
    columns: u32,
    label: String,
}

/// An allocation with its block, its tint and what is marked in it.
struct Placed<'a> {
    allocation: &'a Allocation,
    block: Block,
    tint: usize,
    marks: Vec<Mark>,
}

impl<'a> Plan<'a> {
    fn new(sheet: &Sheet, e: &'a Explanation) -> Plan<'a> {
        let answer = e.answer;
        let drawn = answer.line as usize;
        let row = row_height(drawn);
        let history = e.history.as_ref();
        let lines = sheet.count();
        let mut plan =
            Plan { answer, history, placed: None, lines, drawn, row, bottom: 0.0, stop: None, peak: None, asked: None, early: None };
        plan.bottom = plan.top(drawn.max(1) + 1);
        plan.stop = answer.reason.map(|_| plan.bottom - if plan.is_without_exit(sheet) { 0.0 } else { row / 2.0 });
        let peak = history.and_then(|history| peak_line(history, answer.peak));
        plan.peak = peak.map(|line| (line, plan.top(line + 1).min(plan.bottom)));
        plan.placed = history.and_then(|history| plan.place(history));
        plan.asked = history.filter(|_| plan.placed.is_some()).and_then(|history| asked(sheet, history, &answer));
        plan.early = history.and_then(|history| early(sheet, history, &answer));
        plan
    }

    /// A block that is at fault: it is held at exit, or given back too early.
    fn is_at_fault(&self, a: &Allocation) -> bool {
        a.end.is_none() && (self.answer.reason == Some(Reason::Exit) || self.early == Some(a.line))
    }

    /// The blocks of all allocations with their marks; none unless each has its start. Blocks of one name have one tint.
    fn place(&self, history: &'a History) -> Option<Vec<Placed<'a>>> {
        let mut seen = HashMap::new();
        let mut placed = Vec::new();
        for allocation in &history.allocations {
            let next = seen.len() % TINTS;
            let tint = *seen.entry(allocation.name.as_str()).or_insert(next);
            placed.push(Placed { allocation, block: self.block(allocation, allocation.start?), tint, marks: Vec::new() });
        }
        for mark in marks(history, self.bundle()) {
            if let Some(p) = placed.get_mut(mark.allocation) {
                p.marks.push(mark);
            }
        }
        Some(placed)
    }

    /// The refused line was accepted itself, and no exit follows: what it did is drawn too.
    fn is_without_exit(&self, sheet: &Sheet) -> bool {
        self.answer.reason == Some(Reason::Exit)
            && self.drawn == self.lines
            && self.history.is_some_and(|history| history.exit.is_none())
            && statement::read(sheet.statement(self.drawn)) != Some(Statement::Exit)
    }

    /// Where a line's row starts.
    fn top(&self, line: usize) -> f64 {
        TOP + line.saturating_sub(1) as f64 * self.row
    }

    fn middle(&self, line: usize) -> f64 {
        self.top(line) + self.row / 2.0
    }

    /// The block of an allocation: from the row that takes it to the row that gives it back, or to the red line.
    fn block(&self, a: &Allocation, start: u32) -> Block {
        let from = self.top(a.line);
        let to = a.end.map_or(self.stop.unwrap_or(self.bottom), |line| self.top(line + 1));
        // a gap between neighbours where there is room for one
        let gap = if to - from > 2.0 * BLOCK { 1.0 } else { 0.0 };
        Block {
            x: x_of(start) + 1.0,
            y: from + gap,
            width: (f64::from(a.columns.min(COLUMNS)) * UNIT - 2.0).max(BLOCK),
            height: (to - from - if a.end.is_some() { 2.0 * gap } else { gap }).max(BLOCK),
        }
    }

    /// Where a mark stands in its block: x, y and width. Where lines share a mark, those of the three sorts stand below each other.
    fn spot(&self, mark: &Mark, p: &Placed) -> (f64, f64, f64) {
        let b = &p.block;
        let (part, least, border) = if self.bundle() == 1 { (0.5, 2.0, 0.0) } else { (0.2 + 0.3 * mark.kind as usize as f64, 5.25, 1.5) };
        let y = TOP + (mark.bundle as f64 + part) * self.row * self.bundle() as f64;
        // marks of neighbouring columns stay apart where each line has its own; else the smallest can be seen, and the border is free
        let (left, right) = (b.x + border, b.x + b.width - border);
        let column = |column: u32| x_of(p.allocation.start.unwrap_or(0).saturating_add(column));
        let x = column(mark.from).min(right - least).max(left);
        let width = (column(mark.to).min(right) - x).max(least);
        (x, y.min(b.y + b.height - BLOCK / 2.0).max(b.y + BLOCK / 2.0), width)
    }

    /// Where a label may start so that neither a mark nor the peak's line is behind it, from the top of its block down; none if nowhere near.
    fn clear(&self, p: &Placed, label: &Label) -> Option<f64> {
        let spots = p.marks.iter().map(|mark| self.spot(mark, p));
        let (left, right) = label.sides(&p.block);
        let behind = spots.filter(|&(x, _, width)| x < right && x + width > left).map(|spot| spot.1);
        let mut all: Vec<f64> = behind.chain(self.peak.map(|peak| peak.1)).filter(|&y| y > p.block.y).collect();
        all.sort_by(f64::total_cmp);
        let mut top = p.block.y;
        for y in all {
            if y > top + label.height {
                break;
            }
            top = top.max(y + 1.0);
        }
        Some(top).filter(|top| top - p.block.y <= NEAR && top + label.height <= p.block.y + p.block.height)
    }

    /// How many lines share a mark.
    fn bundle(&self) -> usize {
        (MARK / self.row).ceil().max(1.0) as usize
    }
}

struct Block {
    x: f64,
    y: f64,
    width: f64,
    height: f64,
}

fn x_of(column: u32) -> f64 {
    LEFT + f64::from(column.min(COLUMNS)) * UNIT
}

/// The height of each of some rows: 22 for a few, and never more than fits on a page.
fn row_height(lines: usize) -> f64 {
    let n = lines.max(1) as f64;
    (ROW * n).min(560.0 + 7.0 * n).min(TALLEST) / n
}

/// What a line that is refused for its columns asks for: an alloc for a run, put against the longest that is free; an address for columns
/// of its allocation.
fn asked(sheet: &Sheet, history: &History, answer: &Answer) -> Option<Asked> {
    let text = sheet.statement(answer.line as usize);
    match (answer.reason?, &statement::read(text)?) {
        (Reason::Space, Statement::Alloc { name, columns }) => Some(asked_run(name, *columns, &history.free_runs()?)),
        (Reason::Cells, Statement::Access { shape, num, address, .. }) => asked_cells(history, address, shape.columns * num),
        (Reason::Cells, Statement::Mma(mma)) => {
            // the statement starts in column 3
            let at = (answer.column as usize).checked_sub(3)?;
            let operand = statement::operands(text).iter().position(|&(from, to)| (from..to).contains(&at))?;
            let (address, columns, _) = history.cells(mma, operand)?;
            asked_cells(history, address, columns)
        }
        _ => None,
    }
}

/// The line that took what a dealloc gives back while a load or store of it is outstanding.
fn early(sheet: &Sheet, history: &History, answer: &Answer) -> Option<usize> {
    match (answer.reason?, statement::read(sheet.statement(answer.line as usize))?) {
        (Reason::Outstanding, Statement::Dealloc { name, .. }) => history.allocation(&name).map(|a| a.line),
        _ => None,
    }
}

fn asked_run(name: &str, columns: u32, free: &[(u32, u32)]) -> Asked {
    let columns = columns.min(COLUMNS);
    let longest = free.iter().copied().max_by_key(|&(start, length)| (length, COLUMNS - start.min(COLUMNS)));
    let (start, room) = match longest {
        Some((start, length)) => (start, format!("the longest free run has {length}, {start} to {}", start + length - 1)),
        None => (0, "none is free".into()),
    };
    // as wide as it is: what would go past the end stands further left
    Asked { from: start.min(COLUMNS - columns), columns, label: format!("{name} asks for {}; {room}", counted(columns, "column")) }
}

fn asked_cells(history: &History, address: &Address, columns: u32) -> Option<Asked> {
    let a = history.allocation(&address.name)?;
    let (first, start) = (address.column(), a.start?);
    let taken = columns_of(first, first.saturating_add(columns));
    let label = format!("{taken} of {} asked for; it has {}", a.name, counted(a.columns, "column"));
    // else it is the lane that is wrong
    (first.saturating_add(columns) > a.columns).then(|| Asked { from: start.saturating_add(first), columns, label })
}

/// Columns from one up to one before another.
fn columns_of(from: u32, to: u32) -> String {
    match to.saturating_sub(1) {
        last if last > from => format!("columns {from} to {last}"),
        _ => format!("column {from}"),
    }
}

/// The first line after which the most columns are held, if that many are the library's peak.
fn peak_line(history: &History, peak: u32) -> Option<usize> {
    let taken = history.allocations.iter().map(|a| (a.line, i64::from(a.columns)));
    let given = history.allocations.iter().filter_map(|a| a.end.map(|line| (line, -i64::from(a.columns))));
    let mut changes: Vec<_> = taken.chain(given).collect();
    changes.sort_unstable();
    let (mut held, mut most, mut at) = (0, 0, None);
    for (line, change) in changes {
        held += change;
        if held > most {
            (most, at) = (held, Some(line));
        }
    }
    at.filter(|_| most == i64::from(peak))
}

/// Accesses of one sort to neighbouring columns of an allocation, by one line or by a bundle of lines.
struct Mark {
    kind: Use,
    allocation: usize,
    bundle: usize,
    from: u32,
    to: u32,
    lines: (usize, usize),
    count: usize,
}

/// The marks of all accesses; what lies in the same bundle of lines and touches is one.
fn marks(history: &History, bundle: usize) -> Vec<Mark> {
    let of = |a: &Access| Mark {
        kind: a.kind,
        allocation: a.allocation,
        bundle: a.line.saturating_sub(1) / bundle,
        from: a.column,
        to: a.column.saturating_add(a.columns),
        lines: (a.line, a.line),
        count: 1,
    };
    let mut all: Vec<Mark> = history.accesses.iter().map(of).collect();
    all.sort_by_key(|m| (m.bundle, m.allocation, m.kind as usize, m.from));
    let mut merged: Vec<Mark> = Vec::new();
    for mark in all {
        match merged.last_mut() {
            Some(m) if (m.bundle, m.allocation, m.kind) == (mark.bundle, mark.allocation, mark.kind) && mark.from <= m.to => {
                m.to = m.to.max(mark.to);
                m.lines = (m.lines.0.min(mark.lines.0), m.lines.1.max(mark.lines.1));
                m.count += 1;
            }
            _ => merged.push(mark),
        }
    }
    merged
}

#[cfg(test)]
mod tests {
    use super::page::Way;
    use super::words::*;
    use super::*;

    /// How light a colour is, from 0 to 1, as WCAG has it.
    fn light(colour: &str) -> f64 {
        let part = |i: usize| f64::from(u8::from_str_radix(&colour[i..i + 2], 16).unwrap()) / 255.0;
        let linear = |c: f64| if c <= 0.04045 { c / 12.92 } else { ((c + 0.055) / 1.055).powf(2.4) };
        0.2126 * linear(part(1)) + 0.7152 * linear(part(3)) + 0.0722 * linear(part(5))
    }

    fn colour(selector: &str, property: &str, dark: bool) -> &'static str {
        let row = COLOURS.iter().find(|c| (c.0, c.1) == (selector, property)).unwrap();
        if dark {
            row.3
        } else {
            row.2
        }
    }

    #[test]
    fn colours_have_contrast() {
        let blocks = [".b0", ".b1", ".b2", ".b3", ".b4", ".b5"];
        assert_eq!(blocks.len(), TINTS);
        for dark in [false, true] {
            let holds = |least: f64, (s, property): (&str, &str), ground: &str| {
                let (a, b) = (light(colour(s, property, dark)), light(colour(ground, "fill", dark)));
                let ratio = (a.max(b) + 0.05) / (a.min(b) + 0.05);
                assert!(ratio >= least, "{s} {property} on {ground}, dark {dark}: {ratio:.2}");
            };
            for text in ["text", ".quiet", ".passed", ".refused"] {
                holds(4.5, (text, "fill"), ".bg");
            }
            holds(4.5, (".quiet", "fill"), ".rest");
            for line in [".stop", ".peak", ".leak", ".asked"] {
                holds(4.5, (line, "stroke"), ".memory");
            }
            for ground in blocks {
                holds(3.0, (ground, "stroke"), ".memory");
                holds(7.0, ("text", "fill"), ground);
                holds(4.5, (".quiet", "fill"), ground);
                holds(4.5, (".ld", "stroke"), ground);
                holds(4.5, (".st", "stroke"), ground);
                holds(3.0, (".mma", "fill"), ground);
                holds(3.0, (".peak", "stroke"), ground);
                holds(3.0, (".asked", "stroke"), ground);
            }
        }
    }

    #[test]
    fn texts() {
        assert_eq!(escaped("a<b>&\"'\u{0}\n\u{202E}\u{FFFF}\u{E9}"), "a&lt;b&gt;&amp;&quot;&#39;&#xFFFD;&#xFFFD;&#xFFFD;&#xFFFD;&#xE9;");
        assert_eq!((shortened("abcdef", 6), shortened("abcdefg", 6)), ("abcdef".into(), "\u{2026}cdefg".into()));
        assert_eq!(shortened("\u{4E00}\u{4E00}\u{4E00}\u{4E00}", 7), "\u{2026}\u{4E00}\u{4E00}\u{4E00}");
        assert_eq!(wrapped("one two three", 8, 4), ["one two", "three"]);
        assert_eq!(wrapped("abcdefghij", 4, 2), ["abcd", "efgh\u{2026}"]);
        assert_eq!((n(1.0), n(0.125), n(1400.0), n(-0.5)), ("1".into(), "0.12".into(), "1400".into(), "-0.5".into()));
    }

    #[test]
    fn rows() {
        assert_eq!((row_height(0), row_height(10)), (22.0, 22.0));
        for lines in 1..5_000 {
            assert!(row_height(lines) >= row_height(lines + 1));
            assert!(row_height(lines) * lines as f64 <= TALLEST + 0.001);
        }
    }

    #[test]
    fn the_peak_is_the_librarys_or_none() {
        let of = |line, end, columns| Allocation { name: "t".into(), columns, line, end, start: None };
        let history = History { allocations: vec![of(2, Some(4), 64), of(3, None, 32), of(5, Some(6), 64)], ..History::default() };
        assert_eq!((peak_line(&history, 96), peak_line(&history, 64)), (Some(3), None));
        assert_eq!(peak_line(&History::default(), 0), None);
    }

    #[test]
    fn labels_fit() {
        let a = |name: &str| Allocation { name: name.into(), columns: 32, line: 2, end: None, start: Some(0) };
        let way = |name: &str, height: f64| {
            let label = Label::new(&a(name), &Block { x: 0.0, y: 0.0, width: 46.0, height });
            (label.way, label.name, label.size)
        };
        assert_eq!(way("t", 10.0).0, Way::None);
        assert_eq!(way("t1", 20.0), (Way::One, "t1".into(), "32".into()));
        assert_eq!(way("t123", 20.0), (Way::One, "t123".into(), "".into()));
        assert_eq!(way("t123", 40.0), (Way::Two, "t123".into(), "32".into()));
        assert_eq!(way("metadata", 200.0), (Way::Upright, "metadata".into(), "32".into()));
        assert_eq!(way("metadata", 40.0), (Way::Two, "meta\u{2026}".into(), "32".into()));
    }
}
