//! Reasons 8 (by warp), 9, 10, 11 and 15: who allocates, how many columns, when, where, and what is held at the end.

use super::names::{self, some_of, Sort};
use super::numbers::{cut, octal_in};
use super::outstanding::{missing, once, waits};
use super::{counted, listed, shown, Context, Explanation};
use crate::history::{Allocation, By, History};
use crate::sheet::{Edit, Sheet};
use crate::statement::{self, Statement, MEMORY};
use staplehorn::{Answer, Reason};

/// The lines that give some allocations back, each with its LF, and what is said of the waits that come first.
fn returned(c: &Context, all: &[&Allocation]) -> (String, String) {
    let warp = c.history.booker.map_or(0, |by| by.warp);
    let names: Vec<&str> = all.iter().map(|a| a.name.as_str()).collect();
    let missing = missing(c, &names);
    let dealloc = |a: &&Allocation| format!("{warp}\ttcgen05.dealloc.cta_group::1.sync.aligned.b32 {}, {};\n", a.name, a.columns);
    (waits(&missing) + &all.iter().map(dealloc).collect::<String>(), once(&missing))
}

/// What is said of a line's warp where it is not written as a number.
pub fn star(c: &Context, line: usize) -> &'static str {
    if c.sheet.line(line).first() == Some(&b'*') {
        " (`*` is read as warp 0)"
    } else {
        ""
    }
}

fn word(statement: &Option<Statement>) -> &'static str {
    match statement {
        Some(Statement::Alloc { .. }) => "alloc",
        Some(Statement::Dealloc { .. }) => "dealloc",
        _ => "relinquish",
    }
}

pub fn warp(c: &Context, e: &mut Explanation) {
    let Some(By { line, warp }) = c.history.booker else { return };
    let (found, verb) = (c.warp(), word(&c.statement));
    e.title(format!("this {verb} is by warp {found}, but all booking of columns is by warp {warp} since line {line}"));
    e.point(2, format!("warp {found}{}", star(c, c.line())));
    let first = word(&statement::read(c.sheet.statement(line)));
    e.related(line, (1, 2), format!("the first {first} fixes warp {warp}{}", star(c, line)));
    e.note("every alloc, dealloc and relinquish of a sheet is by the warp of the first alloc or relinquish");
    let edit = Edit { line: c.line(), from: 1, to: 2, text: warp.to_string().into() };
    e.fix(c.sheet, format!("let warp {warp} do the {verb}"), edit);
}

pub fn columns(c: &Context, e: &mut Explanation) {
    match &c.statement {
        Some(Statement::Alloc { name, columns }) => request(c, e, name, *columns),
        Some(Statement::Dealloc { name, columns }) => part(c, e, name, *columns),
        _ => {}
    }
}

/// The requests that the library takes.
fn legal() -> Vec<u32> {
    (0..=12).map(|i| 1 << i).filter(|&columns| staplehorn::request(columns).is_ok()).collect()
}

/// `32, 64, .. or 512`.
pub fn any_legal() -> String {
    listed(&legal().iter().map(u32::to_string).collect::<Vec<_>>(), "or")
}

/// The number that is refused, as it is spelled: its end, and what to say of it.
fn spelled(c: &Context, columns: u32) -> (usize, String) {
    let text = c.number();
    let (value, said) = (counted(columns, "column"), cut(&text));
    let label = match (text == columns.to_string(), octal(&text)) {
        (true, _) => value,
        (_, Some(_)) => format!("{value}: with a leading zero `{said}` is octal"),
        _ => format!("{value}: `{said}` is {columns}"),
    };
    (c.column() + text.len(), label)
}

/// Says that a number of the expression that is refused is octal; of a number alone its label does.
fn octals(c: &Context, e: &mut Explanation) {
    let text = c.number();
    e.notes.extend(octal_in(&text).filter(|_| octal(&text).is_none()));
}

/// What the digits of an octal number would be as decimals.
fn octal(text: &str) -> Option<u32> {
    let digits = text.trim_end_matches('U').strip_prefix('0')?;
    digits.parse().ok()
}

/// Puts another number in place of the one that is refused.
fn number(c: &Context, columns: u32) -> Edit {
    let to = c.column() + c.number().len();
    Edit { line: c.line(), from: c.column(), to, text: columns.to_string().into() }
}

/// An alloc of a number of columns that cannot be requested.
fn request(c: &Context, e: &mut Explanation, name: &str, columns: u32) {
    let legal = legal();
    let (Some(&least), Some(&most)) = (legal.first(), legal.last()) else { return };
    let (to, label) = spelled(c, columns);
    octals(c, e);
    e.title(format!("`{name}` asks for {}; an alloc takes {}", counted(columns, "column"), any_legal()));
    e.point(to, label);
    e.note(match columns {
        _ if columns < least => format!("{least} columns are the least that an alloc takes"),
        _ if columns > most => format!("Tensor Memory has {most} columns in all"),
        _ => format!("{columns} is no power of two"),
    });
    let (next, text) = meant(c, name, columns, &legal);
    e.fix(c.sheet, text, number(c, next));
}

/// The legal request that an illegal one stands for, and what to say of it: what the digits of an octal number would be, what a later line
/// gives back, else the next one up, or the most.
fn meant(c: &Context, name: &str, columns: u32, legal: &[u32]) -> (u32, String) {
    let back = given(c, name).first().copied();
    let decimals = octal(&c.number()).filter(|n| legal.contains(n));
    let up = legal.iter().copied().find(|&n| n > columns);
    let (next, text) = match (decimals, back.filter(|(_, n)| legal.contains(n)), up) {
        (Some(n), ..) => (n, format!("write {n} without the leading zero")),
        (_, Some((line, n)), _) => (n, format!("ask for {n}, as line {line} gives {n} back")),
        (.., Some(n)) => (n, format!("ask for {n}, the next that is legal")),
        _ => legal.last().map_or((0, String::new()), |&n| (n, format!("ask for {n}, which is all there is"))),
    };
    match back {
        Some((line, n)) if n != next => (next, format!("{text}, and give {next} back at line {line} (it says {})", said(c, line, n))),
        _ => (next, text),
    }
}

/// The number of a dealloc as it is spelled, and its value where that is another text.
fn said(c: &Context, line: usize, n: u32) -> String {
    let (from, to) = c.span(line, 1);
    let text = shown(c.sheet.line(line).get(from - 1..to - 1).unwrap_or_default());
    match octal(&text) {
        _ if text == n.to_string() => text,
        Some(_) => format!("`{text}`, which is octal for {n}"),
        None => format!("`{text}`, which is {n}"),
    }
}

/// A dealloc of another number of columns than the allocation has.
fn part(c: &Context, e: &mut Explanation, name: &str, columns: u32) {
    let Some(a) = c.history.allocation(name) else { return };
    let (to, label) = spelled(c, columns);
    octals(c, e);
    e.title(format!("`{name}` has {}, but {columns} are given back", counted(a.columns, "column")));
    e.point(to, label);
    e.related(a.line, c.span(a.line, 1), format!("`{name}` takes {} here", counted(a.columns, "column")));
    e.note("an allocation is given back whole: its dealloc has the number of columns that its alloc took");
    let once = once(&missing(c, &[name]));
    e.fix(c.sheet, format!("give all {} back{once}", counted(a.columns, "column")), number(c, a.columns));
    let others: Vec<String> = c.history.live().filter(|a| a.columns == columns).map(|a| format!("`{}`", a.name)).collect();
    if !others.is_empty() {
        e.help(format!("or name the allocation that has {}: {}", counted(columns, "column"), some_of(others)));
    }
}

pub fn relinquished(c: &Context, e: &mut Explanation) {
    let (Some(Statement::Alloc { name, columns }), Some(line)) = (&c.statement, c.history.relinquished) else { return };
    e.title(format!("`{name}` asks for {} after the permit to allocate was given up at line {line}", counted(*columns, "column")));
    e.point(c.span(c.line(), usize::MAX).1, format!("an alloc after the relinquish of line {line}"));
    e.related(line, c.span(line, usize::MAX), format!("warp {} gives the permit up here", c.sheet.warp(line)));
    e.note("after a relinquish no alloc is accepted, to the end of the sheet; a dealloc is");
    let last = |found: fn(&Statement) -> bool| c.later().filter(|(_, s)| found(s)).map(|(line, _)| line).last();
    let alloc = last(|s| matches!(s, Statement::Alloc { .. })).unwrap_or(c.line());
    if last(|s| *s == Statement::Relinquish).is_some_and(|again| again > alloc)
        && e.fix(c.sheet, format!("remove line {line}: a later relinquish follows the last alloc"), c.sheet.without(line))
    {
        return;
    }
    let before = (line..c.line()).filter(|&line| statement::read(c.sheet.statement(line)) == Some(Statement::Relinquish));
    let lines: Vec<String> = before.map(|line| line.to_string()).collect();
    let which = if lines.len() == 1 { format!("relinquish of line {line}") } else { format!("relinquishes of lines {}", some_of(lines)) };
    e.help(format!("move the {which} down, after the last alloc (line {alloc})"));
    let this = if alloc == c.line() { "this alloc" } else { "this alloc, and those that follow," };
    e.help(format!("or move {this} up, before line {line}"));
}

/// First and last column.
fn columns_of(start: u32, columns: u32) -> String {
    format!("columns {start} to {}", (start + columns).saturating_sub(1))
}

pub fn space(c: &Context, e: &mut Explanation) {
    let Some(Statement::Alloc { name, columns }) = &c.statement else { return };
    let free = MEMORY.saturating_sub(c.answer.held);
    let to = c.span(c.line(), usize::MAX).1;
    e.title(format!("no free run of {columns} columns for `{name}`: {} held, {free} free", c.answer.held));
    e.point(to, format!("asks for {columns} columns in one run"));
    let Some(runs) = c.history.free_runs() else { return unplaced(c, e, free) };
    let longest = runs.iter().copied().max_by_key(|&(start, length)| (length, MEMORY - start));
    if let Some((_, length)) = longest {
        e.title(format!("no free run of {columns} columns for `{name}`: {free} are free, at most {length} in one run"));
    }
    let blocking = blocking(c, *columns);
    let first: Vec<&Allocation> = blocking.iter().flatten().copied().collect();
    let mut shown: Vec<&Allocation> = c.history.live().collect();
    shown.sort_by_key(|a| (!first.iter().any(|b| b.line == a.line), a.line));
    for a in shown.into_iter().take(4) {
        e.related(a.line, c.span(a.line, 0), format!("`{}` takes {} here", a.name, columns_of(a.start.unwrap_or(0), a.columns)));
    }
    e.note(drawing(&c.history, longest, *columns));
    e.note(free_list(&runs, free));
    e.note(held_list(&c.history, c.answer.held));
    e.note("an alloc starts at the lowest multiple of 32 from which all of its columns are free; allocations are never moved");
    room(c, e, &blocking);
    smaller(e, longest);
}

/// The same where it is not known what stands where.
fn unplaced(c: &Context, e: &mut Explanation, free: u32) {
    let live = c.history.live().map(|a| format!("`{}` ({}, taken at line {})", a.name, counted(a.columns, "column"), a.line));
    e.note(format!("{free} of {MEMORY} columns are free; an alloc needs all of its columns in one run, and allocations are never moved"));
    e.note(format!("held: {}", some_of(live.collect())));
    e.help(format!("give some of them back before line {}, or ask for fewer columns", c.line()));
}

/// The sets of allocations whose return would make room for a run: those that no later line uses, if there are any; of these with the
/// fewest allocations: each one that is enough by itself, else the one set with the fewest columns.
fn blocking<'c>(c: &'c Context, columns: u32) -> Vec<Vec<&'c Allocation>> {
    let ends = |a: &Allocation| a.start.map(|start| (start, start + a.columns));
    let within = |from: u32| {
        let inside = |a: &&Allocation| ends(a).is_some_and(|(start, end)| start < from + columns && from < end);
        c.history.live().filter(inside).collect::<Vec<_>>()
    };
    let mut sets: Vec<Vec<&Allocation>> = (0..=MEMORY.saturating_sub(columns)).step_by(32).map(within).collect();
    sets.retain(|set| !set.is_empty());
    let busy: Vec<&str> = c.history.live().map(|a| a.name.as_str()).filter(|name| !uses_of(c, name).is_empty()).collect();
    let is_busy = |set: &[&Allocation]| set.iter().any(|a| busy.contains(&a.name.as_str()));
    sets.sort_by_key(|set| (is_busy(set), set.len(), set.iter().map(|a| a.columns).sum::<u32>()));
    sets.dedup();
    let kind = sets.first().is_some_and(|set| is_busy(set));
    let alone = sets.iter().filter(|set| set.len() == 1 && is_busy(set) == kind).count();
    sets.truncate(alone.max(1));
    sets
}

/// Bytes of the drawing for so many columns: one for eight.
fn cells(columns: u32) -> usize {
    (columns / 8) as usize
}

/// The live allocations, each with what stands for it in the drawing: its name, or for all of them a letter where a name does not fit.
fn labelled(history: &History) -> Vec<(String, &Allocation)> {
    let named = history.live().all(|a| a.name.len() + 2 <= cells(a.columns));
    history.live().zip('A'..).map(|(a, letter)| (if named { a.name.clone() } else { letter.into() }, a)).collect()
}

/// The columns, with a ruler, the longest free run and the run that is asked for.
fn drawing(history: &History, longest: Option<(u32, u32)>, columns: u32) -> String {
    let mut row = ".".repeat(cells(MEMORY));
    for (label, a) in labelled(history) {
        let (from, width) = (cells(a.start.unwrap_or(0)), cells(a.columns));
        let block = format!("[{label:-<0$}]", width.saturating_sub(2));
        if block.len() == width && from + width <= row.len() {
            row.replace_range(from..from + width, &block);
        }
    }
    let mut lines = vec![
        "Tensor Memory here, one character for 8 columns:".into(),
        format!("         {:<16}{:<16}{:<16}{:<16}{}", 0, 128, 256, 384, MEMORY),
        format!("         {0}{0}{0}{0}|", "|               "),
        format!("columns  {row}"),
    ];
    let (start, length) = longest.unwrap_or((0, 0));
    if length > 0 {
        lines.push(format!("longest  {}{} {length} free", " ".repeat(cells(start)), "^".repeat(cells(length))));
    }
    // not past the end
    let from = start.min(MEMORY.saturating_sub(columns));
    lines.push(format!("asked    {}{} {columns}", " ".repeat(cells(from)), "=".repeat(cells(columns))));
    lines.join("\n")
}

fn free_list(runs: &[(u32, u32)], free: u32) -> String {
    let list: Vec<String> = runs.iter().map(|&(start, length)| format!("{} ({length})", columns_of(start, length))).collect();
    match runs {
        [] => "no column is free".into(),
        _ => format!("free: {}; {free} in all", list.join(", ")),
    }
}

fn held_list(history: &History, held: u32) -> String {
    let mut lines = vec![format!("held: {held} in all")];
    for (label, a) in labelled(history) {
        let key = if label == a.name { String::new() } else { label + " " };
        let place = columns_of(a.start.unwrap_or(0), a.columns);
        lines.push(format!("  {key}`{}`: {place} ({}), taken at line {}", a.name, a.columns, a.line));
    }
    lines.join("\n")
}

/// What to give back first.
fn room(c: &Context, e: &mut Explanation, blocking: &[Vec<&Allocation>]) {
    for set in blocking.iter().take(3) {
        let names: Vec<String> = set.iter().map(|a| format!("`{}`", a.name)).collect();
        let (names, or, line) = (listed(&names, "and"), if e.helps.is_empty() { "" } else { "or " }, c.line());
        let it = if set.len() == 1 { "it" } else { "them" };
        let mut used: Vec<usize> = set.iter().flat_map(|a| uses_of(c, &a.name)).collect();
        used.sort_unstable();
        used.dedup();
        let all = some_of(used.iter().map(usize::to_string).collect());
        let lines = if used.len() == 1 { format!("line {all}, which uses {it}") } else { format!("lines {all}, which use {it}") };
        let once = returned(c, set).1;
        match set[..] {
            [a] if used.is_empty() => unused(c, e, a, or),
            _ if used.is_empty() => e.help(format!("{or}give {names} back before line {line}{once}: no later line uses {it}")),
            _ => e.help(format!("{or}give {names} back before line {line}: {lines}, would have to come before line {line} too")),
        }
    }
}

/// An allocation that would make room, and that no later line uses.
fn unused(c: &Context, e: &mut Explanation, a: &Allocation, or: &str) {
    let (name, line) = (&a.name, c.line());
    let (lines, once) = returned(c, &[a]);
    match back(c, name) {
        None => {
            e.fix(c.sheet, format!("{or}give `{name}` back first{once}: no later line uses it"), Edit::before(line, lines));
        }
        Some(end) => e.help(format!(
            "{or}give `{name}` back first{once}: move its dealloc, line {end}, up before line {line}; no line between them uses it"
        )),
    }
}

/// The later line that gives a name back.
pub fn back(c: &Context, name: &str) -> Option<usize> {
    c.later().find(|(_, s)| matches!(s, Statement::Dealloc { name: n, .. } if n == name)).map(|(line, _)| line)
}

/// The later lines that give a name back before an alloc takes it again, each with its columns.
pub fn given(c: &Context, name: &str) -> Vec<(usize, u32)> {
    let until = c.later().take_while(|(_, s)| !matches!(s, Statement::Alloc { name: n, .. } if n == name));
    let back = |(line, s): (usize, &Statement)| match s {
        Statement::Dealloc { name: n, columns } if n == name => Some((line, *columns)),
        _ => None,
    };
    until.filter_map(back).collect()
}

/// The later lines, up to its dealloc, that use an allocation.
pub fn uses_of(c: &Context, name: &str) -> Vec<usize> {
    let end = back(c, name).unwrap_or(usize::MAX);
    let until = c.later().take_while(|&(line, _)| line < end);
    until.filter(|(_, s)| names::uses(s, name, Sort::Allocation)).map(|(line, _)| line).collect()
}

/// The largest request that the longest run has room for.
fn smaller(e: &mut Explanation, longest: Option<(u32, u32)>) {
    let fits = longest.and_then(|(_, length)| legal().into_iter().rev().find(|&n| n <= length));
    if let Some(most) = fits {
        e.help(format!("or ask for {most} columns, the most that there is room for"));
    }
}

pub fn exit(c: &Context, e: &mut Explanation) {
    match c.history.exit {
        Some(line) => after_exit(c, e, line),
        None if is_without_exit(c.sheet, &c.answer) => no_exit(c, e),
        None => held(c, e),
    }
}

/// `t holds 64 columns`, `2 allocations hold 96 columns`.
fn holders(c: &Context) -> String {
    let live: Vec<&Allocation> = c.history.live().collect();
    let columns = counted(c.answer.held, "column");
    match live[..] {
        [a] => format!("`{}` holds {columns}", a.name),
        _ => format!("{} hold {columns}", counted(live.len() as u64, "allocation")),
    }
}

/// Each allocation that is live, at the line that took it, and why that matters.
fn point_at_live(c: &Context, e: &mut Explanation) {
    for a in c.history.live() {
        let given = if back(c, &a.name).is_some() { "gives them back only after exit" } else { "never gives them back" };
        e.related(a.line, c.span(a.line, 0), format!("`{}` takes {} here and {given}", a.name, counted(a.columns, "column")));
    }
    e.note(
        "at exit nothing may be held: columns that a block does not give back stay taken when it ends, \
        and the next block waits for them for ever",
    );
}

fn held(c: &Context, e: &mut Explanation) {
    e.title(format!("exit while {}", holders(c)));
    e.point(2, format!("{} are held here", counted(c.answer.held, "column")));
    point_at_live(c, e);
    let (late, never): (Vec<&Allocation>, Vec<&Allocation>) = c.history.live().partition(|a| back(c, &a.name).is_some());
    if !late.is_empty() {
        too_late(c, e, &late);
    }
    let names: Vec<String> = never.iter().map(|a| format!("`{}`", a.name)).collect();
    if !names.is_empty() {
        let (lines, once) = returned(c, &never);
        add(c, e, &format!("give {} back before exit{once}", listed(&names, "and")), c.line(), &lines);
    }
}

/// Lines after the exit give back what is held.
fn too_late(c: &Context, e: &mut Explanation, late: &[&Allocation]) {
    let lines: Vec<String> = late.iter().filter_map(|a| back(c, &a.name)).map(|line| line.to_string()).collect();
    let word = if lines.len() == 1 { "line" } else { "lines" };
    e.note(format!("exit must be the last line: {word} {} would give columns back, but after it", listed(&lines, "and")));
    if !is_last_exit(c) || !e.fix(c.sheet, "remove this exit: the sheet ends with another", c.sheet.without(c.line())) {
        e.help("move this exit to the end of the sheet");
    }
}

/// Offers lines to add; in words where the library gets no further with them.
pub fn add(c: &Context, e: &mut Explanation, text: &str, line: usize, lines: &str) {
    if !e.fix(c.sheet, text, Edit::before(line, lines)) {
        let mut statements: Vec<String> = Vec::new();
        for line in lines.lines() {
            let statement = format!("`{}`", line.get(2..).unwrap_or_default());
            // a wait of several warps
            if !statements.contains(&statement) {
                statements.push(statement);
            }
        }
        e.help(format!("{text}: {}", listed(&statements, "and")));
    }
}

/// The last line of the sheet, after the refused one, is an exit.
fn is_last_exit(c: &Context) -> bool {
    c.later().last().is_some_and(|(line, s)| line == c.sheet.count() && *s == Statement::Exit)
}

fn after_exit(c: &Context, e: &mut Explanation, line: usize) {
    let count = c.sheet.count().saturating_sub(line);
    let follow = if count == 1 { "1 line follows".into() } else { format!("{} follow", counted(count as u64, "line")) };
    e.title(format!("line {} stands after exit, which must be the last line", c.line()));
    e.point(2, format!("after the exit of line {line}"));
    e.related(line, c.span(line, usize::MAX), format!("exit ends the sheet here; {follow}"));
    e.note("nothing may follow exit, not even another exit, a wait or a mov");
    let second = c.statement == Some(Statement::Exit);
    if count == 1 && second && e.fix(c.sheet, "remove this second exit", c.sheet.without(c.line())) {
        return;
    }
    let ends =
        is_last_exit(c) && e.fix(c.sheet, format!("remove the exit of line {line}: the sheet ends with another"), c.sheet.without(line));
    if !ends && count == 1 && e.fix(c.sheet, "remove this line", c.sheet.without(c.line())) {
        return e.help(format!("or, if it is needed, move the exit of line {line} after it"));
    }
    if !ends {
        e.help(format!("move the exit of line {line} to the end of the sheet, or remove the {} after it", counted(count as u64, "line")));
    }
}

/// Reason 15 after the last line.
fn no_exit(c: &Context, e: &mut Explanation) {
    let held = c.answer.held;
    let alone = if c.line() == 1 { ": it has its header alone" } else { "" };
    let more = if held > 0 { format!(", and {}", holders(c)) } else { alone.into() };
    e.title(format!("the sheet ends without exit{more}"));
    e.point(2, "the last line: no exit follows");
    if held > 0 {
        point_at_live(c, e);
    } else {
        e.note("the last line of a sheet is `exit;`, by any warp");
    }
    let live: Vec<&Allocation> = c.history.live().collect();
    let (lines, once) = returned(c, &live);
    let text = if held > 0 { format!("give the columns back{once}, and end with exit") } else { "end with exit".into() };
    add(c, e, &text, c.sheet.count() + 1, &(lines + "0\texit;\n"));
}

/// The last line is accepted, and no exit was seen: reason 15 is asked after it.
pub fn is_without_exit(sheet: &Sheet, answer: &Answer) -> bool {
    let line = answer.line as usize;
    let is_exit = |line: usize| statement::opcode(sheet.statement(line)) == b"exit";
    answer.reason == Some(Reason::Exit) && line == sheet.count() && !(2..=line).any(is_exit)
}

/// Sheets in short, and what is told of them, for tests.
#[cfg(test)]
pub mod short {
    use super::super::{answer_of, explain, Explanation};
    use crate::sheet::Sheet;
    use staplehorn::Answer;

    const OPCODES: [(&str, &str); 10] = [
        ("alloc", "tcgen05.alloc.cta_group::1.sync.aligned.b32"),
        ("dealloc", "tcgen05.dealloc.cta_group::1.sync.aligned.b32"),
        ("relinquish;", "tcgen05.relinquish_alloc_permit.cta_group::1.sync.aligned;"),
        ("ld", "tcgen05.ld.sync.aligned.32x32b.x1.b32"),
        ("st", "tcgen05.st.sync.aligned.32x32b.x1.b32"),
        ("mma", "tcgen05.mma.cta_group::1.kind::f16"),
        ("sparse", "tcgen05.mma.sp.cta_group::1.kind::f16"),
        ("wait;", "tcgen05.wait::ld.sync.aligned;"),
        ("wait::st;", "tcgen05.wait::st.sync.aligned;"),
        ("fence;", "tcgen05.fence::before_thread_sync;"),
    ];

    /// The sheet of some lines: a warp, a space, and a statement whose opcode may be one of the short ones.
    pub fn sheet(lines: &[&str]) -> Vec<u8> {
        let mut text = String::from("sheet\t1\tsm_100a\n");
        for line in lines {
            let (warp, statement) = line.split_once(' ').unwrap();
            let (head, rest) = statement.split_once(' ').unwrap_or((statement, ""));
            let long = OPCODES.iter().find(|row| row.0 == head).map_or(head, |row| row.1);
            text += &format!("{warp}\t{long}{}{rest}\n", if rest.is_empty() { "" } else { " " });
        }
        text.into_bytes()
    }

    /// The explanation of such a sheet, and the library's answers for it with each edit that is offered.
    pub fn told(lines: &[&str]) -> (Explanation, Vec<Answer>) {
        let bytes = sheet(lines);
        let e = explain(&bytes, bytes.len());
        let edits = e.helps.iter().filter_map(|help| help.edit.as_ref());
        let answers = edits.map(|edit| answer_of(&Sheet::new(&bytes).edited(edit))).collect();
        (e, answers)
    }

    /// The helps of an explanation, each with its edit.
    pub fn helps(e: &Explanation) -> String {
        let mut text = String::new();
        for help in &e.helps {
            text += &format!("help: {}\n", help.text);
            if let Some(edit) = &help.edit {
                let new = String::from_utf8_lossy(&edit.text).replace('\t', "<tab>").replace('\n', "<lf>");
                text += &format!("  edit {}:{}-{} {new}\n", edit.line, edit.from, edit.to);
            }
        }
        text
    }

    /// The reason that is explained, and the text of all parts.
    pub fn text(lines: &[&str]) -> String {
        let (e, _) = told(lines);
        let number = e.answer.reason.map_or(0, |reason| reason.number());
        let mut text = format!("{number}: {}\n", e.title);
        for span in e.primary.iter().chain(&e.related) {
            text += &format!("{}:{}-{} {}\n", span.line, span.from, span.to, span.label);
        }
        for note in &e.notes {
            text += &format!("note: {note}\n");
        }
        text + &helps(&e)
    }

    /// The first edit's text; the sheet passes with it.
    pub fn mended(lines: &[&str]) -> String {
        let (e, answers) = told(lines);
        assert_eq!(answers.first().map(|answer| answer.reason), Some(None), "{}", text(lines));
        let edit = e.helps.iter().find_map(|help| help.edit.as_ref());
        String::from_utf8(edit.unwrap().text.clone()).unwrap()
    }
}

#[cfg(test)]
mod tests {
    use super::super::{answer_of, explain};
    use super::short::{mended, sheet, text, told};
    use crate::sheet::Sheet;

    /// All of some parts are told.
    fn tells(lines: &[&str], parts: &[&str]) {
        let told = text(lines);
        for part in parts {
            assert!(told.contains(part), "{part} is not in\n{told}");
        }
    }

    const EXIT: &str = "0 exit;";

    #[test]
    fn another_warp() {
        let lines = ["1 alloc [t], 32;", "2 dealloc t, 32;", EXIT];
        assert_eq!(
            text(&lines),
            "8: this dealloc is by warp 2, but all booking of columns is by warp 1 since line 2\n\
            3:1-2 warp 2\n\
            2:1-2 the first alloc fixes warp 1\n\
            note: every alloc, dealloc and relinquish of a sheet is by the warp of the first alloc or relinquish\n\
            help: let warp 1 do the dealloc\n  edit 3:1-2 1\n"
        );
        assert_eq!(mended(&lines), "1");
        tells(&["1 alloc [t], 32;", "* dealloc t, 32;", EXIT], &["3:1-2 warp 0 (`*` is read as warp 0)\n"]);
        let parts = ["8: this alloc is by warp 3,", "2:1-2 the first relinquish fixes warp 0 (`*` is read as warp 0)\n"];
        tells(&["* relinquish;", "3 alloc [t], 32;", EXIT], &parts);
        tells(&["0 alloc [t], 32;", "1 relinquish;"], &["8: this relinquish is by warp 1,", "help: let warp 0 do the relinquish\n"]);
    }

    #[test]
    fn illegal_requests() {
        let request = |n: &str| text(&[&format!("0 alloc [t], {n};"), EXIT]);
        assert_eq!(
            request("96"),
            "9: `t` asks for 96 columns; an alloc takes 32, 64, 128, 256 or 512\n\
            2:52-54 96 columns\n\
            note: 96 is no power of two\n\
            help: ask for 128, the next that is legal\n  edit 2:52-54 128\n"
        );
        assert!(request("0x10").contains("2:52-56 16 columns: `0x10` is 16\nnote: 32 columns are the least that an alloc takes\n"));
        assert!(request("0").contains("2:52-53 0 columns\n") && request("0").contains("help: ask for 32, the next"));
        let most = request("1024");
        assert!(most.contains("note: Tensor Memory has 512 columns in all\nhelp: ask for 512, which is all there is\n"), "{most}");
        let octal = request("064U");
        assert!(octal.contains("52 columns: with a leading zero `064U` is octal\n"), "{octal}");
        assert!(octal.ends_with("help: write 64 without the leading zero\n  edit 2:52-56 64\n"), "{octal}");
        assert!(request("0060").ends_with("help: ask for 64, the next that is legal\n  edit 2:52-56 64\n"));
        // what the dealloc says
        assert_eq!(mended(&["0 alloc [t], 46;", "0 dealloc t, 256;", EXIT]), "256");
        assert_eq!(mended(&["0 alloc [t], 064;", "0 dealloc t, 64;", EXIT]), "64");
        for (spelled, says) in [
            ("96", "ask for 128, the next that is legal, and give 128 back at line 3 (it says 96)"),
            ("0x60", "ask for 128, the next that is legal, and give 128 back at line 3 (it says `0x60`, which is 96)"),
            ("064", "write 64 without the leading zero, and give 64 back at line 3 (it says `064`, which is octal for 52)"),
        ] {
            let lines = [format!("0 alloc [t], {spelled};"), format!("0 dealloc t, {spelled};")];
            tells(&[&lines[0], &lines[1], EXIT], &[&format!("help: {says}\n")]);
        }
        // not that of another alloc
        let lines = ["0 alloc [t], 96;", "0 alloc [t], 256;", "0 dealloc t, 256;", EXIT];
        tells(&lines, &["help: ask for 128, the next that is legal\n"]);
    }

    #[test]
    fn a_dealloc_of_half() {
        let lines = ["0 alloc [t], 0100;", "0 dealloc t, 32;", EXIT];
        assert_eq!(
            text(&lines),
            "9: `t` has 64 columns, but 32 are given back\n\
            3:52-54 32 columns\n\
            2:52-56 `t` takes 64 columns here\n\
            note: an allocation is given back whole: its dealloc has the number of columns that its alloc took\n\
            help: give all 64 columns back\n  edit 3:52-54 64\n"
        );
        assert_eq!(mended(&lines), "64");
        tells(&["0 alloc [t], 64;", "0 dealloc t, 064;"], &["9: `t` has 64 columns, but 52 are given back\n", "`064` is octal\n"]);
        let other = ["help: or name the allocation that has 32 columns: `u`\n"];
        tells(&["0 alloc [t], 64;", "0 alloc [u], 32;", "0 dealloc t, 32;"], &other);
    }

    #[test]
    fn an_alloc_after_relinquish() {
        let lines = ["0 alloc [t], 64;", "0 relinquish;", "0 alloc [u], 32;", "0 wait;", "0 alloc [v], 32;", EXIT];
        assert_eq!(
            text(&lines),
            "10: `u` asks for 32 columns after the permit to allocate was given up at line 3\n\
            4:3-46 an alloc after the relinquish of line 3\n\
            3:3-60 warp 0 gives the permit up here\n\
            note: after a relinquish no alloc is accepted, to the end of the sheet; a dealloc is\n\
            help: move the relinquish of line 3 down, after the last alloc (line 6)\n\
            help: or move this alloc, and those that follow, up, before line 3\n"
        );
        tells(&["0 relinquish;", "0 alloc [u], 32;"], &["(line 3)\n", "help: or move this alloc up, before line 2\n"]);
        assert_eq!(mended(&["0 relinquish;", "0 alloc [u], 32;", "0 relinquish;", "0 dealloc u, 32;", EXIT]), "");
        let twice = ["0 relinquish;", "0 wait;", "0 relinquish;", "0 alloc [u], 32;", "0 dealloc u, 32;", EXIT];
        tells(&twice, &["help: move the relinquishes of lines 2 and 4 down, after the last alloc (line 5)\n"]);
    }

    #[test]
    fn no_run_is_long_enough() {
        let quarters = ["0 alloc [a], 128;", "0 alloc [b], 128;", "0 alloc [c], 128;", "0 alloc [d], 128;"];
        let rest = ["0 dealloc a, 128;", "0 dealloc c, 128;", "0 alloc [e], 256;", "0 dealloc b, 128;", "0 ld {r}, [d];", EXIT];
        assert_eq!(
            text(&[&quarters[..], &rest].concat()),
            "11: no free run of 256 columns for `e`: 256 are free, at most 128 in one run\n\
            8:3-46 asks for 256 columns in one run\n\
            3:47-50 `b` takes columns 128 to 255 here\n\
            5:47-50 `d` takes columns 384 to 511 here\n\
            note: Tensor Memory here, one character for 8 columns:\n         \
            0               128             256             384             512\n         \
            |               |               |               |               |\n\
            columns  ................[b-------------]................[d-------------]\n\
            longest  ^^^^^^^^^^^^^^^^ 128 free\n\
            asked    ================================ 256\n\
            note: free: columns 0 to 127 (128), columns 256 to 383 (128); 256 in all\n\
            note: held: 256 in all\n  \
            `b`: columns 128 to 255 (128), taken at line 3\n  \
            `d`: columns 384 to 511 (128), taken at line 5\n\
            note: an alloc starts at the lowest multiple of 32 from which all of its columns are free; allocations are never moved\n\
            help: give `b` back first: move its dealloc, line 9, up before line 8; no line between them uses it\n\
            help: or ask for 128 columns, the most that there is room for\n"
        );
    }

    #[test]
    fn what_to_give_back_first() {
        let quarters = ["0 alloc [a], 128;", "0 alloc [b], 128;", "0 alloc [c], 128;", "0 alloc [d], 128;"];
        let ends = ["0 dealloc b, 128;", "0 dealloc d, 128;", "0 dealloc e, 256;", EXIT];
        let (b, d) = ("0 ld {r}, [b];", "0 ld {r}, [d];");
        for (uses, says) in [
            (
                &[d][..],
                "help: give `b` back first: move its dealloc, line 10, up before line 8; no line between them uses it\nhelp: or ask",
            ),
            (&[b], "help: give `d` back first: move its dealloc, line 11, up before line 8; no line between them uses it\nhelp: or ask"),
            (
                &[b, d, d],
                "help: give `b` back before line 8: line 9, which uses it, would have to come before line 8 too\n\
                help: or give `d` back before line 8: lines 10 and 11, which use it, would have to come before line 8 too\nhelp: or ask",
            ),
        ] {
            let fragments = ["0 dealloc a, 128;", "0 dealloc c, 128;", "0 alloc [e], 256;"];
            tells(&[&quarters[..], &fragments, uses, &ends].concat(), &[says]);
        }
        // two that no line uses rather than one that is used
        let halves = ["0 alloc [a], 128;", "0 alloc [b], 128;", "0 alloc [c], 256;", "0 alloc [e], 256;", "0 ld {r}, [c];"];
        tells(&halves, &["help: give `a` and `b` back before line 5: no later line uses them\n"]);
        let parts = ["help: give `a` and `b` back before line 4: lines 5 and 6, which use them, would have to come before line 4 too\n"];
        tells(&["0 alloc [a], 256;", "0 alloc [b], 256;", "0 alloc [e], 512;", "0 ld {r}, [a];", b], &parts);
    }

    #[test]
    fn drawings() {
        // a name that does not fit, and a run that is shown up to the end
        let lines = ["0 alloc [acc0], 32;", "0 alloc [acc1], 128;", "0 alloc [c], 256;", "0 alloc [d], 32;", "0 alloc [e], 128;"];
        tells(
            &lines,
            &[
                "\ncolumns  [A-][B-------------][C-----------------------------][D-]........\n",
                "\nlongest                                                          ^^^^^^^^ 64 free\n",
                "\nasked                                                    ================ 128\n",
                "\n  B `acc1`: columns 32 to 159 (128), taken at line 3\n",
                "note: free: columns 448 to 511 (64); 64 in all\n",
            ],
        );
        // nothing is free
        let all = ["0 alloc [acc0], 512;", "0 alloc [acc1], 128;", "0 dealloc acc1, 128;", EXIT];
        tells(&all, &["11: no free run of 128 columns for `acc1`: 512 held, 0 free\n", "note: no column is free\n", "\nasked    ==="]);
        assert_eq!(mended(&all), "0\ttcgen05.dealloc.cta_group::1.sync.aligned.b32 acc0, 512;\n");
        // several have to go, and four are pointed at
        let mut many: Vec<String> = (0..16).map(|i| format!("0 alloc [t{i}], 32;")).collect();
        many.push("0 alloc [u], 64;".into());
        let bytes = sheet(&many.iter().map(String::as_str).collect::<Vec<_>>());
        let e = explain(&bytes, bytes.len());
        assert_eq!((e.related.len(), e.related[0].label.as_str()), (4, "`t0` takes columns 0 to 31 here"));
        assert_eq!(e.helps[0].text, "give `t0` and `t1` back before line 18: no later line uses them");
        assert!(e.notes[2].contains("`t15`: columns 480 to 511 (32), taken at line 17"), "{}", e.notes[2]);
    }

    #[test]
    fn no_drawing() {
        // there is no room for the deallocs that the library would need to say where all is placed
        let mut lines = ["0 alloc [t], 32;", "0 dealloc t, 32;"].repeat(609);
        lines.extend(["0 alloc [a], 128;", "0 alloc [b], 128;", "0 alloc [c], 128;", "0 alloc [d], 128;", "0 alloc [u], 256;"]);
        let short = |text: Vec<u8>| String::from_utf8(text).unwrap().replace("b32 [", "b32[").replace(", ", ",");
        let bytes = short(sheet(&lines));
        assert!(bytes.len() <= staplehorn::MOST_BYTES);
        let e = explain(bytes.as_bytes(), bytes.len());
        assert_eq!((e.answer.line, e.title.as_str()), (1_224, "no free run of 256 columns for `u`: 512 held, 0 free"));
        assert_eq!(e.notes.len(), 2);
        assert!(
            e.notes[0].starts_with("0 of 512 columns are free; ") && e.notes[1].ends_with(" and `d` (128 columns, taken at line 1223)")
        );
    }

    #[test]
    fn exit_while_columns_are_held() {
        let one = ["2 alloc [t], 64;", "2 alloc [u], 32;", "2 dealloc t, 64;", EXIT];
        assert_eq!(
            text(&one),
            "15: exit while `u` holds 32 columns\n\
            5:1-2 32 columns are held here\n\
            3:47-50 `u` takes 32 columns here and never gives them back\n\
            note: at exit nothing may be held: columns that a block does not give back stay taken when it ends, \
            and the next block waits for them for ever\n\
            help: give `u` back before exit\n  \
            edit 5:1-1 2<tab>tcgen05.dealloc.cta_group::1.sync.aligned.b32 u, 32;<lf>\n"
        );
        assert_eq!(mended(&one).lines().count(), 1);
        let two = ["0 alloc [t], 64;", "0 alloc [u], 32;", EXIT];
        tells(&two, &["15: exit while 2 allocations hold 96 columns\n", "help: give `t` and `u` back before exit\n"]);
        assert_eq!(mended(&two).lines().count(), 2);
        let late = ["0 alloc [t], 64;", EXIT, "0 dealloc t, 64;"];
        let parts = [
            "`t` takes 64 columns here and gives them back only after exit\n",
            "note: exit must be the last line: line 4 would give columns back, but after it\n",
            "help: move this exit to the end of the sheet\n",
        ];
        tells(&late, &parts);
        assert_eq!(mended(&[&late[..], &[EXIT]].concat()), "");
        // one of two
        let parts = [
            "`u` takes 32 columns here and never gives them back\n",
            "help: move this exit to the end of the sheet\n",
            "help: give `u` back before exit: `tcgen05.dealloc.cta_group::1.sync.aligned.b32 u, 32;`\n",
        ];
        tells(&[late[0], "0 alloc [u], 32;", late[1], late[2]], &parts);
    }

    /// A dealloc that is offered comes after the waits that it needs: one for each warp and kind.
    #[test]
    fn what_is_outstanding_is_waited_for_first() {
        let (dealloc, wait) = ("0\ttcgen05.dealloc.cta_group::1.sync.aligned.b32", |warp: u32, kind: &str| {
            format!("{warp}\ttcgen05.wait::{kind}.sync.aligned;\n")
        });
        let exit = ["0 alloc [t], 64;", "0 alloc [u], 32;", "1 ld {r}, [u+2097152];", "0 dealloc t, 64;", EXIT];
        tells(&exit, &["help: give `u` back before exit, once warp 1 has waited for its load\n"]);
        assert_eq!(mended(&exit), wait(1, "ld") + &format!("{dealloc} u, 32;\n"));
        let both =
            ["0 alloc [t], 64;", "0 alloc [u], 32;", "2 st [t+4194304], {r};", "1 ld {r}, [u+2097152];", "1 ld {r}, [t+2097152];", EXIT];
        tells(&both, &["help: give `t` and `u` back before exit, once warps 1 and 2 have waited for their loads and stores\n"]);
        assert_eq!(mended(&both), wait(1, "ld") + &wait(2, "st") + &format!("{dealloc} t, 64;\n{dealloc} u, 32;\n"));
        // exit is missing
        let end = ["0 alloc [t], 64;", "* st [t], {r};", "0 st [t+1], {r};"];
        tells(&end, &["help: give the columns back, once warp 0 has waited for its stores, and end with exit\n"]);
        assert_eq!(mended(&end), wait(0, "st") + &format!("{dealloc} t, 64;\n0\texit;\n"));
        // another number of columns is given back
        let part = ["0 alloc [t], 64;", "1 ld {r}, [t+2097152];", "0 dealloc t, 32;"];
        tells(&part, &["help: give all 64 columns back, once warp 1 has waited for its load\n"]);
        // there is no room
        let full = ["0 alloc [t], 512;", "3 ld {r}, [t+6291456];", "0 alloc [u], 32;", "0 dealloc u, 32;", EXIT];
        tells(&full, &["help: give `t` back first, once warp 3 has waited for its load: no later line uses it\n"]);
        assert_eq!(mended(&full), wait(3, "ld") + &format!("{dealloc} t, 512;\n"));
        let late = [&full[..4], &["3 wait;", "0 dealloc t, 512;", EXIT]].concat();
        tells(
            &late,
            &["help: give `t` back first, once warp 3 has waited for its load: move its dealloc, line 7, up before line 4; no line"],
        );
        let halves = ["0 alloc [a], 256;", "0 alloc [b], 256;", "0 ld {r}, [a];", "0 alloc [e], 512;"];
        tells(&halves, &["help: give `a` and `b` back before line 5, once warp 0 has waited for its load: no later line uses them\n"]);
        // no room for the lines: each statement once
        let mut lines = vec!["0 alloc [t], 64;", "0 ld {r}, [t];", "1 ld {r}, [t+2097152];"];
        lines.resize(4_094, "0 mov.b32 x,1;");
        lines.push(EXIT);
        let e = told(&lines).0;
        assert_eq!(
            (e.helps[0].text.as_str(), &e.helps[0].edit),
            (
                "give `t` back before exit, once warps 0 and 1 have waited for their loads: `tcgen05.wait::ld.sync.aligned;` and \
                `tcgen05.dealloc.cta_group::1.sync.aligned.b32 t, 64;`",
                &None
            )
        );
    }

    #[test]
    fn no_room_for_the_deallocs() {
        let mut lines = vec!["0 alloc [t], 64;"];
        lines.resize(4_094, "0 mov.b32 x,1;");
        lines.push(EXIT);
        let bytes = sheet(&lines);
        let e = explain(&bytes, bytes.len());
        assert_eq!((e.answer.line, e.title.as_str()), (4_096, "exit while `t` holds 64 columns"));
        assert_eq!(e.helps.len(), 1);
        assert_eq!(e.helps[0].text, "give `t` back before exit: `tcgen05.dealloc.cta_group::1.sync.aligned.b32 t, 64;`");
        assert_eq!(e.helps[0].edit, None);
    }

    #[test]
    fn lines_after_exit() {
        let one = [EXIT, "0 wait;"];
        assert_eq!(
            text(&one),
            "15: line 3 stands after exit, which must be the last line\n\
            3:1-2 after the exit of line 2\n\
            2:3-7 exit ends the sheet here; 1 line follows\n\
            note: nothing may follow exit, not even another exit, a wait or a mov\n\
            help: remove this line\n  edit 3:1-34 \n\
            help: or, if it is needed, move the exit of line 2 after it\n"
        );
        assert_eq!(mended(&one), "");
        assert_eq!((mended(&[EXIT, EXIT]), told(&[EXIT, EXIT]).0.helps[0].text.as_str()), (String::new(), "remove this second exit"));
        let ended = [EXIT, "0 wait;", "0 wait;", EXIT];
        assert_eq!(mended(&ended), "");
        tells(&ended, &["3 lines follow\n", "help: remove the exit of line 2: the sheet ends with another\n"]);
        let parts = ["help: move the exit of line 2 to the end of the sheet, or remove the 2 lines after it\n"];
        tells(&[EXIT, "0 wait;", "0 wait;"], &parts);
    }

    #[test]
    fn no_exit() {
        tells(&[], &["15: the sheet ends without exit: it has its header alone\n", "1:1-2 the last line: no exit follows\n"]);
        assert_eq!(mended(&[]), "0\texit;\n");
        tells(&["1 wait;"], &["15: the sheet ends without exit\n", "help: end with exit\n  edit 3:1-1 0<tab>exit;<lf>\n"]);
        let held = ["1 alloc [t], 64;", "1 alloc [u], 32;"];
        tells(
            &held,
            &["15: the sheet ends without exit, and 2 allocations hold 96 columns\n", "help: give the columns back, and end with exit\n"],
        );
        let added = mended(&held);
        assert_eq!((added.lines().count(), added.lines().last()), (3, Some("0\texit;")));
        let bytes = sheet(&["1 alloc [t], 64;"]);
        let e = explain(&bytes, bytes.len());
        let edited = Sheet::new(&bytes).edited(e.helps[0].edit.as_ref().unwrap());
        assert_eq!(answer_of(&edited).reason, None);
    }
}
