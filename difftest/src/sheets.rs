//! Whole sheets: each is judged by both sides, with a list of some length lent to it. The answers, columns among them, and
//! every place of the list are compared, on refusals too, and the whole report on a sample. A sheet whose fault was aimed is
//! compared with what its maker knows as well. A passed sheet is also run, under its own starts and under others.

use crate::faults::{damage, Fault, FIRST};
use crate::maker::Maker;
use crate::spelling::{Spelling, BASES, PREFIXES};
use staplehorn_difftest::counts::Counts;
use staplehorn_difftest::proved::{self, Answer};
use staplehorn_difftest::random::Random;
use staplehorn_reference::descriptor::Kind;
use staplehorn_reference::judge::judge;
use staplehorn_reference::report::report;
use staplehorn_reference::run::{choose_starts, run as run_steps, End, Outcome, Outstanding};
use staplehorn_reference::sheet::{steps, Lines, Step};
use staplehorn_reference::statement::{canonical, judge_alone, Statement};
use std::collections::BTreeMap;

/// What stands in a list or room before a call, to see what was touched.
const BEFORE: u16 = 0xA5A5;
const BEFORE_BYTE: u8 = 0xA5;
/// The longest list lent, and places behind a list that must stay as they are.
const LONGEST: usize = 4_200;
const GUARD: usize = 8;
/// The least room that takes any report.
const ROOM: usize = 102_391;

/// What is compared with the reference.
pub trait Side {
    /// The value returned, and the six numbers of the answer.
    fn judge(&self, sheet: &[u8], starts: &mut [u16]) -> (u32, Answer);
    /// The value returned, and the length.
    fn report(&self, sheet: &[u8], room: &mut [u8]) -> (u32, usize);
    /// The reason and the column of a statement by itself.
    fn statement(&self, text: &[u8]) -> (u32, usize);
    /// The reason, and the length of its canonical text in the room.
    fn canonical(&self, text: &[u8], room: &mut [u8]) -> (u32, usize);
}

/// The library behind its C interface.
pub struct Proved;

impl Side for Proved {
    fn judge(&self, sheet: &[u8], starts: &mut [u16]) -> (u32, Answer) {
        proved::judge(sheet, starts)
    }

    fn report(&self, sheet: &[u8], room: &mut [u8]) -> (u32, usize) {
        proved::report(sheet, room)
    }

    fn statement(&self, text: &[u8]) -> (u32, usize) {
        proved::statement_reason(text)
    }

    fn canonical(&self, text: &[u8], room: &mut [u8]) -> (u32, usize) {
        proved::statement_canonical(text, room)
    }
}

/// The reference in the same dress.
pub struct Reference;

impl Side for Reference {
    fn judge(&self, sheet: &[u8], starts: &mut [u16]) -> (u32, Answer) {
        let a = judge(sheet, starts);
        let count = if a.reason == 0 { count_allocs(&steps(sheet).expect("a passed sheet reads")) } else { 0 };
        (a.reason, [a.reason, a.line as u32, a.column as u32, a.held, a.peak, count as u32])
    }

    fn report(&self, sheet: &[u8], room: &mut [u8]) -> (u32, usize) {
        if room.len() < ROOM {
            return (19, 0);
        }
        let text = report(sheet);
        room[..text.len()].copy_from_slice(&text);
        let digits = text.iter().take_while(|b| b.is_ascii_digit());
        (digits.fold(0, |n, b| 10 * n + u32::from(b - b'0')), text.len())
    }

    fn statement(&self, text: &[u8]) -> (u32, usize) {
        let verdict = judge_alone(text);
        (verdict.reason, verdict.column)
    }

    fn canonical(&self, text: &[u8], room: &mut [u8]) -> (u32, usize) {
        match canonical(text, room) {
            Ok(length) => (0, length),
            Err(reason) => (reason, 0),
        }
    }
}

/// How long a list is lent, beside the number of allocs.
#[derive(Clone, Copy)]
enum Lent {
    Empty,
    OneLess,
    Exact,
    OneMore,
    Many,
}

impl Lent {
    const ALL: [Lent; 5] = [Lent::Empty, Lent::OneLess, Lent::Exact, Lent::OneMore, Lent::Many];

    fn places(self, allocs: usize) -> usize {
        match self {
            Lent::Empty => 0,
            Lent::OneLess => allocs.saturating_sub(1),
            Lent::Exact => allocs,
            Lent::OneMore => allocs + 1,
            Lent::Many => allocs + 40,
        }
    }
}

/// Compares one side with the reference, sheet by sheet.
struct Comparison<'a, S: Side> {
    side: &'a S,
    counts: Counts,
    r: Random,
    ours: Vec<u16>,
    theirs: Vec<u16>,
    room: Vec<u8>,
    seen: u64,
}

impl<'a, S: Side> Comparison<'a, S> {
    fn new(side: &'a S, seed: u64) -> Self {
        Comparison {
            side,
            counts: Counts::new(),
            r: Random::new(seed),
            ours: vec![BEFORE; LONGEST + GUARD],
            theirs: vec![BEFORE; LONGEST + GUARD],
            room: vec![BEFORE_BYTE; ROOM + GUARD],
            seen: 0,
        }
    }

    /// Asks both sides and answers what the reference says.
    fn sheet(&mut self, sheet: &[u8], places: usize) -> Answer {
        let all = places + GUARD;
        self.ours[..all].fill(BEFORE);
        self.theirs[..all].fill(BEFORE);
        let (reason, ours) = self.side.judge(sheet, &mut self.ours[..places]);
        let (_, theirs) = Reference.judge(sheet, &mut self.theirs[..places]);
        self.counts.seen("all sheets", 0);
        let same = self.ours[..all] == self.theirs[..all];
        self.counts.compare("sheets", theirs[0], (reason, ours, same), (theirs[0], theirs, true), || shown(sheet, places));
        if theirs[0] != 0 {
            let untouched = self.ours[..all].iter().all(|&place| place == BEFORE);
            self.counts.compare("refusals, list", theirs[0], untouched, true, || shown(sheet, places));
        }
        if (3..=5).contains(&theirs[0]) {
            self.alone(sheet, theirs);
        }
        if theirs[0] == 18 {
            self.refused_dealloc(sheet, theirs[1]);
        }
        if theirs[0] == 20 {
            self.refused_shape(sheet, theirs[1]);
        }
        self.seen += 1;
        if self.seen % 16 == 0 {
            self.report(sheet, theirs);
        }
        if theirs[0] == 0 && sheet.len() < 20_000 || self.seen % 8 == 0 {
            self.runs(sheet, theirs, places);
        }
        theirs
    }

    /// The statement of a line that does not read, by itself: its column is 2 less.
    fn alone(&mut self, sheet: &[u8], answer: Answer) {
        let [reason, line, column, ..] = answer;
        let text = Lines::new(sheet).nth(line as usize - 1).expect("the line is there").bytes;
        let ours = self.side.statement(&text[FIRST - 1..]);
        let wanted = (reason, (column as usize).wrapping_sub(FIRST - 1));
        self.counts.compare("statements alone", reason, ours, wanted, || shown(sheet, 0));
    }

    /// Counts a sheet that is refused with 20 in this line for N 256, with `.ws` and `.sp`, by its kind.
    fn refused_shape(&mut self, sheet: &[u8], line: u32) {
        let steps = steps_to(sheet, line);
        if let Some(Shape { kind, ws: true, sp: true, n: 256 }) = shapes(&steps).last() {
            self.counts.seen("20, .ws.sp, N 256", kind.number());
        }
    }

    /// A sheet that is refused with 18 in this line: the run does not stop there and notes something outstanding, for the first
    /// time. Counts it by the sorts and warps.
    fn refused_dealloc(&mut self, sheet: &[u8], line: u32) {
        let steps = steps_to(sheet, line);
        let starts = choose_starts(&steps, |usable| usable[0]);
        let outcome = run_steps(&steps, &starts);
        let noted = outcome.seen.iter().filter(|seen| !seen.outstanding.is_empty());
        let lines: Vec<usize> = noted.map(|seen| seen.line).collect();
        self.counts.compare("run, outstanding", 18, (outcome.end, lines), (End::Ended, vec![line as usize]), || shown(sheet, 0));
        for what in outcome.seen.last().map_or(&[][..], |seen| &seen.outstanding) {
            match *what {
                Outstanding::Load(warp) => self.counts.seen("18, ld by warp", warp.into()),
                Outstanding::Store(warp) => self.counts.seen("18, st by warp", warp.into()),
            }
        }
    }

    /// Counts a passed sheet whose run is compared by the warps that load and store in it.
    fn passed_accesses(&mut self, steps: &[Step]) {
        for warp in 0..4 {
            let mut of_warp = steps.iter().filter(|step| step.warp == warp).map(|step| &step.statement);
            if of_warp.clone().any(|statement| matches!(statement, Statement::Ld { .. })) {
                self.counts.seen("passed, ld by warp", warp.into());
            }
            if of_warp.any(|statement| matches!(statement, Statement::St { .. })) {
                self.counts.seen("passed, st by warp", warp.into());
            }
        }
    }

    /// Counts a passed sheet whose run is compared by the kinds that its mma have with `.ws` and such an N.
    fn passed_shapes(&mut self, steps: &[Step]) {
        let shapes = shapes(steps);
        for (what, sp, n) in [("passed, .ws.sp, N 64", true, 64), ("passed, .ws.sp, N 128", true, 128), ("passed, .ws, N 256", false, 256)]
        {
            for kind in Kind::ALL.into_iter().filter(|&kind| shapes.contains(&Shape { kind, ws: true, sp, n })) {
                self.counts.seen(what, kind.number());
            }
        }
    }

    /// Several lists for one sheet.
    fn lists(&mut self, sheet: &[u8], allocs: usize) -> Answer {
        let lent = self.r.pick(&Lent::ALL);
        self.sheet(sheet, lent.places(allocs))
    }

    /// A sheet that was made to get this reason, line, column, held and peak. Says whether it did, and the reason.
    fn made(&mut self, sheet: &[u8], allocs: usize, wanted: [u32; 5]) -> (bool, u32) {
        let lent = self.r.pick(&Lent::ALL);
        let places = lent.places(allocs);
        let answer = self.sheet(sheet, places);
        let [reason, line, column, held, peak] = wanted;
        let (reason, column) = if reason == 0 && places < allocs { (16, 1) } else { (reason, column) };
        let all = [reason, line, column, held, peak, if reason == 0 { allocs as u32 } else { 0 }];
        self.counts.compare("as made", reason, answer, all, || shown(sheet, places));
        (answer == all, reason)
    }

    /// The same, counted by what is at the column.
    fn placed(&mut self, m: &Maker, wanted: [u32; 5], fault: &Fault) {
        if let (true, reason) = self.spelled(m, wanted) {
            self.counts.place(reason, fault.what);
            if let Some(also) = fault.also {
                self.counts.place(reason, also);
            }
        }
    }

    /// The same, and counts the numbers of the sheet by their spelling, and its expressions.
    fn spelled(&mut self, m: &Maker, wanted: [u32; 5]) -> (bool, u32) {
        let (good, reason) = self.made(&m.bytes, m.allocs, wanted);
        if m.expressions > 0 {
            self.counts.seen("with expressions", reason);
            self.counts.seen("all with expressions", 0);
            self.counts.seen_often("expressions", 0, m.expressions);
        }
        for (base, [without, with]) in BASES.into_iter().zip(m.spelled) {
            self.counts.seen_often("numbers in base", base, without);
            self.counts.seen_often("numbers with U in base", base, with);
        }
        (good, reason)
    }

    fn report(&mut self, sheet: &[u8], answer: Answer) {
        let text = report(sheet);
        let [_, line, column, held, peak, _] = answer;
        if answer[0] != 16 {
            let first = format!("{}\t{line}\t{column}\t{held}\t{peak}\n", answer[0]);
            self.counts.compare("reports, first line", answer[0], text.starts_with(first.as_bytes()), true, || shown(sheet, 0));
        }
        let (reason, length) = self.side.report(sheet, &mut self.room[..ROOM]);
        let theirs = if answer[0] == 16 { 0 } else { answer[0] };
        let front = &self.room[..length.min(ROOM)];
        let clean = self.room[length.min(ROOM)..].iter().all(|&b| b == BEFORE_BYTE);
        self.counts.compare("reports", theirs, (reason, front, clean), (theirs, &text, true), || shown(sheet, 0));
        self.room.fill(BEFORE_BYTE);
        if self.seen % 64 == 0 {
            let short = self.side.report(sheet, &mut self.room[..ROOM - 1]);
            let clean = self.room.iter().all(|&b| b == BEFORE_BYTE);
            self.counts.compare("reports, short room", 19, (short, clean), ((19, 0), true), || shown(sheet, 0));
            self.room.fill(BEFORE_BYTE);
        }
    }

    /// What is claimed of a passed sheet: the run under its own starts, and under others.
    fn runs(&mut self, sheet: &[u8], answer: Answer, places: usize) {
        if answer[0] != 0 {
            return;
        }
        let steps = steps(sheet).expect("a passed sheet reads");
        self.passed_shapes(&steps);
        self.passed_accesses(&steps);
        let allocs = count_allocs(&steps);
        let own: Vec<u32> = self.ours[..allocs.min(places)].iter().map(|&start| start.into()).collect();
        let outcome = run_steps(&steps, &own);
        let wanted = (End::Exited(answer[1] as usize), answer[4], true);
        self.counts.compare("run, own starts", 0, (outcome.end, outcome.peak, is_sound(&outcome)), wanted, || shown(sheet, places));
        // the placing is the lowest start that may be used
        let lowest = choose_starts(&steps, |usable| usable[0]);
        self.counts.compare("run, lowest starts", 0, &lowest, &own, || shown(sheet, places));
        if self.seen % 2 == 0 {
            return;
        }
        let mut r = Random::new(self.seen);
        let highest = choose_starts(&steps, |usable| usable[usable.len() - 1]);
        self.free_starts("run, highest starts", sheet, &steps, &highest, allocs);
        let free = choose_starts(&steps, |usable| r.pick(usable));
        self.free_starts("run, free starts", sheet, &steps, &free, allocs);
        // own starts but for a few, and starts at random
        let mut near = own;
        if !near.is_empty() {
            let at = r.below(near.len() as u64) as usize;
            near[at] = r.pick(&[0, 32, 64, 96, 480, 16, 511, 512, 1 << 20]);
        }
        self.any_starts("run, other starts", sheet, &steps, &near);
        let random: Vec<u32> = (0..allocs).map(|_| if r.below(9) == 0 { r.below(600) as u32 } else { 32 * r.below(16) as u32 }).collect();
        self.any_starts("run, random starts", sheet, &steps, &random);
    }

    /// Starts that were each free when chosen: the run stops only where there was none.
    fn free_starts(&mut self, what: &'static str, sheet: &[u8], steps: &[Step], starts: &[u32], allocs: usize) {
        let outcome = run_steps(steps, starts);
        let (wanted, outcome_kind) =
            if starts.len() == allocs { (End::Exited(steps.len() + 1), 0) } else { (End::Stopped(line_of_alloc(steps, starts.len())), 1) };
        self.counts.compare(what, outcome_kind, (outcome.end, is_sound(&outcome)), (wanted, true), || shown(sheet, starts.len()));
        if outcome_kind == 1 {
            let line = line_of_alloc(steps, starts.len());
            let none = (0..16).all(|unit| first_unusable(&steps[..line - 1], &[starts, &[32 * unit]].concat()) == Some(line));
            self.counts.compare("run, no free run", 0, none, true, || shown(sheet, starts.len()));
        }
    }

    /// Any starts: the run stops at the first that may not be used, and else exits.
    fn any_starts(&mut self, what: &'static str, sheet: &[u8], steps: &[Step], starts: &[u32]) {
        let outcome = run_steps(steps, starts);
        let (wanted, outcome_kind) = match first_unusable(steps, starts) {
            Some(line) => (End::Stopped(line), 1),
            None => (End::Exited(steps.len() + 1), 0),
        };
        self.counts
            .compare(what, outcome_kind, (outcome.end, is_sound(&outcome)), (wanted, true), || format!("{starts:?} {}", shown(sheet, 0)));
    }
}

/// After every line done: no overlap, nothing outside, nothing outstanding on what was given back, and columns that add up.
/// Nothing is held at the exit.
fn is_sound(outcome: &Outcome) -> bool {
    let empty = match outcome.end {
        End::Exited(_) => outcome.seen.last().is_some_and(|seen| seen.held == 0 && seen.asked == seen.given_back),
        _ => true,
    };
    let all = match outcome.end {
        End::Exited(line) => outcome.seen.len() == line - 1,
        End::Stopped(line) => outcome.seen.len() == line - 2,
        End::Ended => true,
    };
    empty && all && outcome.seen.iter().all(|seen| seen.is_good())
}

fn count_allocs(steps: &[Step]) -> usize {
    steps.iter().filter(|step| matches!(step.statement, Statement::Alloc { .. })).count()
}

/// What an mma asks for: its opcode, and the N of the word that its idesc is bound to.
#[derive(Clone, Copy, PartialEq)]
struct Shape {
    kind: Kind,
    ws: bool,
    sp: bool,
    n: u32,
}

/// The shape of each mma whose idesc is bound, in order.
fn shapes(steps: &[Step]) -> Vec<Shape> {
    let (mut words, mut shapes) = (BTreeMap::new(), Vec::new());
    for step in steps {
        match &step.statement {
            Statement::Mov { name, value, .. } => {
                words.insert(name.as_bytes(), *value);
            }
            Statement::Mma { kind, ws, sp, idesc, .. } => {
                let n = words.get(idesc.as_bytes()).map(|word| (word >> 17 & 63) as u32 * 8);
                shapes.extend(n.map(|n| Shape { kind: *kind, ws: *ws, sp: *sp, n }));
            }
            _ => {}
        }
    }
    shapes
}

/// The statements up to a line that reads, as those before it do.
fn steps_to(sheet: &[u8], line: u32) -> Vec<Step> {
    let bytes = Lines::new(sheet).take(line as usize).map(|line| line.bytes.len() + 1).sum();
    steps(&sheet[..bytes]).expect("lines before a fault read")
}

/// The line of an alloc, counted from 0.
fn line_of_alloc(steps: &[Step], number: usize) -> usize {
    let mut places = (0..steps.len()).filter(|&place| matches!(steps[place].statement, Statement::Alloc { .. }));
    places.nth(number).map_or(0, |place| place + 2)
}

/// The line of the first alloc whose start may not be used. Only allocs and deallocs are looked at.
fn first_unusable(steps: &[Step], starts: &[u32]) -> Option<usize> {
    let mut holder = [None; 512];
    let mut starts = starts.iter();
    for (place, step) in steps.iter().enumerate() {
        match &step.statement {
            Statement::Alloc { name, columns } => {
                let Some(&start) = starts.next() else {
                    return Some(place + 2);
                };
                let (first, end) = (start as usize, start as usize + *columns as usize);
                if first % 32 != 0 || end > 512 || holder[first..end].iter().any(Option::is_some) {
                    return Some(place + 2);
                }
                holder[first..end].fill(Some(*name));
            }
            Statement::Dealloc { name, .. } => {
                for column in holder.iter_mut().filter(|column| **column == Some(*name)) {
                    *column = None;
                }
            }
            _ => {}
        }
    }
    None
}

fn shown(sheet: &[u8], places: usize) -> String {
    let text = String::from_utf8_lossy(sheet);
    let tail = if text.len() > 900 { text.char_indices().rev().nth(600).map_or(0, |(at, _)| at) } else { 0 };
    format!("{} bytes, list of {places}: {:?}", sheet.len(), &text[tail..])
}

// kinds of sheets

/// One sheet in three has expressions.
fn maker(r: &mut Random) -> Maker<'_> {
    let takes_expressions = r.below(3) == 0;
    Maker { takes_expressions, ..Maker::new(r) }
}

/// Lines that pass. Most sheets are short.
fn valid_lines(m: &mut Maker) {
    let count = match m.r.below(40) {
        0 => 60 + m.r.below(100),
        1..=9 => 10 + m.r.below(30),
        _ => m.r.below(12),
    };
    for _ in 0..count {
        m.valid();
    }
}

fn valid<S: Side>(c: &mut Comparison<S>, r: &mut Random) {
    let mut m = maker(r);
    m.may_relinquish = true;
    valid_lines(&mut m);
    m.exit();
    passes(c, &m);
}

/// A sheet that passes, or has too short a list.
fn passes<S: Side>(c: &mut Comparison<S>, m: &Maker) {
    if let (true, 16) = c.spelled(m, [0, m.lines, 0, 0, m.peak]) {
        c.counts.place(16, "short list");
    }
}

/// Loads, stores and waits on a few holdings: the first that is given back too early is refused, and else the sheet passes.
fn careless<S: Side>(c: &mut Comparison<S>, r: &mut Random) {
    let mut m = maker(r);
    for _ in 0..m.r.below(40) {
        if let Some(fault) = m.careless() {
            let wanted = [18, m.lines, fault.column, m.held(), m.peak];
            tail(&mut m);
            return c.placed(&m, wanted, &fault);
        }
    }
    m.exit();
    passes(c, &m);
}

/// One line is aimed at a reason; what follows does not matter.
fn one_fault<S: Side>(c: &mut Comparison<S>, r: &mut Random, reason: u32) {
    let mut m = maker(r);
    valid_lines(&mut m);
    let Some(fault) = m.fault(reason) else {
        return;
    };
    let wanted = [reason, m.lines, fault.column, m.held(), m.peak];
    tail(&mut m);
    c.placed(&m, wanted, &fault);
}

/// Any reason that a line can be aimed at.
fn any_reason(r: &mut Random) -> u32 {
    r.pick(&[2, 3, 4, 5, 6, 7, 8, 9, 10, 11, 12, 13, 14, 15, 18, 20, 21])
}

/// Some lines behind a fault, or none, or bytes without an end.
fn tail(m: &mut Maker) {
    match m.r.below(5) {
        0 => m.exit(),
        1 => {
            for _ in 0..m.r.below(5) {
                m.wild();
            }
        }
        2 => {
            let reason = any_reason(m.r);
            m.fault(reason);
        }
        3 => m.bytes.extend_from_slice(b"0\texit;"),
        _ => {}
    }
}

/// Faults in two lines: the earlier counts.
fn two_faults<S: Side>(c: &mut Comparison<S>, r: &mut Random) {
    let mut m = maker(r);
    valid_lines(&mut m);
    let (first, second) = (any_reason(m.r), any_reason(m.r));
    let Some(fault) = m.fault(first) else {
        return;
    };
    let wanted = [first, m.lines, fault.column, m.held(), m.peak];
    m.fault(second);
    tail(&mut m);
    c.placed(&m, wanted, &fault);
}

/// A line with any number of faults, then the end.
fn wild<S: Side>(c: &mut Comparison<S>, r: &mut Random) {
    let mut m = maker(r);
    m.may_relinquish = m.r.below(2) == 0;
    valid_lines(&mut m);
    for _ in 0..1 + m.r.below(2) {
        m.wild();
    }
    m.exit();
    c.lists(&m.bytes, m.allocs);
}

/// Valid lines without an exit, or lines behind it.
fn around_exit<S: Side>(c: &mut Comparison<S>, r: &mut Random) {
    let mut m = maker(r);
    valid_lines(&mut m);
    match m.r.below(4) {
        0 => {
            let wanted = [15, m.lines, 1, m.held(), m.peak];
            if c.made(&m.bytes, m.allocs, wanted).0 {
                c.counts.place(15, "no exit");
            }
        }
        1 => {
            m.exit();
            let (lines, peak) = (m.lines, m.peak);
            let reason = 2 + m.r.below(4) as u32;
            let fault = m.fault(reason).expect("such lines need nothing");
            c.placed(&m, [reason, lines + 1, fault.column, 0, peak], &fault);
        }
        2 => {
            m.exit();
            let wanted = [2, m.lines + 1, 1, 0, m.peak];
            let open = m.r.pick(&["0", " ", "0\texit;", "sheet\t1\tsm_100a", "\0"]);
            m.bytes.extend_from_slice(open.as_bytes());
            if c.made(&m.bytes, m.allocs, wanted).0 {
                c.counts.place(2, "bytes after the last LF");
            }
        }
        _ => {
            m.exit();
            m.wild();
            c.lists(&m.bytes, m.allocs);
        }
    }
}

/// A valid sheet with a few bytes changed anywhere.
fn damaged<S: Side>(c: &mut Comparison<S>, r: &mut Random) {
    let mut m = maker(r);
    m.may_relinquish = true;
    valid_lines(&mut m);
    m.exit();
    let (mut bytes, allocs) = (m.bytes, m.allocs);
    for _ in 0..1 + r.below(3) {
        damage(r, &mut bytes);
    }
    c.lists(&bytes, allocs);
}

/// A valid sheet with a byte changed, several times over, in one line or anywhere.
fn changed_byte<S: Side>(c: &mut Comparison<S>, r: &mut Random) {
    let mut m = maker(r);
    for _ in 0..m.r.below(8) {
        m.valid();
    }
    let before = m.bytes.len();
    m.valid();
    let after = m.bytes.len();
    m.exit();
    let (bytes, allocs) = (m.bytes, m.allocs);
    for turn in 0..8 {
        let mut other = bytes.clone();
        let (from, to) = if turn < 6 { (before, after) } else { (0, bytes.len()) };
        let at = from + r.below((to - from) as u64) as usize;
        other[at] = if r.below(3) == 0 { r.next() as u8 } else { r.pick(b" ;,[]{}+-*()0xbU189aZ_$%.:~") };
        c.lists(&other, allocs);
    }
}

/// A sheet with a line of each form that passes; every byte of it is exchanged for some others.
fn every_byte<S: Side>(c: &mut Comparison<S>) {
    let sheet = concat!(
        "sheet\t1\tsm_100a\n",
        "0\ttcgen05.alloc.cta_group::1.sync.aligned.b32 [t0], 64U;\n",
        "*\ttcgen05.alloc.cta_group::1.sync.aligned.shared::cta.b32 [ %t ], 0x20;\n",
        "1\tmov.b64 a, 0x0000400800100000U;\n",
        "2\tmov.b64 b, 70403104571392;\n",
        "3\tmov.b32 i, 0b1000000100000000000000010000;\n",
        "3\tmov.b32 j, 01002000024U;\n",
        "1\ttcgen05.ld.sync.aligned.32x32b.x2.b32 {r0, t0}, [t0+(32*65536)+62];\n",
        "2\ttcgen05.st.sync.aligned.16x64b.x1.b32 [%t + 0X500000], {r};\n",
        "2\ttcgen05.wait::st.sync.aligned;\n",
        "1\ttcgen05.wait::ld.sync.aligned;\n",
        "0\ttcgen05.mma.cta_group::1.kind::f16 [t0], a, b, i, p;\n",
        "0\ttcgen05.mma.sp.cta_group::1.kind::f16 [%t], [t0+070], b, [%t + 0B11110U], j, t0;\n",
        "0\ttcgen05.fence::after_thread_sync;\n",
        "0\ttcgen05.relinquish_alloc_permit.cta_group::1.sync.aligned;\n",
        "0\ttcgen05.dealloc.cta_group::1.sync.aligned.b32 t0, -(2-0102);\n",
        "0\ttcgen05.dealloc.cta_group::1.sync.aligned.b32 %t, 32;\n",
        "1\texit;\n",
    );
    c.made(sheet.as_bytes(), 2, [0, 18, 0, 0, 96]);
    for at in 0..sheet.len() {
        let mut bytes = sheet.as_bytes().to_vec();
        for &byte in b" ;,[]{}+*()01234589xXabBUutijZ_$%.:-~\t\n\0\x7f\x80" {
            bytes[at] = byte;
            c.lists(&bytes, 2);
        }
        bytes.remove(at);
        c.lists(&bytes, 2);
    }
}

/// A valid sheet with a line left out, doubled or moved.
fn shuffled<S: Side>(c: &mut Comparison<S>, r: &mut Random) {
    let mut m = maker(r);
    m.may_relinquish = true;
    valid_lines(&mut m);
    m.exit();
    let allocs = m.allocs;
    let mut lines: Vec<&[u8]> = m.bytes.split_inclusive(|&b| b == b'\n').collect();
    let (at, to) = (m.r.below(lines.len() as u64) as usize, m.r.below(lines.len() as u64) as usize);
    let line = lines[at];
    match m.r.below(3) {
        0 => {
            lines.remove(at);
        }
        1 => lines.insert(to, line),
        _ => lines.swap(at, to),
    }
    c.lists(&lines.concat(), allocs);
}

/// A valid sheet with a wait left out, moved, of another warp or of the other sort.
fn misplaced_wait<S: Side>(c: &mut Comparison<S>, r: &mut Random) {
    let mut m = maker(r);
    for _ in 0..10 + m.r.below(30) {
        m.valid();
    }
    m.exit();
    let text = String::from_utf8(m.bytes).expect("valid lines are text");
    let mut lines: Vec<String> = text.split_inclusive('\n').map(String::from).collect();
    let waits: Vec<usize> = (0..lines.len()).filter(|&at| lines[at].contains(".wait::")).collect();
    if waits.is_empty() {
        return;
    }
    let at = m.r.pick(&waits);
    let wait = lines.remove(at);
    match m.r.below(4) {
        0 => {}
        1 => {
            let to = 1 + m.r.below(lines.len() as u64) as usize;
            lines.insert(to, wait);
        }
        2 => lines.insert(at, format!("{}{}", m.r.below(4), &wait[1..])),
        _ if wait.contains("::ld") => lines.insert(at, wait.replace("::ld", "::st")),
        _ => lines.insert(at, wait.replace("::st", "::ld")),
    }
    c.lists(lines.concat().as_bytes(), m.allocs);
}

/// Bytes that are no sheet, and first lines that are nearly right.
fn noise<S: Side>(c: &mut Comparison<S>, r: &mut Random) {
    let mut bytes = if r.below(2) == 0 { b"sheet\t1\tsm_100a\n".to_vec() } else { Vec::new() };
    if r.below(3) == 0 {
        damage(r, &mut bytes);
    }
    for _ in 0..r.below(30) {
        let byte = if r.below(2) == 0 { r.next() as u8 } else { r.pick(b"0123*\t\t\t\nexit;mov. []") };
        bytes.push(byte);
    }
    c.lists(&bytes, 3);
}

/// Too many bytes or lines: small lines, so that it is soon done.
fn too_long<S: Side>(c: &mut Comparison<S>, r: &mut Random) {
    let extra = r.below(3) as usize;
    let mut m = maker(r);
    for _ in 0..m.r.below(20) {
        m.valid();
    }
    let line = m.r.pick(&["", "0", "0\texit;", "0\tmov.b32 x,1;"]).as_bytes();
    while m.lines < 4_096 + 1 + extra as u32 {
        m.raw(line);
    }
    if m.r.below(3) == 0 {
        // one line less, and a byte for it
        m.bytes.truncate(m.bytes.len() - line.len() - 1);
        m.bytes.push(b'0');
    }
    if c.made(&m.bytes, m.allocs, [1, 0, 0, 0, 0]).0 {
        c.counts.place(1, "lines");
    }
}

/// Good lines, some of them with faults behind, and too many bytes.
fn too_many_bytes<S: Side>(c: &mut Comparison<S>, r: &mut Random) {
    let mut m = maker(r);
    valid_lines(&mut m);
    let reason = any_reason(m.r);
    if m.r.below(2) == 0 {
        m.fault(reason);
    }
    let bytes = 65_537 + m.r.below(3) as usize;
    m.exit_at(bytes);
    if c.made(&m.bytes, m.allocs, [1, 0, 0, 0, 0]).0 {
        c.counts.place(1, "bytes");
    }
}

/// A first line that is not the one wanted, before good lines.
fn other_header<S: Side>(c: &mut Comparison<S>, r: &mut Random) {
    let mut m = maker(r);
    valid_lines(&mut m);
    m.exit();
    let good = m.bytes.iter().position(|&b| b == b'\n').expect("the first line ends");
    let mut bytes = m.bytes[..good].to_vec();
    while bytes == m.bytes[..good] || bytes.contains(&b'\n') {
        bytes.truncate(0);
        bytes.extend_from_slice(&m.bytes[..good]);
        damage(m.r, &mut bytes);
    }
    bytes.extend_from_slice(&m.bytes[good..]);
    if c.made(&bytes, m.allocs, [2, 1, 1, 0, 0]).0 {
        c.counts.place(2, "first line");
    }
}

/// Sheets at the limits of bytes and lines, and one past them.
fn at_limits<S: Side>(c: &mut Comparison<S>, r: &mut Random) {
    for bytes in [65_534, 65_535, 65_536, 65_537, 65_538, 70_000] {
        let mut m = maker(r);
        let most = [0, 300, 30_000, 61_000][m.r.below(4) as usize];
        while m.bytes.len() < most {
            m.valid();
        }
        m.exit_at(bytes);
        let wanted = if bytes > 65_536 { [1, 0, 0, 0, 0] } else { [0, m.lines, 0, 0, m.peak] };
        if let (true, 1) = c.made(&m.bytes, m.allocs, wanted) {
            c.counts.place(1, "bytes");
        }
    }
    for lines in [4_094, 4_095, 4_096, 4_097, 4_098] {
        let mut m = maker(r);
        for _ in 0..m.r.below(60) {
            m.valid();
        }
        let held = m.held();
        while m.lines < lines - 1 {
            m.raw(b"0\tmov.b32 x,1;");
        }
        m.raw(b"3\texit;");
        let name_free = held == 0;
        let wanted = if lines > 4_096 {
            [1, 0, 0, 0, 0]
        } else if name_free {
            [0, lines, 0, 0, m.peak]
        } else {
            [15, lines, 1, held, m.peak]
        };
        c.made(&m.bytes, m.allocs, wanted);
        // an open line counts
        m.bytes.push(b'x');
        let wanted = if lines + 1 > 4_096 { [1, 0, 0, 0, 0] } else { [2, lines + 1, 1, 0, m.peak] };
        if name_free {
            c.made(&m.bytes, m.allocs, wanted);
        } else {
            c.lists(&m.bytes, m.allocs);
        }
    }
}

/// Lines, lists and tables at their limits.
fn small_limits<S: Side>(c: &mut Comparison<S>, r: &mut Random) {
    for length in 2_046..=2_050 {
        let mut m = maker(r);
        valid_lines(&mut m);
        let (held, peak, line) = (m.held(), m.peak, m.lines + 1);
        let text = match m.r.below(3) {
            0 => format!("2\ttcgen05.wait::ld.sync.aligned{};", " ".repeat(length - 32)),
            1 => format!("0\ttcgen05.fence::before_thread_sync{};", " ".repeat(length - 36)),
            _ => {
                // as many zeros as the line takes
                let mut spelling = Spelling { prefix: m.r.pick(&PREFIXES[1..]), capitals: false, zeros: 0, suffix: m.r.below(2) == 0 };
                spelling.zeros = length - format!("0\tmov.b64 xx, {};", spelling.of(1)).len();
                format!("0\tmov.b64 xx, {};", spelling.of(1))
            }
        };
        assert_eq!(text.len(), length);
        m.raw(text.as_bytes());
        m.exit();
        let wanted = if length > 2_048 { [2, line, 1, held, peak] } else { [0, m.lines, 0, 0, m.peak] };
        c.made(&m.bytes, m.allocs, wanted);
    }
    for count in [126, 127, 128, 129, 130] {
        let mut m = maker(r);
        m.alloc(512);
        let list = vec!["r"; count].join(",");
        let line = format!("0\ttcgen05.ld.sync.aligned.32x32b.x128.b32{{{list}}},[q];");
        m.raw(line.as_bytes());
        let (reason, column) = match count {
            128 => (6, line.find('q').map_or(0, |at| at + 1)),
            // the comma behind the 128th name, each of one byte
            129.. => (3, line.find('{').map_or(0, |at| at + 1 + 256)),
            _ => (5, FIRST),
        };
        let wanted = [reason, m.lines, column as u32, 512, 512];
        m.exit();
        c.made(&m.bytes, m.allocs, wanted);
    }
    for count in [127, 128, 129] {
        let mut m = maker(r);
        for i in 0..count {
            m.raw(format!("1\tmov.b32 v{i}, {i};").as_bytes());
        }
        let wanted = if count > 128 { [7, 130, 11, 0, 0] } else { [0, count + 2, 0, 0, 0] };
        m.raw(b"1\texit;");
        c.made(&m.bytes, m.allocs, wanted);
    }
    // as many allocs as bytes allow, so that the list is long
    let mut m = maker(r);
    while m.bytes.len() < 63_000 {
        let columns = m.r.pick(&[32, 64, 128]);
        if !m.alloc(columns) {
            m.give_all_back();
        }
    }
    m.exit();
    c.made(&m.bytes, m.allocs, [0, m.lines, 0, 0, m.peak]);
}

/// How often each reason is aimed at in a round: those with many places more often, 7, which needs a long sheet, once.
const AIMED: [(u32, u32); 17] = [
    (2, 3),
    (3, 14),
    (4, 6),
    (5, 3),
    (6, 10),
    (7, 1),
    (8, 4),
    (9, 3),
    (10, 2),
    (11, 3),
    (12, 4),
    (13, 3),
    (14, 6),
    (15, 3),
    (18, 6),
    (20, 3),
    (21, 3),
];

/// Compares a side with the reference on so many rounds of sheets; each round has about 160.
fn compare<S: Side>(side: &S, rounds: u64) -> Counts {
    let mut c = Comparison::new(side, 4);
    let mut r = Random::new(3);
    for round in 0..rounds {
        // once, and not in the few rounds of the tests
        if round == 100 {
            every_byte(&mut c);
        }
        for _ in 0..20 {
            valid(&mut c, &mut r);
        }
        for (reason, times) in AIMED {
            for _ in 0..times {
                one_fault(&mut c, &mut r, reason);
            }
        }
        for _ in 0..8 {
            careless(&mut c, &mut r);
        }
        for _ in 0..10 {
            two_faults(&mut c, &mut r);
            wild(&mut c, &mut r);
        }
        for _ in 0..6 {
            around_exit(&mut c, &mut r);
            damaged(&mut c, &mut r);
        }
        for _ in 0..3 {
            shuffled(&mut c, &mut r);
            misplaced_wait(&mut c, &mut r);
            noise(&mut c, &mut r);
        }
        changed_byte(&mut c, &mut r);
        other_header(&mut c, &mut r);
        if round % 4 == 0 {
            too_long(&mut c, &mut r);
        }
        if round % 16 == 0 {
            too_many_bytes(&mut c, &mut r);
        }
        if round % 50 == 0 {
            at_limits(&mut c, &mut r);
            small_limits(&mut c, &mut r);
        }
    }
    c.counts
}

/// What must have been seen, and how often at least.
fn wanted(sheets: u64) -> Vec<(&'static str, u32, u64)> {
    let mut wanted: Vec<_> = (0..=16).chain([18, 20, 21]).map(|reason| ("sheets", reason, sheets)).collect();
    wanted.push(("all sheets", 0, 1_000 * sheets));
    wanted.extend((0..=15).chain([18, 20, 21]).map(|reason| ("reports", reason, sheets / 20)));
    wanted.extend((0..=15).chain([18, 20, 21]).map(|reason| ("reports, first line", reason, sheets / 20)));
    wanted.extend((1..=16).chain([18, 20, 21]).map(|reason| ("as made", reason, sheets / 2)));
    wanted.extend(["sheets", "as made", "run, outstanding"].map(|what| (what, 18, 4 * sheets)));
    for warp in 0..4 {
        wanted
            .extend(["18, ld by warp", "18, st by warp", "passed, ld by warp", "passed, st by warp"].map(|what| (what, warp, 2 * sheets)));
    }
    wanted.extend((3..=5).map(|reason| ("statements alone", reason, 4 * sheets)));
    for what in ["run, other starts", "run, random starts"] {
        wanted.extend([(what, 0, sheets), (what, 1, sheets)]);
    }
    for what in ["run, own starts", "run, lowest starts", "run, highest starts", "run, free starts"] {
        wanted.push((what, 0, sheets));
    }
    wanted.extend([("run, free starts", 1, 20), ("reports, short room", 19, 100)]);
    wanted.extend([("all with expressions", 0, 80 * sheets), ("expressions", 0, 400 * sheets)]);
    wanted.extend((0..=16).filter(|&reason| reason != 1).chain([18, 20, 21]).map(|reason| ("with expressions", reason, sheets / 2)));
    for base in BASES {
        wanted.extend([("numbers in base", base, 20 * sheets), ("numbers with U in base", base, 10 * sheets)]);
    }
    for kind in 0..4 {
        wanted.extend([("20, .ws.sp, N 256", kind, sheets), ("passed, .ws.sp, N 64", kind, sheets)]);
        wanted.extend([("passed, .ws.sp, N 128", kind, sheets / 2), ("passed, .ws, N 256", kind, sheets / 4)]);
    }
    wanted
}

/// Every sort of place that a refusal can name. Each must have been seen this often.
const LEAST: u64 = 200;
const PLACES: &[(u32, &str)] = &[
    (1, "bytes"),
    (1, "lines"),
    (2, "byte"),
    (2, "bytes after the last LF"),
    (2, "empty line"),
    (2, "first line"),
    (2, "line's length"),
    (2, "tab"),
    (2, "warp field"),
    (3, "behind the end"),
    (3, "empty list"),
    (3, "end of the text"),
    (3, "for + or ]"),
    (3, "for ,"),
    (3, "for , or }"),
    (3, "for ;"),
    (3, "for ["),
    (3, "for ]"),
    (3, "for a name"),
    (3, "for a name or ["),
    (3, "for an operand"),
    (3, "for an operator or )"),
    (3, "for an operator or ;"),
    (3, "for an operator or ]"),
    (3, "for {"),
    (3, "for }"),
    (3, "found ("),
    (3, "found )"),
    (3, "found *"),
    (3, "found +"),
    (3, "found -"),
    (3, "found ,"),
    (3, "found ;"),
    (3, "found ["),
    (3, "found ]"),
    (3, "found a byte that is no token"),
    (3, "found a name"),
    (3, "found a number"),
    (3, "found neither of the two"),
    (3, "found {"),
    (3, "found }"),
    (3, "known statement"),
    (3, "list of 129 names"),
    (3, "nothing"),
    (3, "opcode"),
    (3, "space before the opcode"),
    (3, "spaces alone"),
    (4, "alloc"),
    (4, "dealloc"),
    (4, "ld"),
    (4, "leftmost of several"),
    (4, "mma a, address"),
    (4, "mma d"),
    (4, "mma meta"),
    (4, "mov.b32"),
    (4, "mov.b64"),
    (4, "st"),
    (5, "ld"),
    (5, "st"),
    (6, "alloc"),
    (6, "dealloc"),
    (6, "ld"),
    (6, "leftmost of several"),
    (6, "mma a, address"),
    (6, "mma a, descriptor"),
    (6, "mma b"),
    (6, "mma d"),
    (6, "mma idesc, dense"),
    (6, "mma idesc, sparse"),
    (6, "mma meta"),
    (6, "mov"),
    (6, "st"),
    (7, "mov"),
    (8, "alloc"),
    (8, "dealloc"),
    (8, "ld"),
    (8, "outstanding"),
    (8, "relinquish"),
    (8, "st"),
    (9, "alloc"),
    (9, "dealloc"),
    (9, "outstanding"),
    (10, "alloc"),
    (11, "alloc"),
    (12, "leftmost of several"),
    (12, "mma a, descriptor"),
    (12, "mma b"),
    (12, "mma idesc, dense"),
    (12, "mma idesc, sparse"),
    (13, "mma idesc, dense"),
    (13, "mma idesc, sparse"),
    (14, "ld"),
    (14, "leftmost of several"),
    (14, "mma a, address"),
    (14, "mma d"),
    (14, "mma meta"),
    (14, "st"),
    (15, "exit, columns held"),
    (15, "line after exit"),
    (15, "no exit"),
    (15, "outstanding"),
    (16, "short list"),
    (18, "dealloc of another holding"),
    (18, "every other wait"),
    (18, "fences"),
    (18, "ld"),
    (18, "ld and st"),
    (18, "name used again"),
    (18, "no wait"),
    (18, "st"),
    (18, "wait before the access"),
    (18, "wait of another warp"),
    (18, "wait of the other sort"),
    (20, "mma idesc, dense"),
    (20, "mma idesc, sparse"),
    (21, "mma idesc, dense"),
    (21, "mma idesc, sparse"),
];

pub fn run() -> bool {
    let counts = compare(&Proved, 3_500);
    let enough = counts.enough_places(PLACES, LEAST);
    counts.finish("sheets", &wanted(500)) && enough
}

#[cfg(test)]
mod waits;

#[cfg(test)]
mod tests {
    use super::*;
    use staplehorn_reference::sheet::count_lines;

    /// Few rounds, for a build without optimization.
    const ROUNDS: u64 = 12;

    /// The reference with its answer or its list changed.
    pub struct Faulty(pub AnswerFault);

    impl Side for Faulty {
        fn judge(&self, sheet: &[u8], starts: &mut [u16]) -> (u32, Answer) {
            let (_, mut answer) = Reference.judge(sheet, starts);
            self.0(sheet, starts, &mut answer);
            (answer[0], answer)
        }

        fn report(&self, sheet: &[u8], room: &mut [u8]) -> (u32, usize) {
            Reference.report(sheet, room)
        }

        fn statement(&self, text: &[u8]) -> (u32, usize) {
            Reference.statement(text)
        }

        fn canonical(&self, text: &[u8], room: &mut [u8]) -> (u32, usize) {
            Reference.canonical(text, room)
        }
    }

    /// The reference with its report changed.
    struct FaultyReport(fn(&mut [u8], &mut (u32, usize)));

    impl Side for FaultyReport {
        fn judge(&self, sheet: &[u8], starts: &mut [u16]) -> (u32, Answer) {
            Reference.judge(sheet, starts)
        }

        fn report(&self, sheet: &[u8], room: &mut [u8]) -> (u32, usize) {
            let mut answer = Reference.report(sheet, room);
            self.0(room, &mut answer);
            answer
        }

        fn statement(&self, text: &[u8]) -> (u32, usize) {
            Reference.statement(text)
        }

        fn canonical(&self, text: &[u8], room: &mut [u8]) -> (u32, usize) {
            Reference.canonical(text, room)
        }
    }

    /// Another value returned than stands in the answer.
    struct OtherReturn;

    impl Side for OtherReturn {
        fn judge(&self, sheet: &[u8], starts: &mut [u16]) -> (u32, Answer) {
            (0, Reference.judge(sheet, starts).1)
        }

        fn report(&self, sheet: &[u8], room: &mut [u8]) -> (u32, usize) {
            Reference.report(sheet, room)
        }

        fn statement(&self, text: &[u8]) -> (u32, usize) {
            Reference.statement(text)
        }

        fn canonical(&self, text: &[u8], room: &mut [u8]) -> (u32, usize) {
            Reference.canonical(text, room)
        }
    }

    /// What a fault does to an answer and its list, and to a report.
    pub type AnswerFault = fn(&[u8], &mut [u16], &mut Answer);
    type ReportFault = fn(&mut [u8], &mut (u32, usize));

    pub fn is_found(side: &impl Side) -> bool {
        compare(side, ROUNDS).differences() > 0
    }

    #[test]
    fn the_reference_agrees_with_itself() {
        assert_eq!(compare(&Reference, ROUNDS).differences(), 0);
    }

    #[test]
    fn faults_in_answers_are_found() {
        let faults: [(&str, AnswerFault); 15] = [
            ("13 for 12", |_, _, a| {
                if a[0] == 12 {
                    a[0] = 13
                }
            }),
            ("13 for 20", |_, _, a| {
                if a[0] == 20 {
                    a[0] = 13
                }
            }),
            ("20 for 21", |_, _, a| {
                if a[0] == 21 {
                    a[0] = 20
                }
            }),
            ("N 256 with .ws.sp passed over", |s, _, a| {
                if a[0] == 20 && matches!(shapes(&steps_to(s, a[1])).last(), Some(Shape { ws: true, sp: true, n: 256, .. })) {
                    *a = [0, a[1], 0, 0, a[4], 0]
                }
            }),
            ("N 256 with .ws refused", |s, _, a| {
                let listed = |shape: &Shape| matches!(shape, Shape { ws: true, sp: false, n: 256, .. });
                if a[0] == 0 && steps(s).is_some_and(|steps| shapes(&steps).iter().any(listed)) {
                    a[0] = 20
                }
            }),
            ("11 passed over", |_, _, a| {
                if a[0] == 11 {
                    *a = [0, a[1], 0, 0, a[4], 0]
                }
            }),
            ("held at exit", |_, _, a| {
                if a[0] == 15 {
                    a[3] = 0
                }
            }),
            ("peak of a pass", |_, _, a| {
                if a[0] == 0 && a[4] == 512 {
                    a[4] = 480
                }
            }),
            ("line of 16", |_, _, a| {
                if a[0] == 16 {
                    a[1] -= 1
                }
            }),
            ("4,096 lines", |s, _, a| {
                if count_lines(s) == 4_096 {
                    *a = [1, 0, 0, 0, 0, 0]
                }
            }),
            ("65,536 bytes", |s, _, a| {
                if s.len() == 65_536 {
                    *a = [1, 0, 0, 0, 0, 0]
                }
            }),
            ("line of 2,048 bytes", |s, _, a| {
                if Lines::new(s).any(|l| l.bytes.len() == 2_048) {
                    *a = [2, 2, 1, 0, 0, 0]
                }
            }),
            ("16 for a list that is long enough", |_, l, a| {
                if a[0] == 0 && l.len() == 1 {
                    a[0] = 16
                }
            }),
            ("count of places instead of starts", |_, l, a| {
                if a[0] == 0 && l.len() == a[5] as usize + 1 {
                    a[5] += 1
                }
            }),
            ("count on a refusal", |_, _, a| {
                if a[0] == 16 {
                    a[5] = 1
                }
            }),
        ];
        for (name, fault) in faults {
            assert!(is_found(&Faulty(fault)), "{name}");
        }
        assert!(is_found(&OtherReturn));
    }

    /// The line that the answer names.
    fn line<'a>(sheet: &'a [u8], a: &Answer) -> &'a [u8] {
        let lines = Lines::new(sheet).take(a[1] as usize);
        lines.last().map_or(b"", |line| line.bytes)
    }

    /// Puts the column on the first such byte of the line, or leaves it.
    fn first(sheet: &[u8], a: &mut Answer, byte: u8) {
        if let Some(at) = line(sheet, a).iter().position(|&b| b == byte) {
            a[2] = at as u32 + 1;
        }
    }

    #[test]
    fn faults_in_columns_are_found() {
        let faults: [(&str, AnswerFault); 18] = [
            ("the number in an expression", |s, _, a| {
                if a[0] == 4 && b"(-".contains(&line(s, a)[a[2] as usize - 1]) {
                    a[2] += 1
                }
            }),
            ("the number in a request", |s, _, a| {
                if a[0] == 9 && b"(-".contains(&line(s, a)[a[2] as usize - 1]) {
                    a[2] += 1
                }
            }),
            ("no negative number", |s, _, a| {
                if a[0] == 4 && line(s, a)[a[2] as usize - 1] == b'-' {
                    a[0] = 3
                }
            }),
            ("what stands before a mark of an expression", |s, _, a| {
                if a[0] == 3 && line(s, a).get(a[2] as usize - 1).is_some_and(|mark| b"-*()".contains(mark)) {
                    a[2] -= 1
                }
            }),
            ("counted from 0", |_, _, a| a[2] = a[2].saturating_sub(1)),
            ("a column on a pass", |_, _, a| {
                if a[0] == 0 {
                    a[2] = 1
                }
            }),
            ("a column of reason 1", |_, _, a| {
                if a[0] == 1 {
                    a[2] = 1
                }
            }),
            ("no column of reason 16", |_, _, a| {
                if a[0] == 16 {
                    a[2] = 0
                }
            }),
            ("the opcode of an exit", |_, _, a| {
                if a[0] == 15 {
                    a[2] = 3
                }
            }),
            ("the byte of a layout", |s, _, a| {
                if a[0] == 2 {
                    let bad = line(s, a).iter().skip(2).position(|b| !(32..=126).contains(b));
                    a[2] = bad.map_or(a[2], |at| at as u32 + 3)
                }
            }),
            ("the warp field of a load", |_, _, a| {
                if a[0] == 8 {
                    a[2] = 1
                }
            }),
            ("the bracket of a name", |s, _, a| {
                if a[0] == 6 && line(s, a)[a[2] as usize - 2] == b'[' {
                    a[2] -= 1
                }
            }),
            ("the name of an address", |s, _, a| {
                if a[0] == 14 && line(s, a)[a[2] as usize - 1] == b'[' {
                    a[2] += 1
                }
            }),
            ("the first address of an mma", |s, _, a| {
                if a[0] == 14 {
                    first(s, a, b'[')
                }
            }),
            ("the name of a request", |s, _, a| {
                if a[0] == 9 {
                    first(s, a, b' ')
                }
            }),
            ("the end of a line with spaces", |s, _, a| {
                let text = line(s, a);
                if a[0] == 3 && a[2] as usize == text.len() + 1 {
                    a[2] = text.trim_ascii_end().len() as u32 + 1
                }
            }),
            ("a space behind the end", |s, _, a| {
                let text = line(s, a);
                let rest = text.get((a[2] as usize).wrapping_sub(1)..).unwrap_or(b"");
                if a[0] == 3 && rest.starts_with(b" ") {
                    a[2] += rest.len() as u32 - rest.trim_ascii_start().len() as u32
                }
            }),
            ("the last of two names", |s, _, a| {
                let text = line(s, a);
                if a[0] == 12 {
                    let rest = &text[a[2] as usize - 1..];
                    let name = rest.split(|b| b" ,;]+".contains(b)).next().unwrap_or(b"");
                    let last = text.windows(name.len()).rposition(|other| other == name);
                    a[2] = last.map_or(a[2], |at| at as u32 + 1)
                }
            }),
        ];
        for (name, fault) in faults {
            assert!(is_found(&Faulty(fault)), "{name}");
        }
    }

    /// Another column of a statement by itself than in its sheet.
    struct OtherStatement;

    impl Side for OtherStatement {
        fn judge(&self, sheet: &[u8], starts: &mut [u16]) -> (u32, Answer) {
            Reference.judge(sheet, starts)
        }

        fn report(&self, sheet: &[u8], room: &mut [u8]) -> (u32, usize) {
            Reference.report(sheet, room)
        }

        fn statement(&self, text: &[u8]) -> (u32, usize) {
            let (reason, column) = Reference.statement(text);
            (reason, if reason == 4 { column - 1 } else { column })
        }

        fn canonical(&self, text: &[u8], room: &mut [u8]) -> (u32, usize) {
            Reference.canonical(text, room)
        }
    }

    #[test]
    fn faults_in_statements_are_found() {
        assert!(is_found(&OtherStatement));
    }

    #[test]
    fn faults_in_lists_are_found() {
        let faults: [(&str, AnswerFault); 4] = [
            ("list touched on a refusal", |_, l, a| {
                if a[0] == 14 && !l.is_empty() {
                    l[0] = 0
                }
            }),
            ("list touched on 16", |_, l, a| {
                if a[0] == 16 && !l.is_empty() {
                    l[0] = 0
                }
            }),
            ("one place too many", |_, l, a| {
                if let (0, Some(place)) = (a[0], l.iter_mut().find(|place| **place == BEFORE)) {
                    *place = 0;
                }
            }),
            ("another start", |_, l, a| {
                if let (0, Some(start)) = (a[0], l.iter_mut().find(|start| **start == 96)) {
                    *start = 128;
                }
            }),
        ];
        for (name, fault) in faults {
            assert!(is_found(&Faulty(fault)), "{name}");
        }
    }

    #[test]
    fn faults_in_reports_are_found() {
        let faults: [(&str, ReportFault); 4] = [
            ("a byte", |room, a| {
                if a.1 > 20 {
                    room[a.1 - 2] ^= 1
                }
            }),
            ("the length", |_, a| {
                if a.0 == 6 {
                    a.1 -= 1
                }
            }),
            ("the reason", |_, a| {
                if a.0 == 9 {
                    a.0 = 8
                }
            }),
            ("a byte behind the report", |room, a| {
                if a.0 == 0 {
                    room[a.1] = 0
                }
            }),
        ];
        for (name, fault) in faults {
            assert!(is_found(&FaultyReport(fault)), "{name}");
        }
    }
}
