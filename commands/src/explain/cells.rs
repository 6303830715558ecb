//! Reason 8 where it is the lane of a load or store, and reason 14: the lanes and columns that an address reaches, beside those that the
//! warp or the allocation has.

use super::booking::back;
use super::descriptors::{hex, moved, offer, takes, under};
use super::numbers::{cut, octal_in};
use super::{counted, gets_further, grouped, listed, token_end, Context, Explanation};
use crate::history::Allocation;
use crate::rules::{INSTRUCTION, N};
use crate::sheet::Edit;
use crate::statement::{Address, Mma, Shape, Statement, MEMORY};

/// What one lane counts in an offset; columns are below it.
const LANE: u32 = 65_536;
const LANES: u32 = 128;
/// Lanes of a warp.
const OWN: u32 = 32;

/// An address as a sheet writes it.
fn written(name: &str, lane: u32, column: u32) -> String {
    match lane * LANE + column {
        0 => format!("[{name}]"),
        offset => format!("[{name}+{offset}]"),
    }
}

/// The edit that puts another address in the place of the one that is pointed at.
fn readdress(c: &Context, text: &str) -> Option<Edit> {
    let (from, to) = *c.operands(c.line()).get(c.operand()?)?;
    Some(Edit { line: c.line(), from, to, text: text.into() })
}

/// The offset of the address that is pointed at, as it is written; empty where it has none.
fn spelled(c: &Context) -> String {
    let text = c.token(c.column());
    text.trim_end_matches(']').split_once('+').map_or("", |parts| parts.1.trim()).into()
}

/// It is no expression.
fn is_run(text: &str) -> bool {
    text.bytes().all(|b| b.is_ascii_alphanumeric())
}

/// How an offset is made.
fn offset(c: &Context, address: &Address) -> String {
    let (lane, column, text) = (address.lane(), address.column(), spelled(c));
    match address.offset {
        0 if is_run(&text) => format!("`[{}]` has no offset: lane 0, column 0", address.name),
        n if is_run(&text) => format!("the offset {n} is {lane} * 65,536 + {column}: lane {lane}, column {column}"),
        n => format!("the offset `{}` is {n}, and that is {lane} * 65,536 + {column}: lane {lane}, column {column}", cut(&text)),
    }
}

/// Says that a number of the address that is pointed at is octal, where its digits would be another number as decimals.
fn octal(c: &Context, e: &mut Explanation) {
    e.notes.extend(octal_in(&spelled(c)));
}

fn verb(store: bool) -> &'static str {
    if store {
        "store"
    } else {
        "load"
    }
}

/// The lanes at which a warp's load or store of a shape may start.
fn starts(warp: u32, shape: &Shape) -> Vec<u32> {
    (warp * OWN..(warp + 1) * OWN).step_by(shape.lanes as usize).collect()
}

/// Reason 8 of a load or store.
pub fn lane(c: &Context, e: &mut Explanation) {
    let Some(Statement::Access { store, shape, num, address, .. }) = &c.statement else { return };
    let (warp, lane, name) = (c.warp(), address.lane(), &address.name);
    let own = starts(warp, shape);
    let may: Vec<_> = own.iter().map(u32::to_string).collect();
    e.title(format!("warp {warp} cannot {} at lane {lane}: it has lanes {} to {}", verb(*store), warp * OWN, warp * OWN + OWN - 1));
    if lane / OWN == warp {
        e.title(format!("warp {warp} cannot {} `.{}` at lane {lane}: it starts at lane {}", verb(*store), shape.name, listed(&may, "or")));
    }
    e.point(token_end(c.bytes(), c.column()), format!("lane {lane}, column {} of `{name}`", address.column()));
    octal(c, e);
    e.note(offset(c, address));
    e.note(format!("`.{}` takes {} lanes; by warp {warp} it starts at lane {}", shape.name, shape.lanes, listed(&may, "or")));
    if lane >= LANES {
        e.note(format!("there are {LANES} lanes, 0 to {}", LANES - 1));
    }
    let wanted = own.iter().copied().find(|l| l % OWN == lane % OWN).unwrap_or(warp * OWN);
    if lane == 0 {
        e.note(format!(
            "an offset below 65,536 is a column and no lane: lane {wanted} is {wanted} * 65,536 = {}",
            grouped((wanted * LANE).into())
        ));
    }
    offer_lane(c, e, address, wanted, shape.columns * num);
    offer_warp(c, e, shape, address, shape.columns * num);
}

/// Offers the address at a lane of the warp: in the same column, if the columns fit there, and in column 0 where the offset looks like
/// the lane itself.
fn offer_lane(c: &Context, e: &mut Explanation, address: &Address, lane: u32, columns: u32) {
    let (name, column) = (&address.name, address.column());
    let has = has(c, address);
    let mut tried = vec![if column + columns <= has || columns > has { column } else { 0 }];
    if column == lane && !tried.contains(&0) {
        tried.push(0);
    }
    for at in tried {
        let text = written(name, lane, at);
        if let Some(edit) = readdress(c, &text) {
            e.fix(c.sheet, format!("for lane {lane} and column {at} write `{text}` ({lane} * 65,536 + {at})"), edit);
        }
    }
}

/// Offers the warp that has the lane, where the columns fit.
fn offer_warp(c: &Context, e: &mut Explanation, shape: &Shape, address: &Address, columns: u32) {
    let (lane, owner) = (address.lane(), address.lane() / OWN);
    let is_right = lane < LANES && owner != c.warp() && starts(owner, shape).contains(&lane);
    if is_right && address.column() + columns <= has(c, address) {
        let edit = Edit { line: c.line(), from: 1, to: 2, text: owner.to_string().into() };
        e.fix(c.sheet, format!("if warp {owner} is meant, which has lane {lane}, write it in the warp field"), edit);
    }
}

/// The columns that the allocation of an address has.
fn has(c: &Context, address: &Address) -> u32 {
    c.history.allocation(&address.name).map_or(0, |a| a.columns)
}

/// Reason 14.
pub fn explain(c: &Context, e: &mut Explanation) {
    match &c.statement {
        Some(Statement::Access { store, shape, num, address, .. }) => {
            let Some(cells) = Cells::of(c, address, shape.columns * num, format!("this {}", verb(*store))) else { return };
            cells.past(e);
            e.note(format!("`.{}.x{num}` takes {}: {} for each of x{num}", shape.name, counted(cells.columns, "column"), shape.columns));
            cells.offer_column(e);
            fewer(e, &cells, shape);
            cells.offer_larger(e);
            if e.helps.is_empty() {
                cells.offer_both(e);
            }
        }
        Some(Statement::Mma(m)) => mma(c, e, m),
        _ => {}
    }
}

/// The smallest legal request for so many columns.
fn request_for(columns: u32) -> Option<u32> {
    (columns..=MEMORY).find(|&n| staplehorn::request(n).is_ok())
}

/// Columns of an allocation that an operand takes.
struct Cells<'a> {
    c: &'a Context<'a>,
    address: &'a Address,
    columns: u32,
    allocation: &'a Allocation,
    /// Who takes them.
    who: String,
}

/// Says with which N a load or store fits at its column.
fn fewer(e: &mut Explanation, cells: &Cells, shape: &Shape) {
    let room = cells.allocation.columns.saturating_sub(cells.address.column());
    let fits = (0..8).map(|i| 1 << i).filter(|n| *n <= shape.largest && n * shape.columns <= room).max();
    if let Some(n) = fits {
        let registers = counted(n * shape.registers, "register");
        e.help(format!(
            "take fewer: from column {} on `.{}.x{n}` fits, {} with {registers}",
            cells.address.column(),
            shape.name,
            counted(n * shape.columns, "column")
        ));
    }
}

fn mma(c: &Context, e: &mut Explanation, m: &Mma) {
    let Some((address, columns, role)) = c.operand().and_then(|operand| c.history.cells(m, operand)) else { return };
    let Some(cells) = Cells::of(c, address, columns, format!("operand {role}")) else { return };
    if address.lane() != 0 {
        return cells.lane_of_mma(e, role);
    }
    cells.past(e);
    match role {
        "d" => cells.n_columns(e, m),
        _ => e.note(format!("{role} takes {columns} columns in every mma")),
    }
    cells.offer_column(e);
    if role == "d" && columns > cells.allocation.columns {
        cells.offer_n(e, m);
    }
    cells.offer_larger(e);
    if e.helps.is_empty() {
        cells.offer_both(e);
    }
}

impl<'a> Cells<'a> {
    fn of(c: &'a Context, address: &'a Address, columns: u32, who: String) -> Option<Cells<'a>> {
        let allocation = c.history.allocation(&address.name).filter(|a| a.columns > 0 && columns > 0)?;
        Some(Cells { c, address, columns, allocation, who })
    }

    /// Says which columns are wanted, and which there are.
    fn past(&self, e: &mut Explanation) {
        let (name, has, first) = (&self.address.name, self.allocation.columns, self.address.column());
        let last = first + self.columns - 1;
        let over = (last + 1).saturating_sub(has.max(first));
        let past = match over {
            1 if self.columns == 1 => "past".into(),
            _ if over == self.columns => "all of them past".into(),
            _ => format!("{over} past"),
        };
        let taken = if first == last { format!("column {first}") } else { format!("columns {first} to {last}") };
        e.title(format!("{} takes {taken} of `{name}`, which has {has}: 0 to {}", self.who, has - 1));
        e.point(
            token_end(self.c.bytes(), self.c.column()),
            format!("{} from column {first} on: {past} the end of `{name}`", counted(self.columns, "column")),
        );
        self.taken(e);
        octal(self.c, e);
        if !is_run(&spelled(self.c)) {
            e.note(offset(self.c, self.address));
        }
    }

    fn taken(&self, e: &mut Explanation) {
        let a = self.allocation;
        if let Some(&place) = self.c.operands(a.line).get(1) {
            e.related(a.line, place, format!("`{}` takes {} here", a.name, counted(a.columns, "column")));
        }
    }

    /// Offers the last column from which the columns fit.
    fn offer_column(&self, e: &mut Explanation) {
        let Some(last) = self.allocation.columns.checked_sub(self.columns) else { return };
        let text = written(&self.address.name, self.address.lane(), last);
        let Some(edit) = readdress(self.c, &text) else { return };
        let start = if self.columns == 1 { "starts" } else { "start" };
        let fit = format!("{} of `{}` {start}", counted(self.columns, "column"), self.address.name);
        e.fix(self.c.sheet, format!("{fit} at column {last} at the latest: write `{text}`"), edit);
    }

    /// Neither the column nor the count of columns can stay.
    fn offer_both(&self, e: &mut Explanation) {
        let text = written(&self.address.name, self.address.lane(), 0);
        let most = counted(self.allocation.columns, "column");
        let larger = request_for(self.columns).map_or(String::new(), |size| format!(", or allocate {size}"));
        e.help(format!("start at column 0, as `{text}`, and take at most {most}{larger}"));
    }

    /// Says in which lines to write a larger size, if the library gets further with it.
    fn offer_larger(&self, e: &mut Explanation) {
        let (c, a) = (self.c, self.allocation);
        let Some(size) = request_for(self.address.column() + self.columns) else { return };
        let Some(&(from, to)) = c.operands(a.line).get(1) else { return };
        let edit = Edit { line: a.line, from, to, text: size.to_string().into() };
        if !gets_further(c.sheet, &c.answer, &edit) {
            return;
        }
        let back = back(c, &a.name).map_or_else(|| "its dealloc".into(), |line| format!("its dealloc (line {line})"));
        e.help(format!("allocate more: {size} columns for `{}`, in its alloc (line {}) and in {back}", a.name, a.line));
    }

    /// An address of an mma with a lane.
    fn lane_of_mma(&self, e: &mut Explanation, role: &str) {
        let (address, c) = (self.address, self.c);
        let (lane, column, has) = (address.lane(), address.column(), self.allocation.columns);
        e.title(format!("{} is at lane {lane} of `{}`; every address of an mma has lane 0", self.who, address.name));
        e.point(token_end(c.bytes(), c.column()), format!("{role}: lane {lane}, column {column} of `{}`", address.name));
        octal(c, e);
        e.note(offset(c, address));
        e.note("only ld and st have a lane in their addresses");
        if column + self.columns > has {
            self.taken(e);
            e.note(format!("the columns do not fit either: {} from column {column} on, of {has}", counted(self.columns, "column")));
        }
        let fits = column.min(has.saturating_sub(self.columns));
        let text = written(&address.name, 0, fits);
        if readdress(c, &text).is_none_or(|edit| !e.fix(c.sheet, format!("for lane 0 and column {fits} write `{text}`"), edit)) {
            e.help(format!("leave the lane out, as `{text}`, and take at most {}", counted(has, "column")));
        }
    }

    /// Says where the N of an mma comes from.
    fn n_columns(&self, e: &mut Explanation, m: &Mma) {
        let Some(value) = self.c.history.value(&m.idesc) else { return };
        let n = self.columns;
        moved(self.c, e, value, format!("idesc `{}` gets N {n} here", value.name));
        e.note(format!(
            "d takes N columns; N is {n}, for bits {} of {} are {}",
            INSTRUCTION[N].bits(),
            hex(32, value.number),
            n / INSTRUCTION[N].unit as u32
        ));
    }

    /// Offers the largest N that fits.
    fn offer_n(&self, e: &mut Explanation, m: &Mma) {
        let Some(value) = self.c.history.value(&m.idesc) else { return };
        let Ok(word) = u32::try_from(value.number) else { return };
        let room = u64::from(self.allocation.columns.saturating_sub(self.address.column()));
        match takes(m.opcode, word, N).into_iter().filter(|&n| n <= room).max() {
            Some(n) => offer(self.c, e, value, INSTRUCTION[N].put(value.number, n), &format!("take N {n}, which fits")),
            None => e.note(format!("no N of {} fits in {}", under(m.opcode), counted(room, "column"))),
        }
    }
}
