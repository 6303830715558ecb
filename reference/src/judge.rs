//! Judging a sheet: the first broken rule, or the places of its holdings.

use crate::descriptor::{decode_instruction, decode_shared, listed, Kind, BAD_REQUEST};
use crate::ledger::{Ledger, Value, Values, BAD_NAME, BAD_WARP, NO_PLACE};
use crate::name::Name;
use crate::sheet::{is_over, Line, Lines};
use crate::statement::{columns, lanes, read_placed, registers_reason};
use crate::statement::{Address, Operand, Part, Shape, Statement, Verdict};

pub const PASSED: u32 = 0;
/// Too many bytes or lines.
pub const TOO_LONG: u32 = 1;
/// The first line is another, or a line is not laid out as it should be.
pub const BAD_LAYOUT: u32 = 2;
/// An access goes past its holding, or an mma is not at lane 0.
pub const OUTSIDE: u32 = 14;
/// Columns are held at the exit, lines follow it, or there is none.
pub const BAD_EXIT: u32 = 15;
/// The sheet passes, but the list is too short for its starts.
pub const SHORT_LIST: u32 = 16;

/// Lanes in one warp's quarter of the memory.
const WARP_LANES: u32 = 32;
/// What an mma books beside d.
const A_COLUMNS: u32 = 8;
const META_COLUMNS: u32 = 2;

/// Bytes of a line before its statement.
const FRONT: usize = 2;

/// The answer to a sheet. `line` counts from 1; it is 0 only with reason 1.
/// `column` counts from 1 at the line's first byte; it is 0 with reasons 0 and 1.
#[derive(Clone, Copy, PartialEq, Eq, Debug)]
pub struct Answer {
    pub reason: u32,
    pub line: usize,
    pub column: usize,
    pub held: u32,
    pub peak: u32,
}

/// Judges the sheet. Only on reason 0 the front of `starts` is written, with one
/// start for each alloc in turn.
pub fn judge(sheet: &[u8], starts: &mut [u16]) -> Answer {
    judge_with_operand(sheet, starts).0
}

/// The same, with the operand that the refusal points at, counted from 0, if it
/// points at one.
pub fn judge_with_operand(sheet: &[u8], starts: &mut [u16]) -> (Answer, Option<usize>) {
    if is_over(sheet) {
        return (Answer { reason: TOO_LONG, line: 0, column: 0, held: 0, peak: 0 }, None);
    }
    let mut judge = Judge::new();
    let mut line = 0;
    for text in Lines::new(sheet) {
        line += 1;
        let done = if line == 1 { judge.header(text) } else { judge.line(text) };
        if let Err(verdict) = done {
            return judge.answer(verdict, line);
        }
    }
    if line == 0 {
        return judge.answer(at_column(1, BAD_LAYOUT), 1);
    }
    if !judge.exited {
        return judge.answer(at_column(1, BAD_EXIT), line);
    }
    let Some(front) = starts.get_mut(..judge.starts.len()) else {
        return judge.answer(at_column(1, SHORT_LIST), line);
    };
    front.copy_from_slice(&judge.starts);
    judge.answer(at_column(0, PASSED), line)
}

fn at_column(column: usize, reason: u32) -> Verdict {
    Verdict { reason, column, operand: None }
}

/// What the accepted lines have led to.
struct Judge {
    ledger: Ledger,
    values: Values,
    peak: u32,
    exited: bool,
    /// One for each alloc so far.
    starts: Vec<u16>,
}

impl Judge {
    fn new() -> Self {
        Judge { ledger: Ledger::new(), values: Values::new(), peak: 0, exited: false, starts: Vec::new() }
    }

    /// A refused line changes nothing, so what is held now was held before it.
    fn answer(&self, verdict: Verdict, line: usize) -> (Answer, Option<usize>) {
        let Verdict { reason, column, operand } = verdict;
        (Answer { reason, line, column, held: self.ledger.held(), peak: self.peak }, operand)
    }

    fn header(&self, line: Line) -> Result<(), Verdict> {
        if line.is_header() {
            Ok(())
        } else {
            Err(at_column(1, BAD_LAYOUT))
        }
    }

    fn line(&mut self, line: Line) -> Result<(), Verdict> {
        let (warp, text) = line.fields().ok_or(at_column(1, BAD_LAYOUT))?;
        let (statement, parts) = read_placed(text).map_err(|v| Verdict { column: v.column + FRONT, ..v })?;
        self.statement(warp, &statement).map_err(|fault| fault.verdict(&parts))
    }

    fn statement(&mut self, warp: u8, statement: &Statement) -> Result<(), Fault> {
        of(None, check(registers_reason(statement)))?;
        if self.exited {
            return of(None, Err(BAD_EXIT));
        }
        self.book(warp, statement)?;
        self.peak = self.peak.max(self.ledger.held());
        Ok(())
    }

    fn book(&mut self, warp: u8, statement: &Statement) -> Result<(), Fault> {
        match statement {
            Statement::Mov { wide, name, value } => of_booking(self.mov(*wide, *name, *value)),
            Statement::Alloc { name, columns } => of_booking(self.alloc(warp, *name, *columns)),
            Statement::Dealloc { name, columns } => of_booking(self.ledger.dealloc(warp, name, *columns)),
            Statement::Relinquish => of_booking(self.ledger.relinquish(warp)),
            Statement::Ld { shape, num, address, .. } => of(Some(1), self.load(warp, *shape, *num, address)),
            Statement::St { shape, num, address, .. } => of(Some(0), self.store(warp, *shape, *num, address)),
            Statement::Mma { ws, sp, kind, d, a, b, meta, idesc, .. } => {
                let opcode = Opcode { kind: *kind, ws: *ws, sp: *sp };
                self.mma(opcode, d, a, b, meta.as_ref(), idesc)
            }
            Statement::Exit => of(None, self.exit()),
            Statement::WaitLd => {
                self.ledger.wait_for_loads(warp);
                Ok(())
            }
            Statement::WaitSt => {
                self.ledger.wait_for_stores(warp);
                Ok(())
            }
            Statement::FenceBefore | Statement::FenceAfter => Ok(()),
        }
    }

    fn mov(&mut self, wide: bool, name: Name, value: u64) -> Result<(), u32> {
        if self.ledger.holding(&name).is_some() {
            return Err(BAD_NAME);
        }
        // reading has seen to it that a narrow value fits
        let value = if wide { Value::Wide(value) } else { Value::Narrow(value as u32) };
        self.values.bind(name, value)
    }

    fn alloc(&mut self, warp: u8, name: Name, columns: u32) -> Result<(), u32> {
        if self.ledger.holding(&name).is_some() || self.values.get(&name).is_some() {
            return Err(BAD_NAME);
        }
        let start = self.ledger.alloc(warp, name, columns)?;
        self.starts.push(start as u16);
        Ok(())
    }

    fn load(&mut self, warp: u8, shape: Shape, num: u32, address: &Address) -> Result<(), u32> {
        self.access(warp, shape, num, address)?;
        self.ledger.load(warp, &address.name);
        Ok(())
    }

    fn store(&mut self, warp: u8, shape: Shape, num: u32, address: &Address) -> Result<(), u32> {
        self.access(warp, shape, num, address)?;
        self.ledger.store(warp, &address.name);
        Ok(())
    }

    fn access(&self, warp: u8, shape: Shape, num: u32, address: &Address) -> Result<(), u32> {
        let length = self.length(&address.name)?;
        let first = u32::from(warp) * WARP_LANES;
        let lane = lane(address);
        let second_half = lanes(shape) < WARP_LANES && lane == first + WARP_LANES / 2;
        if lane != first && !second_half {
            return Err(BAD_WARP);
        }
        fits(column(address), columns(shape, num), length)
    }

    fn mma(&self, opcode: Opcode, d: &Address, a: &Operand, b: &Name, meta: Option<&Address>, idesc: &Name) -> Result<(), Fault> {
        let (d_at, a_at, b_at, meta_at) = (Some(0), Some(1), Some(2), Some(3));
        let idesc_at = if meta.is_some() { Some(4) } else { Some(3) };

        // every name comes first, then every descriptor, then the shape, then the
        // cells, each from the left
        let d_length = of(d_at, self.length(&d.name))?;
        let a = of(a_at, self.a_operand(a))?;
        let b = of(b_at, self.wide(b))?;
        let meta = match meta {
            Some(address) => Some((address, of(meta_at, self.length(&address.name))?)),
            None => None,
        };
        let idesc = of(idesc_at, self.narrow(idesc))?;

        let Opcode { kind, ws, sp } = opcode;
        if let A::Descriptor(word) = a {
            of(a_at, decode_shared(word))?;
        }
        of(b_at, decode_shared(b))?;
        let fields = of(idesc_at, decode_instruction(kind, ws, sp, idesc))?;

        of(idesc_at, check(listed(kind, ws, sp, &fields)))?;

        of(d_at, mma_cells(d, fields.n, d_length))?;
        if let A::Cells(address, length) = a {
            of(a_at, mma_cells(address, A_COLUMNS, length))?;
        }
        if let Some((address, length)) = meta {
            of(meta_at, mma_cells(address, META_COLUMNS, length))?;
        }
        Ok(())
    }

    fn a_operand<'a>(&self, a: &'a Operand) -> Result<A<'a>, u32> {
        match a {
            Operand::Descriptor(name) => Ok(A::Descriptor(self.wide(name)?)),
            Operand::Address(address) => Ok(A::Cells(address, self.length(&address.name)?)),
        }
    }

    fn exit(&mut self) -> Result<(), u32> {
        if self.ledger.held() != 0 {
            return Err(BAD_EXIT);
        }
        self.exited = true;
        Ok(())
    }

    /// The columns of the live holding of this name.
    fn length(&self, name: &Name) -> Result<u32, u32> {
        match self.ledger.holding(name) {
            Some(holding) => Ok(holding.columns),
            None => Err(BAD_NAME),
        }
    }

    fn wide(&self, name: &Name) -> Result<u64, u32> {
        match self.values.get(name) {
            Some(Value::Wide(word)) => Ok(word),
            _ => Err(BAD_NAME),
        }
    }

    fn narrow(&self, name: &Name) -> Result<u32, u32> {
        match self.values.get(name) {
            Some(Value::Narrow(word)) => Ok(word),
            _ => Err(BAD_NAME),
        }
    }
}

/// What the opcode of an mma says.
struct Opcode {
    kind: Kind,
    ws: bool,
    sp: bool,
}

/// The operand a of an mma with its name looked up.
enum A<'a> {
    Descriptor(u64),
    /// The address and the length of its holding.
    Cells(&'a Address, u32),
}

/// A reason, and the operand that it is of, if it is of one.
struct Fault {
    reason: u32,
    operand: Option<usize>,
}

impl Fault {
    /// Which part of the operand counts goes by the reason. A fault of no operand
    /// is one of the line or the warp field, which is its first byte, or of the
    /// opcode.
    fn verdict(&self, parts: &[Part]) -> Verdict {
        let Fault { reason, operand } = *self;
        let column = match (reason, operand) {
            (9, Some(operand)) => FRONT + parts[operand].number + 1,
            (6 | 7 | 12 | 13 | 20 | 21, Some(operand)) => FRONT + parts[operand].name + 1,
            (8 | 14, Some(operand)) => FRONT + parts[operand].start + 1,
            (8 | 15, _) => 1,
            _ => FRONT + 1,
        };
        Verdict { reason, column, operand }
    }
}

fn of<T>(operand: Option<usize>, done: Result<T, u32>) -> Result<T, Fault> {
    done.map_err(|reason| Fault { reason, operand })
}

/// The operands of a mov or a booking are a name and a number.
fn of_booking(done: Result<(), u32>) -> Result<(), Fault> {
    done.map_err(|reason| {
        let operand = match reason {
            BAD_NAME | NO_PLACE => Some(0),
            BAD_REQUEST => Some(1),
            _ => None,
        };
        Fault { reason, operand }
    })
}

/// A reason of 0 is none.
fn check(reason: u32) -> Result<(), u32> {
    match reason {
        0 => Ok(()),
        _ => Err(reason),
    }
}

fn lane(address: &Address) -> u32 {
    address.offset / 65_536
}

fn column(address: &Address) -> u32 {
    address.offset % 65_536
}

/// Do so many columns from there on lie in a holding of this length?
fn fits(column: u32, columns: u32, length: u32) -> Result<(), u32> {
    if column + columns <= length {
        Ok(())
    } else {
        Err(OUTSIDE)
    }
}

/// An mma takes all lanes.
fn mma_cells(address: &Address, columns: u32, length: u32) -> Result<(), u32> {
    if lane(address) != 0 {
        return Err(OUTSIDE);
    }
    fits(column(address), columns, length)
}
