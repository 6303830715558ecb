//! Single statements: the types, the table of access shapes, reading, writing.

pub use crate::descriptor::Kind;
pub use crate::name::Name;
pub use crate::reader::{read, read_placed};
pub use crate::writer::write;

/// No form matches the text.
pub const NO_FORM: u32 = 3;
/// The form matches, but a number in it is out of range.
pub const OUT_OF_RANGE: u32 = 4;
/// N is over the shape's largest, or the number of registers is another.
pub const BAD_REGISTERS: u32 = 5;
/// Writing: too little room, or a statement that no text could give.
pub const NOT_WRITTEN: u32 = 19;

/// The longest statement that is read, in bytes.
pub const LONGEST_STATEMENT: usize = 4096;
/// The longest list of names.
pub const LONGEST_LIST: usize = 128;

/// The shape of a load or store.
#[derive(Clone, Copy, PartialEq, Eq, Debug)]
pub enum Shape {
    S32x32b,
    S16x64b,
    S16x128b,
    S16x256b,
}

impl Shape {
    pub const ALL: [Shape; 4] = [Shape::S32x32b, Shape::S16x64b, Shape::S16x128b, Shape::S16x256b];
}

/// `[name]` or `[name+offset]`.
#[derive(Clone, Copy, PartialEq, Eq, Debug)]
pub struct Address {
    pub name: Name,
    pub offset: u32,
}

/// The operand a of an mma.
#[derive(Clone, Copy, PartialEq, Eq, Debug)]
pub enum Operand {
    Descriptor(Name),
    Address(Address),
}

/// Where an operand stands in the text of its statement, counted from 0: its
/// first byte, its name, its number. A part that it has not is put at its first
/// byte.
#[derive(Clone, Copy, PartialEq, Eq, Debug)]
pub struct Part {
    pub start: usize,
    pub name: usize,
    pub number: usize,
}

/// A reason, the column it points at, and the operand, counted from 0, if it is
/// one of an operand.
#[derive(Clone, Copy, PartialEq, Eq, Debug)]
pub struct Verdict {
    pub reason: u32,
    pub column: usize,
    pub operand: Option<usize>,
}

#[derive(Clone, PartialEq, Eq, Debug)]
pub enum Statement {
    /// `wide` is the 64-bit move.
    Mov {
        wide: bool,
        name: Name,
        value: u64,
    },
    Alloc {
        name: Name,
        columns: u32,
    },
    Dealloc {
        name: Name,
        columns: u32,
    },
    Relinquish,
    /// `num` is the N of `.xN`: a power of two, 1 to 128.
    Ld {
        shape: Shape,
        num: u32,
        address: Address,
        registers: Vec<Name>,
    },
    St {
        shape: Shape,
        num: u32,
        address: Address,
        registers: Vec<Name>,
    },
    WaitLd,
    WaitSt,
    FenceBefore,
    FenceAfter,
    /// `meta` is there exactly when `sp` is.
    Mma {
        ws: bool,
        sp: bool,
        kind: Kind,
        d: Address,
        a: Operand,
        b: Name,
        meta: Option<Address>,
        idesc: Name,
        predicate: Name,
    },
    Exit,
}

/// The number of different answers of `form`.
pub const FORMS: u32 = 13;

/// The place of the statement's form in the table of forms, from 0. Where a row
/// of the table has two opcodes, each counts.
pub fn form(s: &Statement) -> u32 {
    match s {
        Statement::Mov { wide: false, .. } => 0,
        Statement::Mov { wide: true, .. } => 1,
        Statement::Alloc { .. } => 2,
        Statement::Dealloc { .. } => 3,
        Statement::Relinquish => 4,
        Statement::Ld { .. } => 5,
        Statement::St { .. } => 6,
        Statement::WaitLd => 7,
        Statement::WaitSt => 8,
        Statement::FenceBefore => 9,
        Statement::FenceAfter => 10,
        Statement::Mma { .. } => 11,
        Statement::Exit => 12,
    }
}

/// How many registers an access has. `num` is at most 128.
pub fn registers(shape: Shape, num: u32) -> u32 {
    match shape {
        Shape::S32x32b => num,
        Shape::S16x64b => num,
        Shape::S16x128b => 2 * num,
        Shape::S16x256b => 4 * num,
    }
}

/// How many lanes an access has.
pub fn lanes(shape: Shape) -> u32 {
    match shape {
        Shape::S32x32b => 32,
        Shape::S16x64b => 16,
        Shape::S16x128b => 16,
        Shape::S16x256b => 16,
    }
}

/// How many columns an access has. `num` is at most 128.
pub fn columns(shape: Shape, num: u32) -> u32 {
    match shape {
        Shape::S32x32b => num,
        Shape::S16x64b => 2 * num,
        Shape::S16x128b => 4 * num,
        Shape::S16x256b => 8 * num,
    }
}

/// The largest N that goes with the shape.
pub fn largest(shape: Shape) -> u32 {
    match shape {
        Shape::S32x32b => 128,
        Shape::S16x64b => 128,
        Shape::S16x128b => 64,
        Shape::S16x256b => 32,
    }
}

/// 5 when a load or store has too large an N or another number of registers
/// than its shape and N ask for; else 0.
pub fn registers_reason(s: &Statement) -> u32 {
    let (shape, num, count) = match s {
        Statement::Ld { shape, num, registers, .. } => (*shape, *num, registers.len()),
        Statement::St { shape, num, registers, .. } => (*shape, *num, registers.len()),
        _ => return 0,
    };
    if num > largest(shape) || count != registers(shape, num) as usize {
        BAD_REGISTERS
    } else {
        0
    }
}

/// The verdict on a text read alone: 3, 4, 5 or 0. The column counts from 1 at
/// its first byte and is 0 with 0.
pub fn judge_alone(text: &[u8]) -> Verdict {
    let statement = match read_placed(text) {
        Ok((statement, _)) => statement,
        Err(verdict) => return verdict,
    };
    match registers_reason(&statement) {
        0 => Verdict { reason: 0, column: 0, operand: None },
        reason => Verdict { reason, column: 1, operand: None },
    }
}

/// Reads the text and writes it in its one canonical form. The answer is the
/// length written, or 3, 4 or 19.
pub fn canonical(text: &[u8], room: &mut [u8]) -> Result<usize, u32> {
    let statement = read(text)?;
    write(&statement, room)
}
