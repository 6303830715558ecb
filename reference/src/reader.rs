//! Reading one statement.
//!
//! Inside this file `None` means that no form matches; the cursor then stands at
//! the token, or strange byte, where none can go on, or at the end of the text. A
//! number that is out of range does not stop the reading: it is noted and answered
//! at the end, so that a fault of form anywhere in the text comes before it.

use crate::descriptor::Kind;
use crate::expression::{Expression, Number, Operator};
use crate::name::{is_name_byte, is_proper, Name};
use crate::statement::{registers, Address, Operand, Part, Shape, Statement, Verdict};
use crate::statement::{LONGEST_LIST, LONGEST_STATEMENT, NO_FORM, OUT_OF_RANGE};

/// Reads one statement. `Err(3)` when no form matches, else `Err(4)` when a
/// number is out of range.
pub fn read(text: &[u8]) -> Result<Statement, u32> {
    match read_placed(text) {
        Ok((statement, _)) => Ok(statement),
        Err(verdict) => Err(verdict.reason),
    }
}

/// Reads one statement, and where its operands stand. The column of a refusal
/// counts from 1 at the first byte of the text.
pub fn read_placed(text: &[u8]) -> Result<(Statement, Vec<Part>), Verdict> {
    let mut cursor = Cursor { text, at: 0, parts: Vec::new(), out_of_range: None };
    let Some(statement) = read_form(&mut cursor) else {
        return Err(Verdict { reason: NO_FORM, column: cursor.at + 1, operand: None });
    };
    if text.len() > LONGEST_STATEMENT {
        return Err(Verdict { reason: NO_FORM, column: text.len() + 1, operand: None });
    }
    if let Some(operand) = cursor.out_of_range {
        let column = cursor.parts[operand].number + 1;
        return Err(Verdict { reason: OUT_OF_RANGE, column, operand: Some(operand) });
    }
    Ok((statement, cursor.parts))
}

/// The whole text, whatever its length and the size of its numbers.
fn read_form(c: &mut Cursor) -> Option<Statement> {
    let end = c.text.iter().position(|&byte| !is_opcode_byte(byte)).unwrap_or(c.text.len());
    let opcode = read_opcode(&c.text[..end])?;
    c.at = end;
    let statement = read_operands(c, opcode)?;
    c.end()?;
    Some(statement)
}

fn is_opcode_byte(byte: u8) -> bool {
    byte.is_ascii_alphanumeric() || matches!(byte, b'_' | b'.' | b':')
}

/// What the opcode alone tells.
enum Opcode {
    Mov { wide: bool },
    Alloc,
    Dealloc,
    Relinquish,
    Ld { shape: Shape, num: u32 },
    St { shape: Shape, num: u32 },
    WaitLd,
    WaitSt,
    FenceBefore,
    FenceAfter,
    Mma { ws: bool, sp: bool, kind: Kind },
    Exit,
}

fn read_opcode(word: &[u8]) -> Option<Opcode> {
    match word {
        b"mov.b32" => Some(Opcode::Mov { wide: false }),
        b"mov.b64" => Some(Opcode::Mov { wide: true }),
        b"tcgen05.alloc.cta_group::1.sync.aligned.b32" => Some(Opcode::Alloc),
        b"tcgen05.alloc.cta_group::1.sync.aligned.shared::cta.b32" => Some(Opcode::Alloc),
        b"tcgen05.dealloc.cta_group::1.sync.aligned.b32" => Some(Opcode::Dealloc),
        b"tcgen05.relinquish_alloc_permit.cta_group::1.sync.aligned" => Some(Opcode::Relinquish),
        b"tcgen05.wait::ld.sync.aligned" => Some(Opcode::WaitLd),
        b"tcgen05.wait::st.sync.aligned" => Some(Opcode::WaitSt),
        b"tcgen05.fence::before_thread_sync" => Some(Opcode::FenceBefore),
        b"tcgen05.fence::after_thread_sync" => Some(Opcode::FenceAfter),
        b"exit" => Some(Opcode::Exit),
        _ => {
            if let Some(tail) = word.strip_prefix(b"tcgen05.ld.sync.aligned") {
                let (shape, num) = read_access(tail)?;
                Some(Opcode::Ld { shape, num })
            } else if let Some(tail) = word.strip_prefix(b"tcgen05.st.sync.aligned") {
                let (shape, num) = read_access(tail)?;
                Some(Opcode::St { shape, num })
            } else if let Some(tail) = word.strip_prefix(b"tcgen05.mma") {
                read_mma(tail)
            } else {
                None
            }
        }
    }
}

/// `.SHAPE.NUM.b32`
fn read_access(tail: &[u8]) -> Option<(Shape, u32)> {
    let tail = tail.strip_suffix(b".b32")?;
    if let Some(num) = tail.strip_prefix(b".32x32b") {
        Some((Shape::S32x32b, read_num(num)?))
    } else if let Some(num) = tail.strip_prefix(b".16x64b") {
        Some((Shape::S16x64b, read_num(num)?))
    } else if let Some(num) = tail.strip_prefix(b".16x128b") {
        Some((Shape::S16x128b, read_num(num)?))
    } else if let Some(num) = tail.strip_prefix(b".16x256b") {
        Some((Shape::S16x256b, read_num(num)?))
    } else {
        None
    }
}

fn read_num(num: &[u8]) -> Option<u32> {
    match num {
        b".x1" => Some(1),
        b".x2" => Some(2),
        b".x4" => Some(4),
        b".x8" => Some(8),
        b".x16" => Some(16),
        b".x32" => Some(32),
        b".x64" => Some(64),
        b".x128" => Some(128),
        _ => None,
    }
}

/// `{.ws}{.sp}.cta_group::1.kind::KIND`
fn read_mma(tail: &[u8]) -> Option<Opcode> {
    let (ws, tail) = read_flag(tail, b".ws");
    let (sp, tail) = read_flag(tail, b".sp");
    let kind = match tail.strip_prefix(b".cta_group::1.kind::")? {
        b"f16" => Kind::F16,
        b"tf32" => Kind::Tf32,
        b"f8f6f4" => Kind::F8f6f4,
        b"i8" => Kind::I8,
        _ => return None,
    };
    Some(Opcode::Mma { ws, sp, kind })
}

/// Is the flag there, and what follows?
fn read_flag<'a>(tail: &'a [u8], flag: &[u8]) -> (bool, &'a [u8]) {
    match tail.strip_prefix(flag) {
        Some(rest) => (true, rest),
        None => (false, tail),
    }
}

fn read_operands(c: &mut Cursor, opcode: Opcode) -> Option<Statement> {
    match opcode {
        Opcode::Mov { wide } => {
            c.part()?;
            let name = c.name()?;
            c.part()?;
            let value = if wide { c.number64()? } else { u64::from(c.number32()?) };
            Some(Statement::Mov { wide, name, value })
        }
        Opcode::Alloc => {
            c.part()?;
            let name = c.bracketed_name()?;
            c.mark(b']')?;
            c.part()?;
            let columns = c.number32()?;
            Some(Statement::Alloc { name, columns })
        }
        Opcode::Dealloc => {
            c.part()?;
            let name = c.name()?;
            c.part()?;
            let columns = c.number32()?;
            Some(Statement::Dealloc { name, columns })
        }
        Opcode::Ld { shape, num } => {
            c.part()?;
            let registers = c.list(registers(shape, num))?;
            c.part()?;
            let address = c.address()?;
            Some(Statement::Ld { shape, num, address, registers })
        }
        Opcode::St { shape, num } => {
            c.part()?;
            let address = c.address()?;
            c.part()?;
            let registers = c.list(registers(shape, num))?;
            Some(Statement::St { shape, num, address, registers })
        }
        Opcode::Mma { ws, sp, kind } => {
            c.part()?;
            let d = c.address()?;
            c.part()?;
            let a = c.operand()?;
            c.part()?;
            let b = c.name()?;
            let meta = if sp {
                c.part()?;
                Some(c.address()?)
            } else {
                None
            };
            c.part()?;
            let idesc = c.name()?;
            c.part()?;
            let predicate = c.name()?;
            Some(Statement::Mma { ws, sp, kind, d, a, b, meta, idesc, predicate })
        }
        Opcode::Relinquish => Some(Statement::Relinquish),
        Opcode::WaitLd => Some(Statement::WaitLd),
        Opcode::WaitSt => Some(Statement::WaitSt),
        Opcode::FenceBefore => Some(Statement::FenceBefore),
        Opcode::FenceAfter => Some(Statement::FenceAfter),
        Opcode::Exit => Some(Statement::Exit),
    }
}

/// A place in the text, and what was noted on the way there.
struct Cursor<'a> {
    text: &'a [u8],
    at: usize,
    /// The operands so far, the one that is being read last.
    parts: Vec<Part>,
    /// The first operand with a number out of range.
    out_of_range: Option<usize>,
}

impl<'a> Cursor<'a> {
    /// The next byte that is no space.
    fn peek(&mut self) -> Option<u8> {
        while self.text.get(self.at) == Some(&b' ') {
            self.at += 1;
        }
        self.text.get(self.at).copied()
    }

    /// Goes to the next operand, past the comma before it if it is not the first.
    fn part(&mut self) -> Option<()> {
        if !self.parts.is_empty() {
            self.mark(b',')?;
        }
        self.peek();
        self.parts.push(Part { start: self.at, name: self.at, number: self.at });
        Some(())
    }

    /// Takes one punctuation mark.
    fn mark(&mut self, mark: u8) -> Option<()> {
        if self.peek() == Some(mark) {
            self.at += 1;
            Some(())
        } else {
            None
        }
    }

    /// Takes the closing `;`. Nothing may follow it.
    fn end(&mut self) -> Option<()> {
        self.mark(b';')?;
        if self.at == self.text.len() {
            Some(())
        } else {
            None
        }
    }

    /// Takes the longest run of name bytes, with a `%` before it if there is
    /// one. Empty if there is no such run.
    fn word(&mut self) -> &'a [u8] {
        let first = self.peek();
        let start = self.at;
        if first == Some(b'%') {
            self.at += 1;
        }
        while self.at < self.text.len() && is_name_byte(self.text[self.at]) {
            self.at += 1;
        }
        &self.text[start..self.at]
    }

    fn name(&mut self) -> Option<Name> {
        let word = self.word();
        if is_proper(word) {
            Name::new(word)
        } else {
            self.at -= word.len();
            None
        }
    }

    /// A number, or an expression in its place, from 0 up to the limit; for another
    /// value, which is noted, 0.
    fn number(&mut self, limit: u64) -> Option<u64> {
        self.peek();
        let operand = self.parts.len() - 1;
        self.parts[operand].number = self.at;
        let value = self.expression()?.value();
        if value.is_none_or(|value| value > limit) {
            self.out_of_range.get_or_insert(operand);
            return Some(0);
        }
        value
    }

    /// The longest expression.
    fn expression(&mut self) -> Option<Expression> {
        let mut expression = Expression::default();
        loop {
            self.operand_of(&mut expression)?;
            let operator = match self.peek() {
                Some(b'+') => Operator::Plus,
                Some(b'-') => Operator::Minus,
                Some(b'*') => Operator::Times,
                _ => return expression.is_whole().then_some(expression),
            };
            self.at += 1;
            expression.operator(operator);
        }
    }

    /// A number with what is opened right before it and closed right behind it.
    fn operand_of(&mut self, expression: &mut Expression) -> Option<()> {
        loop {
            match self.peek() {
                Some(b'(') => expression.open_parenthesis()?,
                Some(b'-') => expression.open_minus()?,
                _ => break,
            }
            self.at += 1;
        }
        expression.number(self.number_token()?);
        while self.peek() == Some(b')') && expression.close().is_some() {
            self.at += 1;
        }
        Some(())
    }

    fn number_token(&mut self) -> Option<Number> {
        let word = self.word();
        let number = read_number(word);
        if number.is_none() {
            self.at -= word.len();
        }
        number
    }

    fn number64(&mut self) -> Option<u64> {
        self.number(u64::MAX)
    }

    fn number32(&mut self) -> Option<u32> {
        let value = self.number(u64::from(u32::MAX))?;
        Some(value as u32)
    }

    /// `[`, and the name behind it, which is noted.
    fn bracketed_name(&mut self) -> Option<Name> {
        self.mark(b'[')?;
        self.peek();
        let operand = self.parts.len() - 1;
        self.parts[operand].name = self.at;
        self.name()
    }

    /// `[name]` or `[name+expression]`
    fn address(&mut self) -> Option<Address> {
        let name = self.bracketed_name()?;
        let offset = if self.mark(b'+').is_some() { self.number32()? } else { 0 };
        self.mark(b']')?;
        Some(Address { name, offset })
    }

    fn operand(&mut self) -> Option<Operand> {
        if self.peek() == Some(b'[') {
            Some(Operand::Address(self.address()?))
        } else {
            Some(Operand::Descriptor(self.name()?))
        }
    }

    /// 1 to 128 names in braces. `expected` only serves to set space aside.
    fn list(&mut self, expected: u32) -> Option<Vec<Name>> {
        self.mark(b'{')?;
        let mut names = Vec::with_capacity(LONGEST_LIST.min(expected as usize));
        loop {
            names.push(self.name()?);
            if names.len() == LONGEST_LIST || self.mark(b',').is_none() {
                self.mark(b'}')?;
                return Some(names);
            }
        }
    }
}

/// The number that the whole word spells, if it spells one. What stands before the
/// digits tells the base: `0x` 16, `0b` 2, a zero 8, nothing 10. One capital `U`
/// may end any number.
fn read_number(word: &[u8]) -> Option<Number> {
    // no base has U as a digit
    let word = word.strip_suffix(b"U").unwrap_or(word);
    match word {
        [b'0', b'x' | b'X', digits @ ..] => read_digits::<16>(digits),
        [b'0', b'b' | b'B', digits @ ..] => read_digits::<2>(digits),
        // the zero is a digit itself, so that 0 alone is a number
        [b'0', ..] => read_digits::<8>(word),
        _ => read_digits::<10>(word),
    }
}

/// At least one digit, and nothing else.
fn read_digits<const BASE: u32>(digits: &[u8]) -> Option<Number> {
    if digits.is_empty() {
        return None;
    }
    let mut value = 0u64;
    let mut fits = true;
    for &byte in digits {
        let digit = char::from(byte).to_digit(BASE)?;
        let (product, over) = value.overflowing_mul(u64::from(BASE));
        let (sum, carry) = product.overflowing_add(u64::from(digit));
        value = sum;
        fits &= !over && !carry;
    }
    Some(if fits { Number::Fits(value) } else { Number::TooLarge })
}
