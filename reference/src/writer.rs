//! Writing one statement in its canonical form.

use crate::descriptor::Kind;
use crate::name::Name;
use crate::statement::{Address, Operand, Shape, Statement, LONGEST_LIST, NOT_WRITTEN};

/// Writes the statement at the front of the room and answers its length.
/// `Err(19)`, with the room untouched, when the room is too short or when no text
/// reads as this statement.
pub fn write(s: &Statement, room: &mut [u8]) -> Result<usize, u32> {
    if !is_readable(s) {
        return Err(NOT_WRITTEN);
    }
    let mut length = Length(0);
    spell(s, &mut length);
    if length.0 > room.len() {
        return Err(NOT_WRITTEN);
    }
    let mut out = Room { room, at: 0 };
    spell(s, &mut out);
    Ok(out.at)
}

/// Could reading give this statement?
fn is_readable(s: &Statement) -> bool {
    match s {
        Statement::Mov { wide, name, value } => name.is_proper() && (*wide || *value <= u64::from(u32::MAX)),
        Statement::Alloc { name, .. } | Statement::Dealloc { name, .. } => name.is_proper(),
        Statement::Ld { num, address, registers, .. } | Statement::St { num, address, registers, .. } => {
            matches!(num, 1 | 2 | 4 | 8 | 16 | 32 | 64 | 128)
                && address.name.is_proper()
                && (1..=LONGEST_LIST).contains(&registers.len())
                && registers.iter().all(Name::is_proper)
        }
        Statement::Mma { sp, d, a, b, meta, idesc, predicate, .. } => {
            let good_a = match a {
                Operand::Descriptor(name) => name.is_proper(),
                Operand::Address(address) => address.name.is_proper(),
            };
            let good_meta = match meta {
                Some(address) => *sp && address.name.is_proper(),
                None => !*sp,
            };
            d.name.is_proper() && good_a && b.is_proper() && good_meta && idesc.is_proper() && predicate.is_proper()
        }
        Statement::Relinquish
        | Statement::WaitLd
        | Statement::WaitSt
        | Statement::FenceBefore
        | Statement::FenceAfter
        | Statement::Exit => true,
    }
}

/// Takes the text piece by piece.
trait Sink {
    fn put(&mut self, piece: &[u8]);
}

/// Only counts.
struct Length(usize);

impl Sink for Length {
    fn put(&mut self, piece: &[u8]) {
        self.0 += piece.len();
    }
}

/// Fills the room from the front.
struct Room<'a> {
    room: &'a mut [u8],
    at: usize,
}

impl Sink for Room<'_> {
    fn put(&mut self, piece: &[u8]) {
        let end = self.at + piece.len();
        self.room[self.at..end].copy_from_slice(piece);
        self.at = end;
    }
}

fn spell(s: &Statement, out: &mut impl Sink) {
    match s {
        Statement::Mov { wide, name, value } => {
            out.put(if *wide { b"mov.b64 " } else { b"mov.b32 " });
            out.put(name.as_bytes());
            out.put(b", ");
            spell_number(*value, out);
        }
        Statement::Alloc { name, columns } => {
            out.put(b"tcgen05.alloc.cta_group::1.sync.aligned.b32 [");
            out.put(name.as_bytes());
            out.put(b"], ");
            spell_number(u64::from(*columns), out);
        }
        Statement::Dealloc { name, columns } => {
            out.put(b"tcgen05.dealloc.cta_group::1.sync.aligned.b32 ");
            out.put(name.as_bytes());
            out.put(b", ");
            spell_number(u64::from(*columns), out);
        }
        Statement::Relinquish => {
            out.put(b"tcgen05.relinquish_alloc_permit.cta_group::1.sync.aligned");
        }
        Statement::Ld { shape, num, address, registers } => {
            out.put(b"tcgen05.ld.sync.aligned");
            spell_access(*shape, *num, out);
            out.put(b" ");
            spell_list(registers, out);
            out.put(b", ");
            spell_address(address, out);
        }
        Statement::St { shape, num, address, registers } => {
            out.put(b"tcgen05.st.sync.aligned");
            spell_access(*shape, *num, out);
            out.put(b" ");
            spell_address(address, out);
            out.put(b", ");
            spell_list(registers, out);
        }
        Statement::WaitLd => out.put(b"tcgen05.wait::ld.sync.aligned"),
        Statement::WaitSt => out.put(b"tcgen05.wait::st.sync.aligned"),
        Statement::FenceBefore => out.put(b"tcgen05.fence::before_thread_sync"),
        Statement::FenceAfter => out.put(b"tcgen05.fence::after_thread_sync"),
        Statement::Mma { ws, sp, kind, d, a, b, meta, idesc, predicate } => {
            out.put(b"tcgen05.mma");
            if *ws {
                out.put(b".ws");
            }
            if *sp {
                out.put(b".sp");
            }
            out.put(b".cta_group::1.kind::");
            out.put(match kind {
                Kind::F16 => b"f16",
                Kind::Tf32 => b"tf32",
                Kind::F8f6f4 => b"f8f6f4",
                Kind::I8 => b"i8",
            });
            out.put(b" ");
            spell_address(d, out);
            out.put(b", ");
            match a {
                Operand::Descriptor(name) => out.put(name.as_bytes()),
                Operand::Address(address) => spell_address(address, out),
            }
            out.put(b", ");
            out.put(b.as_bytes());
            out.put(b", ");
            if let Some(address) = meta {
                spell_address(address, out);
                out.put(b", ");
            }
            out.put(idesc.as_bytes());
            out.put(b", ");
            out.put(predicate.as_bytes());
        }
        Statement::Exit => out.put(b"exit"),
    }
    out.put(b";");
}

/// `.SHAPE.NUM.b32`
fn spell_access(shape: Shape, num: u32, out: &mut impl Sink) {
    out.put(match shape {
        Shape::S32x32b => b".32x32b.x",
        Shape::S16x64b => b".16x64b.x",
        Shape::S16x128b => b".16x128b.x",
        Shape::S16x256b => b".16x256b.x",
    });
    spell_number(u64::from(num), out);
    out.put(b".b32");
}

/// An offset of 0 is left out.
fn spell_address(address: &Address, out: &mut impl Sink) {
    out.put(b"[");
    out.put(address.name.as_bytes());
    if address.offset != 0 {
        out.put(b"+");
        spell_number(u64::from(address.offset), out);
    }
    out.put(b"]");
}

fn spell_list(names: &[Name], out: &mut impl Sink) {
    out.put(b"{");
    for (place, name) in names.iter().enumerate() {
        if place != 0 {
            out.put(b", ");
        }
        out.put(name.as_bytes());
    }
    out.put(b"}");
}

/// In decimal. 20 digits are enough for 64 bits.
fn spell_number(value: u64, out: &mut impl Sink) {
    let mut digits = [0; 20];
    let mut start = digits.len();
    let mut rest = value;
    loop {
        start -= 1;
        digits[start] = b'0' + (rest % 10) as u8;
        rest /= 10;
        if rest == 0 {
            break;
        }
    }
    out.put(&digits[start..]);
}
