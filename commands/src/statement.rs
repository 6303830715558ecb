//! A statement that the library reads, taken apart. The library writes the canonical text, which has one spelling for each thing;
//! this only cuts that text at its spaces and commas.

use crate::rules::kind_of;
use staplehorn::{canonical, Opcode};

/// What a statement is.
#[derive(Clone, PartialEq, Eq, Debug)]
pub enum Statement {
    Mov {
        width: u32,
        name: String,
        number: u64,
    },
    Alloc {
        name: String,
        columns: u32,
    },
    Dealloc {
        name: String,
        columns: u32,
    },
    Relinquish,
    /// A load or a store.
    Access {
        store: bool,
        shape: &'static Shape,
        num: u32,
        registers: usize,
        address: Address,
    },
    Mma(Mma),
    /// For the loads of its warp, or for its stores.
    Wait {
        store: bool,
    },
    Fence,
    Exit,
}

#[derive(Clone, PartialEq, Eq, Debug)]
pub struct Mma {
    pub opcode: Opcode,
    pub d: Address,
    pub a: Operand,
    pub b: String,
    pub metadata: Option<Address>,
    pub idesc: String,
}

#[derive(Clone, PartialEq, Eq, Debug)]
pub enum Operand {
    Descriptor(String),
    Address(Address),
}

/// An address: a name and an offset.
#[derive(Clone, PartialEq, Eq, Debug)]
pub struct Address {
    pub name: String,
    pub offset: u32,
}

impl Address {
    pub fn lane(&self) -> u32 {
        self.offset >> 16
    }

    pub fn column(&self) -> u32 {
        self.offset & 0xFFFF
    }
}

/// A shape of ld and st: registers, lanes and columns at x1, and the largest N.
#[derive(PartialEq, Eq, Debug)]
pub struct Shape {
    pub name: &'static str,
    pub registers: u32,
    pub lanes: u32,
    pub columns: u32,
    pub largest: u32,
}

pub const SHAPES: [Shape; 4] = [
    Shape { name: "32x32b", registers: 1, lanes: 32, columns: 1, largest: 128 },
    Shape { name: "16x64b", registers: 1, lanes: 16, columns: 2, largest: 128 },
    Shape { name: "16x128b", registers: 2, lanes: 16, columns: 4, largest: 64 },
    Shape { name: "16x256b", registers: 4, lanes: 16, columns: 8, largest: 32 },
];

/// Columns of Tensor Memory.
pub const MEMORY: u32 = 512;

/// Columns of an mma's a and metadata.
pub const A_COLUMNS: u32 = 8;
pub const METADATA_COLUMNS: u32 = 2;

/// The opcode of a text: its longest run of letters, digits, `_`, `.` and `:`.
pub fn opcode(text: &[u8]) -> &[u8] {
    let length = text.iter().take_while(|b| b.is_ascii_alphanumeric() || b"_.:".contains(b)).count();
    &text[..length]
}

/// The operands of a statement that reads, as places in its text: what stands between commas outside braces, without spaces around it.
pub fn operands(text: &[u8]) -> Vec<(usize, usize)> {
    let mut found = Vec::new();
    let (mut from, mut depth) = (opcode(text).len(), 0);
    for (i, b) in text.iter().enumerate().skip(from) {
        match b {
            b'{' => depth += 1,
            b'}' => depth -= 1,
            b',' | b';' if depth == 0 => {
                let trimmed = text[from..i].trim_ascii();
                let lead = text[from..i].len() - text[from..i].trim_ascii_start().len();
                if !trimmed.is_empty() {
                    found.push((from + lead, from + lead + trimmed.len()));
                }
                from = i + 1;
            }
            _ => {}
        }
    }
    found
}

/// The statement of a text; none if the library does not read it.
pub fn read(text: &[u8]) -> Option<Statement> {
    let written = String::from_utf8(canonical(text).ok()?).ok()?;
    let (head, rest) = written.strip_suffix(';')?.split_once(' ').unwrap_or((written.strip_suffix(';')?, ""));
    let places = operands(written.as_bytes());
    let parts: Vec<&str> = places.iter().map(|&(from, to)| &written[from..to]).collect();
    match (head, &parts[..]) {
        ("mov.b32" | "mov.b64", [name, number]) => {
            Some(Statement::Mov { width: head[5..].parse().ok()?, name: (*name).into(), number: number.parse().ok()? })
        }
        ("exit", []) => Some(Statement::Exit),
        _ => tcgen05(head.strip_prefix("tcgen05.")?, &parts, rest),
    }
}

fn tcgen05(head: &str, parts: &[&str], rest: &str) -> Option<Statement> {
    let (first, tail) = head.split_once('.').unwrap_or((head, ""));
    match (first, parts) {
        ("alloc", [name, columns]) => Some(Statement::Alloc { name: address(name)?.name, columns: columns.parse().ok()? }),
        ("dealloc", [name, columns]) => Some(Statement::Dealloc { name: (*name).into(), columns: columns.parse().ok()? }),
        ("relinquish_alloc_permit", []) => Some(Statement::Relinquish),
        ("ld" | "st", [one, other]) => {
            let store = first == "st";
            let mut words = tail.strip_prefix("sync.aligned.")?.split('.');
            let shape = SHAPES.iter().find(|shape| Some(shape.name) == words.clone().next())?;
            let num = words.nth(1)?.strip_prefix('x')?.parse().ok()?;
            let at = if store { one } else { other };
            // the registers stand in the one pair of braces
            let list = &rest[rest.find('{')?..rest.find('}')?];
            Some(Statement::Access { store, shape, num, registers: list.split(',').count(), address: address(at)? })
        }
        ("mma", [d, a, b, others @ ..]) => {
            let (words, kind) = tail.rsplit_once("kind::")?;
            let has = |word: &str| words.split('.').any(|w| w == word);
            let opcode = Opcode { kind: kind_of(kind)?, ws: has("ws"), sp: has("sp") };
            let (metadata, idesc) = match others {
                [meta, idesc, _] => (Some(address(meta)?), idesc),
                [idesc, _] => (None, idesc),
                _ => return None,
            };
            let a = address(a).map_or_else(|| Operand::Descriptor((*a).into()), Operand::Address);
            Some(Statement::Mma(Mma { opcode, d: address(d)?, a, b: (*b).into(), metadata, idesc: (*idesc).into() }))
        }
        ("wait::ld" | "wait::st", []) => Some(Statement::Wait { store: first == "wait::st" }),
        ("fence::before_thread_sync" | "fence::after_thread_sync", []) => Some(Statement::Fence),
        _ => None,
    }
}

fn address(text: &str) -> Option<Address> {
    let inner = text.strip_prefix('[')?.strip_suffix(']')?;
    let (name, offset) = inner.split_once('+').unwrap_or((inner, "0"));
    Some(Address { name: name.into(), offset: offset.parse().ok()? })
}

#[cfg(test)]
mod tests {
    use super::*;
    use staplehorn::Kind;

    fn at(name: &str, offset: u32) -> Address {
        Address { name: name.into(), offset }
    }

    #[test]
    fn statements() {
        let read = |text: &str| read(text.as_bytes());
        assert_eq!(read("mov.b64  x ,0x10U;"), Some(Statement::Mov { width: 64, name: "x".into(), number: 16 }));
        assert_eq!(
            read("tcgen05.alloc.cta_group::1.sync.aligned.shared::cta.b32 [ t ], 040;"),
            Some(Statement::Alloc { name: "t".into(), columns: 32 })
        );
        assert_eq!(
            read("tcgen05.dealloc.cta_group::1.sync.aligned.b32 t, 64;"),
            Some(Statement::Dealloc { name: "t".into(), columns: 64 })
        );
        assert_eq!(
            read("tcgen05.ld.sync.aligned.16x128b.x2.b32 {a, b,c,d}, [t + 0x10003];"),
            Some(Statement::Access { store: false, shape: &SHAPES[2], num: 2, registers: 4, address: at("t", 0x10003) })
        );
        assert_eq!(
            read("tcgen05.st.sync.aligned.32x32b.x1.b32 [t], {a};"),
            Some(Statement::Access { store: true, shape: &SHAPES[0], num: 1, registers: 1, address: at("t", 0) })
        );
        let mma = Mma {
            opcode: Opcode { kind: Kind::I8, ws: true, sp: true },
            d: at("d", 0),
            a: Operand::Address(at("t", 8)),
            b: "b".into(),
            metadata: Some(at("m", 2)),
            idesc: "i".into(),
        };
        assert_eq!(read("tcgen05.mma.ws.sp.cta_group::1.kind::i8 [d], [t+8], b, [m+2], i, p;"), Some(Statement::Mma(mma.clone())));
        let dense =
            Mma { opcode: Opcode { kind: Kind::F16, ws: false, sp: false }, a: Operand::Descriptor("a".into()), metadata: None, ..mma };
        assert_eq!(read("tcgen05.mma.cta_group::1.kind::f16 [d], a, b, i, p;"), Some(Statement::Mma(dense)));
        assert_eq!(read("exit;"), Some(Statement::Exit));
        assert_eq!(read("tcgen05.wait::ld.sync.aligned;"), Some(Statement::Wait { store: false }));
        assert_eq!(read("tcgen05.wait::st.sync.aligned ;"), Some(Statement::Wait { store: true }));
        assert_eq!(read("tcgen05.fence::before_thread_sync;"), Some(Statement::Fence));
        assert_eq!(read("tcgen05.fence::after_thread_sync;"), Some(Statement::Fence));
        assert_eq!(read("tcgen05.relinquish_alloc_permit.cta_group::1.sync.aligned;"), Some(Statement::Relinquish));
        assert_eq!(read("exit"), None);
    }

    #[test]
    fn lanes_and_columns() {
        let address = at("t", 0x0071_F003);
        assert_eq!((address.lane(), address.column()), (0x71, 0xF003));
    }

    #[test]
    fn places_of_operands() {
        let text = b"tcgen05.ld.sync.aligned.32x32b.x2.b32 { a , b} ,  [ t + 1 ] ;";
        let found: Vec<_> = operands(text).into_iter().map(|(from, to)| &text[from..to]).collect();
        assert_eq!(found, [&b"{ a , b}"[..], b"[ t + 1 ]"]);
        assert!(operands(b"exit;").is_empty());
    }
}
