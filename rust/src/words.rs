//! Descriptor words and requests.

use crate::c;
use crate::Reason;

/// The kinds of an mma.
#[derive(Clone, Copy, PartialEq, Eq, Hash, Debug)]
pub enum Kind {
    F16,
    Tf32,
    F8f6f4,
    I8,
}

/// An mma's kind, with `.ws` and `.sp`.
#[derive(Clone, Copy, PartialEq, Eq, Hash, Debug)]
pub struct Opcode {
    pub kind: Kind,
    pub ws: bool,
    pub sp: bool,
}

/// The fields of an instruction descriptor, in the order of its bits. Types are codes; n and m are the real N and M.
#[derive(Clone, Copy, PartialEq, Eq, Hash, Debug, Default)]
pub struct InstructionFields {
    pub selector: u32,
    pub sparse: bool,
    pub saturate: bool,
    pub dtype: u32,
    pub atype: u32,
    pub btype: u32,
    pub negate_a: bool,
    pub negate_b: bool,
    pub transpose_a: bool,
    pub transpose_b: bool,
    pub n: u32,
    pub m: u32,
    pub max_shift: u32,
}

impl From<InstructionFields> for [u32; c::INSTRUCTION_FIELDS] {
    fn from(f: InstructionFields) -> Self {
        [
            f.selector,
            f.sparse.into(),
            f.saturate.into(),
            f.dtype,
            f.atype,
            f.btype,
            f.negate_a.into(),
            f.negate_b.into(),
            f.transpose_a.into(),
            f.transpose_b.into(),
            f.n,
            f.m,
            f.max_shift,
        ]
    }
}

impl From<[u32; c::INSTRUCTION_FIELDS]> for InstructionFields {
    fn from(f: [u32; c::INSTRUCTION_FIELDS]) -> Self {
        InstructionFields {
            selector: f[0],
            sparse: f[1] != 0,
            saturate: f[2] != 0,
            dtype: f[3],
            atype: f[4],
            btype: f[5],
            negate_a: f[6] != 0,
            negate_b: f[7] != 0,
            transpose_a: f[8] != 0,
            transpose_b: f[9] != 0,
            n: f[10],
            m: f[11],
            max_shift: f[12],
        }
    }
}

/// The fields of a shared memory descriptor. Start, leading offset and stride offset are in bytes.
#[derive(Clone, Copy, PartialEq, Eq, Hash, Debug, Default)]
pub struct SharedFields {
    pub start: u64,
    pub leading: u64,
    pub stride: u64,
    pub base: u64,
    pub mode: u64,
    pub swizzle: u64,
}

impl Opcode {
    /// What an instruction descriptor says, or `Descriptor`.
    pub fn decode(self, word: u32) -> Result<InstructionFields, Reason> {
        let (kind, ws, sp) = self.numbers();
        let mut fields = [0; c::INSTRUCTION_FIELDS];
        // SAFETY: the pointer is that of an array of the header's size.
        Reason::check(unsafe { c::staplehorn_instruction_decode(kind, ws, sp, word, &mut fields) })?;
        Ok(fields.into())
    }

    /// The word of an instruction descriptor's fields, or `Descriptor` if no word reads as them.
    pub fn encode(self, fields: InstructionFields) -> Result<u32, Reason> {
        let (kind, ws, sp) = self.numbers();
        let mut word = 0;
        // SAFETY: the pointers are those of an array of the header's size and of a local.
        Reason::check(unsafe { c::staplehorn_instruction_encode(kind, ws, sp, &fields.into(), &mut word) })?;
        Ok(word)
    }

    /// `Descriptor` if a word has no reading; else `ShapeM`, `ShapeN` or `Types`, the first that is not listed.
    pub fn judge(self, word: u32) -> Result<(), Reason> {
        let (kind, ws, sp) = self.numbers();
        // SAFETY: the function takes numbers alone.
        Reason::check(unsafe { c::staplehorn_instruction_judge(kind, ws, sp, word) })
    }

    /// The same of fields: `Descriptor` if they have no word.
    pub fn listed(self, fields: InstructionFields) -> Result<(), Reason> {
        let (kind, ws, sp) = self.numbers();
        // SAFETY: the pointer is that of an array of the header's size.
        Reason::check(unsafe { c::staplehorn_instruction_listed(kind, ws, sp, &fields.into()) })
    }

    /// K.
    pub fn k(self) -> u32 {
        let (kind, _, sp) = self.numbers();
        let mut k = 0;
        // SAFETY: the pointer is that of a local. A kind and a flag have a K, so nothing is refused.
        unsafe { c::staplehorn_instruction_k(kind, sp, &mut k) };
        k
    }

    fn numbers(self) -> (u32, u32, u32) {
        (self.kind as u32, self.ws.into(), self.sp.into())
    }
}

impl SharedFields {
    /// What a shared memory descriptor says, or `Descriptor`.
    pub fn decode(word: u64) -> Result<SharedFields, Reason> {
        let mut fields = [0; c::SHARED_FIELDS];
        // SAFETY: the pointer is that of an array of the header's size.
        Reason::check(unsafe { c::staplehorn_shared_decode(word, &mut fields) })?;
        let [start, leading, stride, base, mode, swizzle] = fields;
        Ok(SharedFields { start, leading, stride, base, mode, swizzle })
    }

    /// The word of a shared memory descriptor's fields, or `Descriptor` if no word reads as them.
    pub fn encode(self) -> Result<u64, Reason> {
        let fields = [self.start, self.leading, self.stride, self.base, self.mode, self.swizzle];
        let mut word = 0;
        // SAFETY: the pointers are those of an array of the header's size and of a local.
        Reason::check(unsafe { c::staplehorn_shared_encode(&fields, &mut word) })?;
        Ok(word)
    }
}

/// Whether a request for that many columns is legal, else `Columns`.
pub fn request(columns: u32) -> Result<(), Reason> {
    // SAFETY: the function takes a number alone.
    Reason::check(unsafe { c::staplehorn_request(columns) })
}
