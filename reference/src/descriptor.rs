//! Instruction descriptors (32 bits), shared memory descriptors (64 bits) and
//! the rule on column requests.

/// A column request that is not legal.
pub const BAD_REQUEST: u32 = 9;
/// A word without a reading, or fields that cannot be encoded.
pub const NO_READING: u32 = 12;
/// A word that reads, but whose M is not in the lists.
pub const NOT_LISTED: u32 = 13;
/// Its M is, but its N is not.
pub const N_NOT_LISTED: u32 = 20;
/// Its M and N are, but its types are not.
pub const TYPES_NOT_LISTED: u32 = 21;

/// The kinds of mma, in the order in which the rules list them.
#[derive(Clone, Copy, PartialEq, Eq, Debug)]
pub enum Kind {
    F16,
    Tf32,
    F8f6f4,
    I8,
}

impl Kind {
    pub const ALL: [Kind; 4] = [Kind::F16, Kind::Tf32, Kind::F8f6f4, Kind::I8];

    /// 0 is f16, 1 tf32, 2 f8f6f4, 3 i8.
    pub fn from_number(n: u32) -> Option<Kind> {
        match n {
            0 => Some(Kind::F16),
            1 => Some(Kind::Tf32),
            2 => Some(Kind::F8f6f4),
            3 => Some(Kind::I8),
            _ => None,
        }
    }

    /// The inverse of `from_number`.
    pub fn number(self) -> u32 {
        match self {
            Kind::F16 => 0,
            Kind::Tf32 => 1,
            Kind::F8f6f4 => 2,
            Kind::I8 => 3,
        }
    }
}

// Codes of the result type.
const DTYPE_F16: u32 = 0;
const DTYPE_F32: u32 = 1;
const DTYPE_S32: u32 = 2;

// Code of the element type f16 in kind f16.
const TYPE_F16: u32 = 0;

/// The fields of an instruction descriptor, from bit 0 up.
///
/// `n` and `m` are the real sizes, not the stored quotients. The three types
/// are codes. Flags are 0 or 1.
#[derive(Clone, Copy, PartialEq, Eq, Debug, Default)]
pub struct Instruction {
    pub selector: u32,
    pub sparse: u32,
    pub saturate: u32,
    pub dtype: u32,
    pub atype: u32,
    pub btype: u32,
    pub negate_a: u32,
    pub negate_b: u32,
    pub transpose_a: u32,
    pub transpose_b: u32,
    pub n: u32,
    pub m: u32,
    pub max_shift: u32,
}

impl Instruction {
    pub fn to_array(&self) -> [u32; 13] {
        [
            self.selector,
            self.sparse,
            self.saturate,
            self.dtype,
            self.atype,
            self.btype,
            self.negate_a,
            self.negate_b,
            self.transpose_a,
            self.transpose_b,
            self.n,
            self.m,
            self.max_shift,
        ]
    }

    pub fn from_array(a: [u32; 13]) -> Self {
        Instruction {
            selector: a[0],
            sparse: a[1],
            saturate: a[2],
            dtype: a[3],
            atype: a[4],
            btype: a[5],
            negate_a: a[6],
            negate_b: a[7],
            transpose_a: a[8],
            transpose_b: a[9],
            n: a[10],
            m: a[11],
            max_shift: a[12],
        }
    }
}

/// `width` bits of `word` from bit `low` up.
fn bits32(word: u32, low: u32, width: u32) -> u32 {
    (word >> low) & ((1 << width) - 1)
}

/// Is the code one of an element type of this kind?
fn is_type_of(kind: Kind, code: u32) -> bool {
    match kind {
        // f16, bf16
        Kind::F16 => matches!(code, 0 | 1),
        Kind::Tf32 => code == 2,
        // e4m3, e5m2, e2m3, e3m2, e2m1
        Kind::F8f6f4 => matches!(code, 0 | 1 | 3 | 4 | 5),
        // u8, s8
        Kind::I8 => matches!(code, 0 | 1),
    }
}

/// Do the fields make sense together under this opcode? The width of each
/// field is not looked at here.
fn suits_opcode(kind: Kind, ws: bool, sp: bool, d: &Instruction) -> bool {
    let known_dtype = matches!(d.dtype, DTYPE_F16 | DTYPE_F32 | DTYPE_S32);
    let known_types = is_type_of(kind, d.atype) && is_type_of(kind, d.btype);
    let sparse_with_sp = d.sparse == u32::from(sp);
    let selector_only_sparse = d.sparse == 1 || d.selector == 0;
    let saturate_only_i8 = d.saturate == 0 || kind == Kind::I8;
    let negate_not_i8 = (d.negate_a == 0 && d.negate_b == 0) || kind != Kind::I8;
    let shift_only_ws = d.max_shift == 0 || ws;
    known_dtype && known_types && sparse_with_sp && selector_only_sparse && saturate_only_i8 && negate_not_i8 && shift_only_ws
}

/// Takes a word apart. `Err(12)` when it has no reading under the opcode.
pub fn decode_instruction(kind: Kind, ws: bool, sp: bool, word: u32) -> Result<Instruction, u32> {
    let unused = bits32(word, 6, 1) | bits32(word, 23, 1) | bits32(word, 29, 1);
    if unused != 0 {
        return Err(NO_READING);
    }
    let d = Instruction {
        selector: bits32(word, 0, 2),
        sparse: bits32(word, 2, 1),
        saturate: bits32(word, 3, 1),
        dtype: bits32(word, 4, 2),
        atype: bits32(word, 7, 3),
        btype: bits32(word, 10, 3),
        negate_a: bits32(word, 13, 1),
        negate_b: bits32(word, 14, 1),
        transpose_a: bits32(word, 15, 1),
        transpose_b: bits32(word, 16, 1),
        n: bits32(word, 17, 6) * 8,
        m: bits32(word, 24, 5) * 16,
        max_shift: bits32(word, 30, 2),
    };
    if suits_opcode(kind, ws, sp, &d) {
        Ok(d)
    } else {
        Err(NO_READING)
    }
}

/// Puts a word together. `Err(12)` for fields that decoding could not give
/// under the same opcode.
pub fn encode_instruction(kind: Kind, ws: bool, sp: bool, d: &Instruction) -> Result<u32, u32> {
    let in_range = d.selector <= 3
        && d.sparse <= 1
        && d.saturate <= 1
        && d.dtype <= 3
        && d.atype <= 7
        && d.btype <= 7
        && d.negate_a <= 1
        && d.negate_b <= 1
        && d.transpose_a <= 1
        && d.transpose_b <= 1
        && d.n <= 504
        && d.n % 8 == 0
        && d.m <= 496
        && d.m % 16 == 0
        && d.max_shift <= 3;
    if !in_range || !suits_opcode(kind, ws, sp, d) {
        return Err(NO_READING);
    }
    Ok(d.selector
        | (d.sparse << 2)
        | (d.saturate << 3)
        | (d.dtype << 4)
        | (d.atype << 7)
        | (d.btype << 10)
        | (d.negate_a << 13)
        | (d.negate_b << 14)
        | (d.transpose_a << 15)
        | (d.transpose_b << 16)
        | ((d.n / 8) << 17)
        | ((d.m / 16) << 24)
        | (d.max_shift << 30))
}

fn is_m_listed(ws: bool, m: u32) -> bool {
    match m {
        64 | 128 => true,
        32 => ws,
        _ => false,
    }
}

// What the opcode says, as the table of shapes names it.
const NO_WS: bool = false;
const WS: bool = true;
const DENSE: bool = false;
const SPARSE: bool = true;

/// 8, 16, 24 and so on to 256.
fn is_in_steps_of_8(n: u32) -> bool {
    (8..=256).contains(&n) && n % 8 == 0
}

/// 8, 16, 24, 32, then 48, 64 and so on to 256.
fn is_in_steps_of_16_after_32(n: u32) -> bool {
    matches!(n, 8 | 16 | 24 | 32) || ((48..=256).contains(&n) && n % 16 == 0)
}

/// The rows of the table of shapes that are of these kinds and CTA group 1. Kinds
/// with the same N stand together; both they and the rows are in the table's order.
fn is_n_listed(kind: Kind, ws: bool, sp: bool, n: u32) -> bool {
    match (kind, ws, sp) {
        (Kind::F16 | Kind::Tf32 | Kind::F8f6f4, NO_WS, DENSE | SPARSE) => is_in_steps_of_8(n),
        (Kind::I8, NO_WS, DENSE | SPARSE) => is_in_steps_of_16_after_32(n),
        (Kind::F16 | Kind::Tf32 | Kind::F8f6f4 | Kind::I8, WS, DENSE) => matches!(n, 64 | 128 | 256),
        (Kind::F16 | Kind::Tf32 | Kind::F8f6f4 | Kind::I8, WS, SPARSE) => matches!(n, 64 | 128),
    }
}

/// Whether a code belongs to the kind at all is a matter of reading (12) and is
/// not asked again here.
fn are_types_listed(kind: Kind, d: &Instruction) -> bool {
    match kind {
        Kind::F16 => {
            let both_f16 = d.atype == TYPE_F16 && d.btype == TYPE_F16;
            let agree = d.atype == d.btype;
            agree && (d.dtype == DTYPE_F32 || (d.dtype == DTYPE_F16 && both_f16))
        }
        Kind::Tf32 => d.dtype == DTYPE_F32,
        Kind::F8f6f4 => d.dtype == DTYPE_F16 || d.dtype == DTYPE_F32,
        Kind::I8 => d.dtype == DTYPE_S32,
    }
}

/// The first of the listing tests that fails: 0 none, 1 M, 2 N, 3 types.
///
/// Sparsity is the opcode's and changes only the list of N with `.ws`.
pub fn listing(kind: Kind, ws: bool, sp: bool, d: &Instruction) -> u32 {
    if !is_m_listed(ws, d.m) {
        1
    } else if !is_n_listed(kind, ws, sp, d.n) {
        2
    } else if !are_types_listed(kind, d) {
        3
    } else {
        0
    }
}

/// 0 when shape and types are listed, else 13 for M, 20 for N, 21 for types.
pub fn listed(kind: Kind, ws: bool, sp: bool, d: &Instruction) -> u32 {
    match listing(kind, ws, sp, d) {
        0 => 0,
        1 => NOT_LISTED,
        2 => N_NOT_LISTED,
        _ => TYPES_NOT_LISTED,
    }
}

/// 12 when the word has no reading; 13, 20 or 21 when it reads but is not
/// listed; else 0.
pub fn judge_word(kind: Kind, ws: bool, sp: bool, word: u32) -> u32 {
    match decode_instruction(kind, ws, sp, word) {
        Ok(d) => listed(kind, ws, sp, &d),
        Err(reason) => reason,
    }
}

/// The K of one mma.
pub fn k(kind: Kind, sp: bool) -> u32 {
    let dense = match kind {
        Kind::F16 => 16,
        Kind::Tf32 => 8,
        Kind::F8f6f4 => 32,
        Kind::I8 => 32,
    };
    if sp {
        2 * dense
    } else {
        dense
    }
}

/// The fields of a shared memory descriptor. `start`, `leading` and `stride`
/// are in bytes.
#[derive(Clone, Copy, PartialEq, Eq, Debug, Default)]
pub struct Shared {
    pub start: u64,
    pub leading: u64,
    pub stride: u64,
    pub base: u64,
    pub mode: u64,
    pub swizzle: u64,
}

impl Shared {
    pub fn to_array(&self) -> [u64; 6] {
        [self.start, self.leading, self.stride, self.base, self.mode, self.swizzle]
    }

    pub fn from_array(a: [u64; 6]) -> Self {
        Shared { start: a[0], leading: a[1], stride: a[2], base: a[3], mode: a[4], swizzle: a[5] }
    }
}

/// `width` bits of `word` from bit `low` up.
fn bits64(word: u64, low: u32, width: u32) -> u64 {
    (word >> low) & ((1 << width) - 1)
}

/// Is the swizzle a known one, and does the base offset go with it?
fn suits_swizzle(d: &Shared) -> bool {
    matches!(d.swizzle, 0 | 1 | 2 | 4 | 6) && (d.swizzle != 0 || d.base == 0)
}

/// Takes a word apart. `Err(12)` when it has no reading.
pub fn decode_shared(word: u64) -> Result<Shared, u32> {
    let unused = bits64(word, 14, 2) | bits64(word, 30, 2) | bits64(word, 53, 8);
    let fixed = bits64(word, 46, 3);
    if unused != 0 || fixed != 1 {
        return Err(NO_READING);
    }
    let d = Shared {
        start: bits64(word, 0, 14) * 16,
        leading: bits64(word, 16, 14) * 16,
        stride: bits64(word, 32, 14) * 16,
        base: bits64(word, 49, 3),
        mode: bits64(word, 52, 1),
        swizzle: bits64(word, 61, 3),
    };
    if suits_swizzle(&d) {
        Ok(d)
    } else {
        Err(NO_READING)
    }
}

/// Can the address or offset be stored as a sixteenth in 14 bits?
fn is_storable(bytes: u64) -> bool {
    bytes <= 262_128 && bytes % 16 == 0
}

/// Puts a word together. `Err(12)` for fields that decoding could not give.
pub fn encode_shared(d: &Shared) -> Result<u64, u32> {
    let in_range = is_storable(d.start) && is_storable(d.leading) && is_storable(d.stride) && d.base <= 7 && d.mode <= 1;
    if !in_range || !suits_swizzle(d) {
        return Err(NO_READING);
    }
    Ok((d.start / 16)
        | ((d.leading / 16) << 16)
        | ((d.stride / 16) << 32)
        | (1 << 46)
        | (d.base << 49)
        | (d.mode << 52)
        | (d.swizzle << 61))
}

/// 0 when that many columns may be asked for, else 9.
pub fn request(columns: u32) -> u32 {
    if (32..=512).contains(&columns) && columns.is_power_of_two() {
        0
    } else {
        BAD_REQUEST
    }
}
