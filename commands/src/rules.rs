//! Why a descriptor is refused, in words. The verdict is the library's; this says which rule is broken, with the value found. `tests/rules.rs`
//! holds both to each other.

use staplehorn::Kind::{self, F8f6f4, Tf32, F16, I8};
use staplehorn::{Opcode, Reason};
use std::fmt;

/// A field of a word: its bits, and how much one of its units stands for.
pub struct Field {
    pub name: &'static str,
    pub low: u32,
    pub high: u32,
    pub unit: u64,
}

const fn field(name: &'static str, low: u32, high: u32, unit: u64) -> Field {
    Field { name, low, high, unit }
}

/// The fields of an instruction descriptor, in the library's order.
pub const INSTRUCTION: [Field; 13] = [
    field("selector", 0, 1, 1),
    field("sparse", 2, 2, 1),
    field("saturate", 3, 3, 1),
    field("dtype", 4, 5, 1),
    field("atype", 7, 9, 1),
    field("btype", 10, 12, 1),
    field("negate_a", 13, 13, 1),
    field("negate_b", 14, 14, 1),
    field("transpose_a", 15, 15, 1),
    field("transpose_b", 16, 16, 1),
    field("n", 17, 22, 8),
    field("m", 24, 28, 16),
    field("max_shift", 30, 31, 1),
];

/// The fields of a shared memory descriptor, in the library's order. Bits 46 to 48 are no field: they hold 1.
pub const SHARED: [Field; 6] = [
    field("start", 0, 13, 16),
    field("leading", 16, 29, 16),
    field("stride", 32, 45, 16),
    field("base", 49, 51, 1),
    field("mode", 52, 52, 1),
    field("swizzle", 61, 63, 1),
];

pub const SELECTOR: usize = 0;
pub const SPARSE: usize = 1;
const SATURATE: usize = 2;
pub const DTYPE: usize = 3;
pub const ATYPE: usize = 4;
pub const BTYPE: usize = 5;
const NEGATE_A: usize = 6;
const NEGATE_B: usize = 7;
pub const N: usize = 10;
pub const M: usize = 11;
pub const MAX_SHIFT: usize = 12;
pub const BASE: usize = 3;
pub const MODE: usize = 4;
pub const SWIZZLE: usize = 5;

impl Field {
    pub fn mask(&self) -> u64 {
        (1 << (self.high - self.low + 1)) - 1
    }

    /// What a word has in the field's bits.
    pub fn of(&self, word: u64) -> u64 {
        (word >> self.low & self.mask()) * self.unit
    }

    /// The word with a value that fits in the field's bits.
    pub fn put(&self, word: u64, value: u64) -> u64 {
        word & !(self.mask() << self.low) | ((value / self.unit) & self.mask()) << self.low
    }

    /// Every value that the bits can hold.
    pub fn values(&self) -> impl Iterator<Item = u64> + '_ {
        (0..=self.mask()).map(|raw| raw * self.unit)
    }

    /// The value fits the bits.
    fn fits(&self, value: u64) -> bool {
        value % self.unit == 0 && value / self.unit <= self.mask()
    }

    pub fn bits(&self) -> String {
        if self.low == self.high {
            self.low.to_string()
        } else {
            format!("{}-{}", self.low, self.high)
        }
    }

    fn range(&self) -> String {
        match (self.mask() * self.unit, self.unit) {
            (1, _) => "0 or 1".into(),
            (most, 1) => format!("0 to {most}"),
            (most, unit) => format!("0 to {most} in steps of {unit}"),
        }
    }
}

/// The bits that are in no field.
pub fn rest(fields: &[Field], word: u64) -> u64 {
    fields.iter().fold(word, |left, f| left & !(f.mask() << f.low))
}

fn bits(mask: u64) -> String {
    let set: Vec<_> = (0..64).filter(|i| mask >> i & 1 == 1).map(|i: u32| i.to_string()).collect();
    set.join(", ")
}

/// The types of dtype and of a and b that a kind has: code and name.
pub const DTYPES: &[(u64, &str)] = &[(0, "f16"), (1, "f32"), (2, "s32")];

/// The modes of a shared memory descriptor: what its leading field is, and its swizzle.
pub const MODES: &[(u64, &str)] = &[(0, "offset"), (1, "address")];
pub const SWIZZLES: &[(u64, &str)] = &[(0, "none"), (1, "128B+32B"), (2, "128B"), (4, "64B"), (6, "32B")];

pub fn types(kind: Kind) -> &'static [(u64, &'static str)] {
    match kind {
        F16 => &[(0, "f16"), (1, "bf16")],
        Tf32 => &[(2, "tf32")],
        F8f6f4 => &[(0, "e4m3"), (1, "e5m2"), (3, "e2m3"), (4, "e3m2"), (5, "e2m1")],
        I8 => &[(0, "u8"), (1, "s8")],
    }
}

pub fn name_in(table: &[(u64, &'static str)], code: u64) -> Option<&'static str> {
    table.iter().find(|row| row.0 == code).map(|row| row.1)
}

/// The kinds with their names, as `.kind::` has them.
pub const KINDS: [(Kind, &str); 4] = [(F16, "f16"), (Tf32, "tf32"), (F8f6f4, "f8f6f4"), (I8, "i8")];

pub fn kind_name(kind: Kind) -> &'static str {
    KINDS.iter().find(|row| row.0 == kind).map_or("?", |row| row.1)
}

pub fn kind_of(name: &str) -> Option<Kind> {
    KINDS.iter().find(|row| row.1 == name).map(|row| row.0)
}

/// A rule that is broken: the field that it is about, where it is about one; what was found; what would be right.
#[derive(Clone, PartialEq, Eq, Debug)]
pub struct Rule {
    pub field: Option<usize>,
    pub found: String,
    pub wants: String,
}

impl fmt::Display for Rule {
    fn fmt(&self, f: &mut fmt::Formatter<'_>) -> fmt::Result {
        write!(f, "{}: {}", self.found, self.wants)
    }
}

/// Rules that are broken.
#[derive(Default)]
struct Broken(Vec<Rule>);

impl Broken {
    fn unless(&mut self, kept: bool, field: impl Into<Option<usize>>, rule: impl FnOnce() -> (String, String)) {
        if !kept {
            let (found, wants) = rule();
            self.0.push(Rule { field: field.into(), found, wants });
        }
    }

    fn too_wide(&mut self, fields: &[Field], values: &[u64]) {
        for (i, (f, &v)) in fields.iter().zip(values).enumerate() {
            self.unless(f.fits(v), i, || (format!("{} {v}", f.name), format!("bits {} hold {}", f.bits(), f.range())));
        }
    }

    /// The bits that are in no field.
    fn rest(&mut self, rest: u64) {
        self.unless(rest == 0, None, || (format!("bits {}", bits(rest)), "must be 0".into()));
    }
}

/// The rules of reading (reason 12) that an instruction descriptor's values break; `rest` is what else the word has.
pub fn no_reading(o: Opcode, v: &[u64; 13], rest: u64) -> Vec<Rule> {
    let kind = kind_name(o.kind);
    let mut b = Broken::default();
    b.too_wide(&INSTRUCTION, v);
    b.rest(rest);
    let mut unless = |kept: bool, at: usize, wants: &dyn Fn() -> String| {
        b.unless(kept, at, || (format!("{} {}", INSTRUCTION[at].name, v[at]), wants()));
    };
    unless(v[SPARSE] == o.sp as u64, SPARSE, &|| format!("{} .sp", if o.sp { "1 with" } else { "0 without" }));
    unless(o.sp || v[SELECTOR] == 0, SELECTOR, &|| "0 without .sp".into());
    unless(o.kind == I8 || v[SATURATE] == 0, SATURATE, &|| "only i8 may saturate".into());
    unless(name_in(DTYPES, v[DTYPE]).is_some(), DTYPE, &|| "f16 0, f32 1, s32 2".into());
    for at in [ATYPE, BTYPE] {
        unless(name_in(types(o.kind), v[at]).is_some(), at, &|| format!("{kind} has {}", type_list(o.kind)));
    }
    for at in [NEGATE_A, NEGATE_B] {
        unless(o.kind != I8 || v[at] == 0, at, &|| "i8 does not negate".into());
    }
    unless(o.ws || v[MAX_SHIFT] == 0, MAX_SHIFT, &|| "0 without .ws".into());
    b.0
}

fn type_list(kind: Kind) -> String {
    let list: Vec<_> = types(kind).iter().map(|(code, name)| format!("{name} {code}")).collect();
    list.join(", ")
}

/// The rules of listing that the values of a descriptor that reads break, in the order in which they are asked: M (13), N (20), types (21).
pub fn not_listed(o: Opcode, v: &[u64; 13]) -> Vec<(Reason, Rule)> {
    let parts = [(Reason::ShapeM, m_not_listed(o, v[M])), (Reason::ShapeN, n_not_listed(o, v[N])), (Reason::Types, types_not_listed(o, v))];
    parts.into_iter().flat_map(|(reason, rules)| rules.into_iter().map(move |rule| (reason, rule))).collect()
}

fn m_not_listed(o: Opcode, m: u64) -> Vec<Rule> {
    let mut b = Broken::default();
    let listed = if o.ws { matches!(m, 32 | 64 | 128) } else { matches!(m, 64 | 128) };
    let wants = if o.ws { "32, 64 or 128 with .ws" } else { "64 or 128 without .ws" };
    b.unless(listed, M, || (format!("M {m}"), wants.into()));
    b.0
}

fn n_not_listed(o: Opcode, n: u64) -> Vec<Rule> {
    let mut b = Broken::default();
    let (kept, takes) = match (o.ws, o.sp, o.kind) {
        (false, _, I8) => {
            (matches!(n, 8 | 16 | 24 | 32) || (48..=256).contains(&n) && n % 16 == 0, "takes 8, 16, 24, 32, then 48 to 256 in sixteens")
        }
        (false, ..) => ((8..=256).contains(&n) && n % 8 == 0, "takes 8 to 256 in eights"),
        (true, false, _) => (matches!(n, 64 | 128 | 256), "with .ws takes 64, 128 or 256"),
        (true, true, _) => (matches!(n, 64 | 128), "with .ws and .sp takes 64 or 128"),
    };
    b.unless(kept, N, || (format!("N {n}"), format!("{} {takes}", kind_name(o.kind))));
    b.0
}

fn types_not_listed(o: Opcode, v: &[u64; 13]) -> Vec<Rule> {
    let mut b = Broken::default();
    let name = |at: usize, table| name_in(table, v[at]).unwrap_or("?");
    let (d, ta, tb) = (name(DTYPE, DTYPES), name(ATYPE, types(o.kind)), name(BTYPE, types(o.kind)));
    match o.kind {
        F16 => {
            b.unless(ta == tb, BTYPE, || (format!("types {ta} and {tb}"), "f16 takes two of one type".into()));
            b.unless(d == "f32" || d == "f16" && ta == "f16" && tb == "f16", DTYPE, || {
                (format!("dtype {d} with {ta} and {tb}"), "f16 takes f32, or f16 with two f16".into())
            });
        }
        Tf32 => b.unless(d == "f32", DTYPE, || (format!("dtype {d}"), "tf32 takes f32".into())),
        F8f6f4 => b.unless(d != "s32", DTYPE, || (format!("dtype {d}"), "f8f6f4 takes f16 or f32".into())),
        I8 => b.unless(d == "s32", DTYPE, || (format!("dtype {d}"), "i8 takes s32".into())),
    }
    b.0
}

/// The rules that a shared memory descriptor breaks; `fixed` is what stands in bits 46 to 48.
pub fn no_shared(v: &[u64; 6], fixed: u64, rest: u64) -> Vec<Rule> {
    let mut b = Broken::default();
    b.too_wide(&SHARED, v);
    b.rest(rest);
    b.unless(fixed == 1, None, || (format!("bits 46-48 hold {fixed}"), "must be 1".into()));
    b.unless(name_in(SWIZZLES, v[SWIZZLE]).is_some(), SWIZZLE, || (format!("swizzle {}", v[SWIZZLE]), "0, 1, 2, 4 or 6".into()));
    b.unless(v[SWIZZLE] != 0 || v[BASE] == 0, BASE, || (format!("base {}", v[BASE]), "0 where swizzle is 0".into()));
    b.0
}

/// What stands in bits 46 to 48 of a word, and the bits outside of them and of all fields.
pub fn shared_rest(word: u64) -> (u64, u64) {
    (word >> 46 & 7, rest(&SHARED, word) & !(7 << 46))
}
