//! Descriptor words, their fields, shapes, K and requests.

use staplehorn_difftest::counts::Counts;
use staplehorn_difftest::proved::{self, Opcode};
use staplehorn_difftest::random::Random;
use staplehorn_reference::descriptor::{self as reference, Instruction, Kind, Shared};

/// Flags and kinds of the sixteen opcodes.
fn opcodes() -> impl Iterator<Item = (Opcode, Kind, bool, bool)> {
    Kind::ALL.into_iter().enumerate().flat_map(|(number, kind)| {
        (0..4u32).map(move |f| {
            let o = Opcode { kind: number as u32, ws: f & 1, sp: f >> 1 };
            (o, kind, o.ws == 1, o.sp == 1)
        })
    })
}

/// A word under an opcode: what it reads as, and its reason.
fn word(counts: &mut Counts, (o, kind, ws, sp): (Opcode, Kind, bool, bool), w: u32) {
    let theirs = match reference::decode_instruction(kind, ws, sp, w) {
        Ok(d) => (0, d.to_array()),
        Err(reason) => (reason, [0; 13]),
    };
    counts.compare("instruction decode", theirs.0, proved::instruction_decode(o, w), theirs, || format!("{o:?} {w:#010x}"));
    let reason = reference::judge_word(kind, ws, sp, w);
    counts.compare("instruction judge", reason, proved::instruction_judge(o, w), reason, || format!("{o:?} {w:#010x}"));
    if let Some(what) = listing_name(reason) {
        counts.seen(what, o.number());
    }
}

/// What the counts call an answer of the listing by opcode.
fn listing_name(reason: u32) -> Option<&'static str> {
    match reason {
        0 => Some("opcodes judged 0"),
        13 => Some("opcodes judged 13"),
        20 => Some("opcodes judged 20"),
        21 => Some("opcodes judged 21"),
        _ => None,
    }
}

/// The codes of the types that a kind has.
fn type_codes(kind: Kind) -> &'static [u32] {
    match kind {
        Kind::F16 | Kind::I8 => &[0, 1],
        Kind::Tf32 => &[2],
        Kind::F8f6f4 => &[0, 1, 3, 4, 5],
    }
}

/// Every M, N, dtype and pair of types that a word can hold under the opcode: the first that is not listed counts.
fn listings(counts: &mut Counts, opcode: (Opcode, Kind, bool, bool)) {
    let (_, kind, ws, sp) = opcode;
    let codes = type_codes(kind);
    for shape in 0..1u32 << 11 {
        let (n, m) = (shape & 63, shape >> 6);
        for dtype in 0..3 {
            for a in codes {
                for b in codes {
                    let w = u32::from(sp) << 2 | dtype << 4 | a << 7 | b << 10 | n << 17 | m << 24;
                    word(counts, opcode, w);
                    if (shape + dtype + a + b) % 7 == 0 {
                        let read = reference::decode_instruction(kind, ws, sp, w).expect("such a word reads");
                        fields(counts, opcode, read.to_array());
                    }
                }
            }
        }
    }
}

/// Fields under an opcode: their word, and whether it is listed.
fn fields(counts: &mut Counts, (o, kind, ws, sp): (Opcode, Kind, bool, bool), f: [u32; 13]) {
    let d = Instruction::from_array(f);
    let coded = reference::encode_instruction(kind, ws, sp, &d);
    let theirs = match coded {
        Ok(w) => (0, w),
        Err(reason) => (reason, 0),
    };
    counts.compare("instruction encode", theirs.0, proved::instruction_encode(o, &f), theirs, || format!("{o:?} {f:?}"));
    let listed = match coded {
        Ok(_) => reference::listed(kind, ws, sp, &d),
        Err(reason) => reason,
    };
    counts.compare("instruction listed", listed, proved::instruction_listed(o, &f), listed, || format!("{o:?} {f:?}"));
    if listed == 0 {
        counts.seen("opcodes listed", o.number());
    }
}

/// Words that read, under each opcode: a valid choice for every field.
fn valid_word(r: &mut Random, kind: Kind, ws: bool, sp: bool) -> u32 {
    let types = type_codes(kind);
    let integer = kind == Kind::I8;
    let mut w = 0;
    w |= if sp { r.below(4) as u32 | 1 << 2 } else { 0 };
    w |= if integer { (r.below(2) as u32) << 3 } else { (r.below(4) as u32) << 13 };
    let (a, b) = (r.pick(types), r.pick(types));
    w |= (r.below(4) as u32) << 15;
    if r.below(2) == 0 {
        // a shape and types that are listed, or nearly
        let dtype = match kind {
            Kind::F16 | Kind::Tf32 => 1,
            Kind::F8f6f4 => r.below(2) as u32,
            Kind::I8 => 2,
        };
        let n = if ws { r.pick(&[8, 16, 32]) } else { r.pick(&[1, 2, 3, 4, 5, 6, 8, 16, 31, 32]) };
        w |= dtype << 4 | a << 7 | r.pick(&[a, a, b]) << 10 | n << 17 | r.pick(&[2u32, 4, 4, 8, 8]) << 24;
    } else {
        w |= (r.below(3) as u32) << 4 | a << 7 | b << 10;
        w |= (r.below(64) as u32) << 17 | (r.below(32) as u32) << 24;
    }
    w | if ws { (r.below(4) as u32) << 30 } else { 0 }
}

/// A word with two equal types of the kind that are listed, sparse where `.sp` stands; no N, M or dtype yet.
fn listed_base(kind: Kind, sp: bool) -> u32 {
    let code = if kind == Kind::Tf32 { 2 } else { 0 };
    code << 7 | code << 10 | u32::from(sp) << 2
}

/// The dtype that goes with these types.
fn listed_dtype(kind: Kind) -> u32 {
    if kind == Kind::I8 {
        2
    } else {
        1
    }
}

/// The M that are listed.
fn listed_m(ws: bool) -> &'static [u32] {
    if ws {
        &[32, 64, 128]
    } else {
        &[64, 128]
    }
}

/// `.ws`, N, and the answers for dense and for sparse, the same in each kind.
const KNOWN_N: [(u32, u32, [u32; 2]); 9] = [
    (1, 56, [20, 20]),
    (1, 64, [0, 0]),
    (1, 128, [0, 0]),
    (1, 192, [20, 20]),
    (1, 256, [0, 20]),
    (1, 264, [20, 20]),
    (0, 128, [0, 0]),
    (0, 256, [0, 0]),
    (0, 264, [20, 20]),
];

/// N whose answers are known without the reference.
fn known_shapes(counts: &mut Counts) {
    for opcode in opcodes() {
        let (o, _, ws, _) = opcode;
        for (_, n, answers) in KNOWN_N.into_iter().filter(|row| row.0 == o.ws) {
            for &m in listed_m(ws) {
                known_shape(counts, opcode, [n, m], answers[o.sp as usize]);
            }
            // M is asked before
            known_shape(counts, opcode, [n, 256], 13);
        }
    }
}

/// The word reads and is written whatever N is. One that is sparse where the opcode is not, or the other way, does not.
fn known_shape(counts: &mut Counts, (o, kind, _, sp): (Opcode, Kind, bool, bool), [n, m]: [u32; 2], wanted: u32) {
    let w = listed_base(kind, sp) | listed_dtype(kind) << 4 | (n / 8) << 17 | (m / 16) << 24;
    let code = w >> 7 & 7;
    let f = [0, o.sp, 0, listed_dtype(kind), code, code, 0, 0, 0, 0, n, m, 0];
    let shown = || format!("{o:?} {w:#010x}");
    counts.compare("known N, judge", wanted, proved::instruction_judge(o, w), wanted, shown);
    counts.compare("known N, listed", wanted, proved::instruction_listed(o, &f), wanted, shown);
    counts.compare("known N, other sparse", 12, proved::instruction_judge(o, w ^ 4), 12, shown);
    counts.compare("known N, decode", 0, proved::instruction_decode(o, w), (0, f), shown);
    counts.compare("known N, encode", 0, proved::instruction_encode(o, &f), (0, w), shown);
}

fn instructions(counts: &mut Counts, r: &mut Random) {
    for opcode in opcodes() {
        // every combination of bits 0 to 16, at N 64 and M 128
        for low in 0..1 << 17 {
            word(counts, opcode, low | 8 << 17 | 8 << 24);
        }
        // all N, M and dtypes, with types that are listed
        let base = listed_base(opcode.1, opcode.3);
        for shape in 0..1u32 << 13 {
            let (n, m, dtype) = (shape & 63, shape >> 6 & 31, shape >> 11);
            word(counts, opcode, base | n << 17 | m << 24 | dtype << 4);
        }
        listings(counts, opcode);
        // every single-bit change of words that read
        for _ in 0..400 {
            let w = valid_word(r, opcode.1, opcode.2, opcode.3);
            word(counts, opcode, w);
            for bit in 0..32 {
                word(counts, opcode, w ^ 1 << bit);
            }
        }
        for _ in 0..20_000 {
            word(counts, opcode, r.next() as u32);
        }
    }
}

fn field_sets(counts: &mut Counts, r: &mut Random) {
    // below, at and past the end of each field
    const EDGES: [[u32; 4]; 13] = [
        [0, 3, 4, u32::MAX],
        [0, 1, 2, u32::MAX],
        [0, 1, 2, u32::MAX],
        [0, 2, 3, 4],
        [2, 5, 6, 8],
        [2, 5, 7, 8],
        [0, 1, 2, 256],
        [0, 1, 2, 1 << 31],
        [0, 1, 2, u32::MAX],
        [0, 1, 2, u32::MAX],
        [504, 512, 4, 520],
        [496, 512, 8, 65536 * 16],
        [0, 3, 4, u32::MAX],
    ];
    for opcode in opcodes() {
        let (_, kind, ws, sp) = opcode;
        for _ in 0..200 {
            let w = valid_word(r, kind, ws, sp);
            let f = reference::decode_instruction(kind, ws, sp, w).expect("a valid word reads").to_array();
            fields(counts, opcode, f);
            for place in 0..13 {
                for edge in EDGES[place] {
                    let mut changed = f;
                    changed[place] = edge;
                    fields(counts, opcode, changed);
                }
            }
            // any two fields at once
            let mut changed = f;
            for _ in 0..2 {
                changed[r.below(13) as usize] = r.below(9) as u32;
            }
            fields(counts, opcode, changed);
        }
        let w = listed_base(kind, sp) | listed_dtype(kind) << 4;
        let f = reference::decode_instruction(kind, ws, sp, w).expect("a valid word reads").to_array();
        // all N and M, and those between
        for n in 0..=600 {
            for m in [0, 16, 32, 64, 128, 496] {
                let mut changed = f;
                changed[10] = n;
                changed[11] = m;
                fields(counts, opcode, changed);
            }
        }
        for m in 0..=600 {
            let mut changed = f;
            changed[11] = m;
            fields(counts, opcode, changed);
        }
        for _ in 0..5_000 {
            fields(counts, opcode, std::array::from_fn(|i| if i == 10 || i == 11 { r.below(70) as u32 * 8 } else { r.below(9) as u32 }));
        }
    }
}

/// Numbers that are no kind, and flags that are not 0 or 1: refused with 12 and zeros.
fn wrong_opcodes(counts: &mut Counts, r: &mut Random) {
    for (kind, ws, sp) in [(4, 0, 0), (255, 1, 1), (u32::MAX, 0, 0), (256, 0, 1), (0, 2, 0), (1, 0, 2), (3, u32::MAX, 0), (2, 256, 256)] {
        let o = Opcode { kind, ws, sp };
        for _ in 0..1_000 {
            let w = valid_word(r, Kind::F16, ws & 1 == 1, sp & 1 == 1);
            counts.compare("wrong opcode", 12, proved::instruction_decode(o, w), (12, [0; 13]), || format!("{o:?} {w:#x}"));
            counts.compare("wrong opcode", 12, proved::instruction_judge(o, w), 12, || format!("{o:?} {w:#x}"));
            let f = [0, sp, 0, 1, 0, 0, 0, 0, 0, 0, 64, 128, 0];
            counts.compare("wrong opcode", 12, proved::instruction_encode(o, &f), (12, 0), || format!("{o:?} {f:?}"));
            counts.compare("wrong opcode", 12, proved::instruction_listed(o, &f), 12, || format!("{o:?} {f:?}"));
        }
        if kind > 3 || sp > 1 {
            counts.compare("k", 12, proved::instruction_k(kind, sp), (12, 0), || format!("{o:?}"));
        }
    }
    for (number, kind) in Kind::ALL.into_iter().enumerate() {
        for sp in [0, 1] {
            let theirs = (0, reference::k(kind, sp == 1));
            counts.compare("k", 0, proved::instruction_k(number as u32, sp), theirs, || format!("{kind:?} {sp}"));
        }
    }
}

fn shared_word(counts: &mut Counts, w: u64) {
    let theirs = match reference::decode_shared(w) {
        Ok(d) => (0, d.to_array()),
        Err(reason) => (reason, [0; 6]),
    };
    counts.compare("shared decode", theirs.0, proved::shared_decode(w), theirs, || format!("{w:#018x}"));
}

fn shared_fields(counts: &mut Counts, f: [u64; 6]) {
    let theirs = match reference::encode_shared(&Shared::from_array(f)) {
        Ok(w) => (0, w),
        Err(reason) => (reason, 0),
    };
    counts.compare("shared encode", theirs.0, proved::shared_encode(&f), theirs, || format!("{f:?}"));
}

fn shared(counts: &mut Counts, r: &mut Random) {
    let address = |r: &mut Random| r.below(1 << 14) * 16;
    for _ in 0..6_000 {
        let swizzle = r.pick(&[0, 1, 2, 4, 6]);
        let base = if swizzle == 0 { 0 } else { r.below(8) };
        let f = [address(r), address(r), address(r), base, r.below(2), swizzle];
        shared_fields(counts, f);
        let w = reference::encode_shared(&Shared::from_array(f)).expect("valid fields have a word");
        shared_word(counts, w);
        for bit in 0..64 {
            shared_word(counts, w ^ 1 << bit);
        }
        for place in 0..6 {
            for edge in [0, 1, 2, 3, 4, 5, 6, 7, 8, 16, 262_112, 262_128, 262_136, 262_144, 1 << 32, u64::MAX] {
                let mut changed = f;
                changed[place] = edge;
                shared_fields(counts, changed);
            }
        }
    }
    for base in 0..16 {
        for mode in 0..4 {
            for swizzle in 0..16 {
                shared_fields(counts, [0, 256, 128, base, mode, swizzle]);
                shared_word(counts, 0x0000_4008_0010_0000 | (base & 7) << 49 | (mode & 1) << 52 | (swizzle & 7) << 61);
            }
        }
    }
    for a in 0..263_000 {
        shared_fields(counts, [a, 0, 0, 0, 0, 0]);
    }
    for _ in 0..300_000 {
        shared_word(counts, r.next());
        shared_word(counts, r.next() & !(3 << 14 | 3 << 30 | 7 << 46 | 0xFF << 53) | 1 << 46);
    }
}

fn requests(counts: &mut Counts, r: &mut Random) {
    for n in (0..100_000).chain((0..32).map(|k| 1u32 << k)) {
        let theirs = reference::request(n);
        counts.compare("request", theirs, proved::request(n), theirs, || format!("{n}"));
    }
    for _ in 0..100_000 {
        let n = r.next() as u32;
        let theirs = reference::request(n);
        counts.compare("request", theirs, proved::request(n), theirs, || format!("{n}"));
    }
}

pub fn run() -> bool {
    let mut counts = Counts::new();
    let mut r = Random::new(1);
    known_shapes(&mut counts);
    instructions(&mut counts, &mut r);
    field_sets(&mut counts, &mut r);
    wrong_opcodes(&mut counts, &mut r);
    shared(&mut counts, &mut r);
    requests(&mut counts, &mut r);
    let mut wanted = vec![
        ("instruction decode", 0, 100_000),
        ("instruction decode", 12, 100_000),
        ("instruction judge", 0, 20_000),
        ("instruction judge", 12, 100_000),
        ("instruction judge", 13, 10_000),
        ("instruction judge", 20, 10_000),
        ("instruction judge", 21, 10_000),
        ("instruction encode", 0, 50_000),
        ("instruction encode", 12, 50_000),
        ("instruction listed", 0, 10_000),
        ("instruction listed", 12, 50_000),
        ("instruction listed", 13, 10_000),
        ("instruction listed", 20, 5_000),
        ("instruction listed", 21, 3_000),
        ("known N, judge", 0, 92),
        ("known N, judge", 13, 72),
        ("known N, judge", 20, 100),
        ("known N, listed", 0, 92),
        ("known N, listed", 13, 72),
        ("known N, listed", 20, 100),
        ("wrong opcode", 12, 10_000),
        ("k", 0, 8),
        ("k", 12, 4),
        ("shared decode", 0, 50_000),
        ("shared decode", 12, 50_000),
        ("shared encode", 0, 50_000),
        ("shared encode", 12, 50_000),
        ("request", 0, 10),
        ("request", 9, 100_000),
    ];
    for (o, _, ws, sp) in opcodes() {
        // every listed shape of the opcode at least once: three M by three N with `.ws`, by two if it is sparse; else
        // 32 N (18 for i8) by two M
        let shapes = match (ws, sp) {
            (true, true) => 6,
            (true, false) => 9,
            _ if o.kind == 3 => 36,
            _ => 64,
        };
        wanted.push(("opcodes judged 0", o.number(), shapes));
        for what in ["opcodes judged 13", "opcodes judged 20", "opcodes judged 21"] {
            wanted.push((what, o.number(), 200));
        }
        wanted.push(("opcodes listed", o.number(), shapes));
    }
    counts.finish("words", &wanted)
}
