//! `describe` names a broken rule exactly where the library refuses: over words, over fields, and over every value of each field.
#![deny(clippy::undocumented_unsafe_blocks)]

use commands::rules::*;
use staplehorn::Kind::{self, F8f6f4, Tf32, F16, I8};
use staplehorn::{Opcode, Reason, SharedFields};

const KINDS: [Kind; 4] = [F16, Tf32, F8f6f4, I8];

fn opcodes() -> impl Iterator<Item = Opcode> {
    KINDS.into_iter().flat_map(|kind| (0..4).map(move |i| Opcode { kind, ws: i & 1 != 0, sp: i & 2 != 0 }))
}

/// xorshift64*
struct Random(u64);

impl Random {
    fn next(&mut self) -> u64 {
        self.0 ^= self.0 >> 12;
        self.0 ^= self.0 << 25;
        self.0 ^= self.0 >> 27;
        self.0.wrapping_mul(0x2545_F491_4F6C_DD1D)
    }

    fn pick(&mut self, from: &[u64]) -> u64 {
        from[self.next() as usize % from.len()]
    }
}

fn values(word: u32) -> [u64; 13] {
    std::array::from_fn(|i| INSTRUCTION[i].of(word.into()))
}

/// The library and the rules agree on a word.
fn agree(o: Opcode, word: u32) -> Option<Reason> {
    let v = values(word);
    let said = o.judge(word).err();
    let expected = match (no_reading(o, &v, rest(&INSTRUCTION, word.into())), not_listed(o, &v)) {
        (broken, _) if !broken.is_empty() => Some(Reason::Descriptor),
        (_, broken) => broken.first().map(|row| row.0),
    };
    assert_eq!(said, expected, "{o:?} {word:#010x}");
    assert_eq!(o.decode(word).is_err(), said == Some(Reason::Descriptor));
    said
}

#[test]
fn every_refused_word_has_a_rule() {
    let mut r = Random(7);
    let mut seen = [0; 5];
    for o in opcodes() {
        for i in 0..40_000 {
            // a word that may be good, and the same with some bits turned
            let good = (o.sp as u64) << 2
                | r.pick(&[0, 1, 2]) << 4
                | r.pick(&[0, 1, 2, 3, 4, 5]) << 7
                | r.pick(&[0, 1, 2, 3, 4, 5]) << 10
                | (r.next() & 3) << 15
                | (r.next() & 63) << 17
                | r.pick(&[2, 4, 8, 1, 16, 12]) << 24;
            let turned = (0..i % 3).fold(good, |w, _| w ^ 1 << (r.next() % 32));
            let same = if o.kind == Tf32 { turned & !(0x3F << 7) | 2 << 7 | 2 << 10 } else { turned };
            for word in [turned, same, r.next()] {
                let said = agree(o, word as u32);
                let sorts = [None, Some(Reason::Descriptor), Some(Reason::ShapeM), Some(Reason::ShapeN), Some(Reason::Types)];
                seen[sorts.iter().position(|&sort| sort == said).unwrap()] += 1;
            }
        }
    }
    assert!(seen.iter().all(|&n| n > 10_000), "{seen:?}");
}

#[test]
fn every_value_of_every_field() {
    for o in opcodes() {
        for start in [0x0810_0010, 0x0402_0910, 0x080C_00A0, 0x0810_0014] {
            for f in &INSTRUCTION {
                for v in 0..=f.mask() {
                    agree(o, start & !((f.mask() as u32) << f.low) | (v as u32) << f.low);
                }
            }
        }
    }
}

/// Every N at every M, the other fields good: a line for each of the two that is not listed, and the library names the first.
#[test]
fn every_n_of_every_opcode() {
    for o in opcodes() {
        let types = match o.kind {
            F16 | F8f6f4 => 1 << 4,
            Tf32 => 1 << 4 | 2 << 7 | 2 << 10,
            I8 => 2 << 4,
        };
        let listed: Vec<u32> = match (o.ws, o.sp, o.kind) {
            (true, true, _) => vec![64, 128],
            (true, false, _) => vec![64, 128, 256],
            (false, _, I8) => [8, 16, 24, 32].into_iter().chain((48..=256).step_by(16)).collect(),
            (false, ..) => (8..=256).step_by(8).collect(),
        };
        for m in (0..=496).step_by(16) {
            for n in (0..=504).step_by(8) {
                let word = types | (o.sp as u32) << 2 | (n / 8) << 17 | (m / 16) << 24;
                let kept = [(m == 64 || m == 128 || o.ws && m == 32, Reason::ShapeM), (listed.contains(&n), Reason::ShapeN)];
                let expected: Vec<_> = kept.into_iter().filter(|row| !row.0).map(|row| row.1).collect();
                let broken: Vec<_> = not_listed(o, &values(word)).into_iter().map(|row| row.0).collect();
                assert_eq!(broken, expected, "{o:?} M {m} N {n}");
                assert_eq!(agree(o, word), expected.first().copied(), "{o:?} M {m} N {n}");
            }
        }
    }
}

#[test]
fn every_refused_fields_have_a_rule() {
    let mut r = Random(11);
    let mut seen = [0; 2];
    for o in opcodes() {
        for _ in 0..20_000 {
            let v: [u64; 13] = std::array::from_fn(|i| {
                let f = &INSTRUCTION[i];
                match i {
                    N | M => (r.next() & f.mask()) * f.unit + r.pick(&[0, 0, 0, 0, 0, 0, 0, 1, 8, 512]),
                    SPARSE => o.sp as u64 ^ r.pick(&[0, 0, 0, 0, 0, 1]),
                    ATYPE | BTYPE => r.pick(&[0, 1, 2, 2, 3, 5]),
                    _ => r.pick(&[0, 0, 0, 0, 0, 1, 2, 4]),
                }
            });
            let fields: [u32; 13] = v.map(|x| x as u32);
            let broken = no_reading(o, &v, 0);
            let mut word = 0;
            // SAFETY: the pointers are those of an array of the header's size and of a local.
            let reason =
                unsafe { staplehorn::c::staplehorn_instruction_encode(o.kind as u32, o.ws.into(), o.sp.into(), &fields, &mut word) };
            assert_eq!(reason != 0, !broken.is_empty(), "{o:?} {v:?} {broken:?}");
            seen[usize::from(reason != 0)] += 1;
        }
    }
    assert!(seen.iter().all(|&n| n > 1_000), "{seen:?}");
}

#[test]
fn every_refused_shared_word_has_a_rule() {
    let mut r = Random(3);
    let mut seen = [0; 2];
    for i in 0..400_000 {
        let good = r.next() & 0x3FFF_3FFF_3FFF | 1 << 46 | (r.next() & 1) << 52 | (r.next() & 7) << 61 | r.pick(&[0, 0, 1, 7]) << 49;
        let word = (0..i % 3).fold(good, |w, _| w ^ 1 << (r.next() % 64));
        for word in [word, word & !(7 << 61), r.next()] {
            let v: [u64; 6] = std::array::from_fn(|i| SHARED[i].of(word));
            let (fixed, rest) = shared_rest(word);
            let refused = SharedFields::decode(word).is_err();
            assert_eq!(refused, !no_shared(&v, fixed, rest).is_empty(), "{word:#018x}");
            let fields = SharedFields { start: v[0], leading: v[1], stride: v[2], base: v[3], mode: v[4], swizzle: v[5] };
            assert_eq!(fields.encode().is_err(), !no_shared(&v, 1, 0).is_empty(), "{fields:?}");
            seen[usize::from(refused)] += 1;
        }
    }
    for (at, by) in [(0, 1), (1, 8), (2, 16), (0, 262_144), (3, 8), (4, 2), (5, 8), (5, 3)] {
        let mut v = [16, 32, 48, 0, 1, 2];
        v[at] += by;
        let fields = SharedFields { start: v[0], leading: v[1], stride: v[2], base: v[3], mode: v[4], swizzle: v[5] };
        assert_eq!(fields.encode().is_err(), !no_shared(&v, 1, 0).is_empty(), "{fields:?}");
    }
    assert!(seen.iter().all(|&n| n > 10_000), "{seen:?}");
}
