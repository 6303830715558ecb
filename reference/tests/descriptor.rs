use staplehorn_reference::descriptor::*;

const F32: u32 = 1;
const S32: u32 = 2;

/// All sixteen opcodes.
fn opcodes() -> Vec<(Kind, bool, bool)> {
    let mut all = Vec::new();
    for kind in Kind::ALL {
        for ws in [false, true] {
            for sp in [false, true] {
                all.push((kind, ws, sp));
            }
        }
    }
    all
}

/// A small generator of 64-bit numbers (splitmix).
struct Random(u64);

impl Random {
    fn next(&mut self) -> u64 {
        self.0 = self.0.wrapping_add(0x9e3779b97f4a7c15);
        let mut z = self.0;
        z = (z ^ (z >> 30)).wrapping_mul(0xbf58476d1ce4e5b9);
        z = (z ^ (z >> 27)).wrapping_mul(0x94d049bb133111eb);
        z ^ (z >> 31)
    }
}

/// A dense descriptor without flags.
fn plain(dtype: u32, atype: u32, btype: u32, m: u32, n: u32) -> Instruction {
    Instruction { dtype, atype, btype, m, n, ..Instruction::default() }
}

/// The word is what the fields encode to, and decodes to the fields.
fn both_ways(kind: Kind, ws: bool, sp: bool, d: Instruction, word: u32) {
    assert_eq!(encode_instruction(kind, ws, sp, &d), Ok(word), "{d:?}");
    assert_eq!(decode_instruction(kind, ws, sp, word), Ok(d), "{word:#x}");
}

// The entries of the rules.

#[test]
fn entry_f16() {
    both_ways(Kind::F16, false, false, plain(F32, 0, 0, 128, 64), 0x08100010);
    assert_eq!(judge_word(Kind::F16, false, false, 0x08100010), 0);
}

#[test]
fn entry_tf32() {
    both_ways(Kind::Tf32, false, false, plain(F32, 2, 2, 64, 8), 0x04020910);
    assert_eq!(judge_word(Kind::Tf32, false, false, 0x04020910), 0);
}

#[test]
fn entry_i8() {
    both_ways(Kind::I8, false, false, plain(S32, 1, 0, 128, 48), 0x080C00A0);
    assert_eq!(judge_word(Kind::I8, false, false, 0x080C00A0), 0);
    both_ways(Kind::I8, false, false, plain(S32, 1, 0, 128, 40), 0x080A00A0);
    assert_eq!(judge_word(Kind::I8, false, false, 0x080A00A0), 20);
    assert_eq!(listing(Kind::I8, false, false, &plain(S32, 1, 0, 128, 40)), 2);
}

#[test]
fn entry_ws_sp() {
    let sparse = |n| Instruction { sparse: 1, ..plain(F32, 0, 0, 128, n) };
    both_ways(Kind::F16, true, true, sparse(256), 0x08400014);
    assert_eq!(judge_word(Kind::F16, true, true, 0x08400014), 20);
    both_ways(Kind::F16, true, true, sparse(128), 0x08200014);
    assert_eq!(judge_word(Kind::F16, true, true, 0x08200014), 0);
    both_ways(Kind::F16, true, false, plain(F32, 0, 0, 128, 256), 0x08400010);
    assert_eq!(judge_word(Kind::F16, true, false, 0x08400010), 0);
}

#[test]
fn entry_shared() {
    let d = Shared { start: 0, leading: 256, stride: 128, base: 0, mode: 0, swizzle: 0 };
    assert_eq!(encode_shared(&d), Ok(0x0000400800100000));
    assert_eq!(decode_shared(0x0000400800100000), Ok(d));
}

#[test]
fn entry_addresses() {
    for at in 0..3 {
        let with = |bytes| {
            let mut a = [0; 6];
            a[at] = bytes;
            Shared::from_array(a)
        };
        let last = encode_shared(&with(262_128)).unwrap();
        assert_eq!(last, 0x3fff << (16 * at) | 1 << 46);
        assert_eq!(decode_shared(last), Ok(with(262_128)));
        for bad in [262_144, 8, 1, 15, 17, 262_127, 262_129, 1 << 32, 1 << 63, u64::MAX, u64::MAX - 15] {
            assert_eq!(encode_shared(&with(bad)), Err(12), "{bad}");
        }
    }
}

#[test]
fn entry_requests() {
    assert_eq!(request(32), 0);
    assert_eq!(request(512), 0);
    assert_eq!(request(16), 9);
    assert_eq!(request(96), 9);
    assert_eq!(request(1024), 9);
    let legal: Vec<u32> = (0..70_000).filter(|&n| request(n) == 0).collect();
    assert_eq!(legal, [32, 64, 128, 256, 512]);
    for n in [1 << 31, u32::MAX, u32::MAX - 31, (1 << 31) + 32] {
        assert_eq!(request(n), 9);
    }
}

// Places where the rules could be taken in two ways or a slip is near.

#[test]
fn reading_encoder_takes_what_decoding_gives() {
    let dense_with_selector = Instruction { selector: 1, ..plain(F32, 0, 0, 128, 64) };
    assert_eq!(encode_instruction(Kind::F16, false, false, &dense_with_selector), Err(12));
    assert_eq!(encode_instruction(Kind::I8, false, false, &plain(S32, 1, 0, 128, 40)), Ok(0x080A00A0));

    let f16 = plain(F32, 0, 0, 128, 64);
    let i8 = plain(S32, 1, 0, 128, 48);
    let refused = |kind, ws, sp, d: Instruction| {
        assert_eq!(encode_instruction(kind, ws, sp, &d), Err(12), "{kind:?} {ws} {sp} {d:?}");
    };
    let taken = |kind, ws, sp, d: Instruction| {
        let word = encode_instruction(kind, ws, sp, &d).unwrap();
        assert_eq!(decode_instruction(kind, ws, sp, word), Ok(d));
    };
    refused(Kind::F16, false, false, Instruction { sparse: 1, ..f16 });
    refused(Kind::F16, false, true, f16);
    taken(Kind::F16, false, true, Instruction { sparse: 1, ..f16 });
    taken(Kind::F16, false, true, Instruction { sparse: 1, selector: 3, ..f16 });
    refused(Kind::F16, false, true, Instruction { sparse: 1, selector: 4, ..f16 });
    refused(Kind::F16, false, true, Instruction { sparse: 2, ..f16 });
    refused(Kind::F16, false, false, Instruction { saturate: 1, ..f16 });
    taken(Kind::I8, false, false, Instruction { saturate: 1, ..i8 });
    refused(Kind::I8, false, false, Instruction { saturate: 2, ..i8 });
    taken(Kind::F16, false, false, Instruction { negate_a: 1, negate_b: 1, ..f16 });
    refused(Kind::F16, false, false, Instruction { negate_a: 2, ..f16 });
    refused(Kind::F16, false, false, Instruction { negate_b: 2, ..f16 });
    refused(Kind::I8, false, false, Instruction { negate_a: 1, ..i8 });
    refused(Kind::I8, false, false, Instruction { negate_b: 1, ..i8 });
    refused(Kind::F16, false, false, Instruction { max_shift: 1, ..f16 });
    taken(Kind::F16, true, false, Instruction { max_shift: 3, ..f16 });
    refused(Kind::F16, true, false, Instruction { max_shift: 4, ..f16 });
    taken(Kind::I8, false, false, Instruction { transpose_a: 1, transpose_b: 1, ..i8 });
    refused(Kind::I8, false, false, Instruction { transpose_a: 2, ..i8 });
    refused(Kind::I8, false, false, Instruction { transpose_b: 2, ..i8 });
    refused(Kind::F16, false, false, Instruction { dtype: 3, ..f16 });
    refused(Kind::F16, false, false, Instruction { dtype: 4, ..f16 });
    refused(Kind::F16, false, false, Instruction { atype: 2, ..f16 });
    refused(Kind::F16, false, false, Instruction { btype: 2, ..f16 });
    refused(Kind::F16, false, false, Instruction { btype: 8, ..f16 });
    for n in [0, 8, 264, 504] {
        taken(Kind::F16, false, false, Instruction { n, ..f16 });
    }
    for n in [1, 4, 12, 505, 512, 1 << 31, u32::MAX, u32::MAX - 7] {
        refused(Kind::F16, false, false, Instruction { n, ..f16 });
    }
    for m in [0, 16, 32, 256, 496] {
        taken(Kind::F16, false, false, Instruction { m, ..f16 });
    }
    for m in [1, 8, 24, 497, 504, 512, 1 << 31, u32::MAX, u32::MAX - 15] {
        refused(Kind::F16, false, false, Instruction { m, ..f16 });
    }
}

#[test]
fn reading_dtype() {
    for (kind, ws, sp) in opcodes() {
        let code = if kind == Kind::Tf32 { 2 } else { 0 };
        let base = Instruction { sparse: u32::from(sp), ..plain(0, code, code, 128, 64) };
        let listed_codes: &[u32] = match kind {
            Kind::F16 | Kind::F8f6f4 => &[0, 1],
            Kind::Tf32 => &[1],
            Kind::I8 => &[2],
        };
        let word = encode_instruction(kind, ws, sp, &base).unwrap();
        for dtype in 0..3 {
            let want = if listed_codes.contains(&dtype) { 0 } else { 21 };
            assert_eq!(judge_word(kind, ws, sp, word | dtype << 4), want, "{kind:?} {dtype}");
        }
        assert_eq!(judge_word(kind, ws, sp, word | 3 << 4), 12);
    }
}

#[test]
fn reading_types_of_kind_f16() {
    let judge = |dtype, atype, btype| {
        let d = plain(dtype, atype, btype, 128, 64);
        let word = encode_instruction(Kind::F16, false, false, &d).unwrap();
        judge_word(Kind::F16, false, false, word)
    };
    assert_eq!(judge(1, 0, 1), 21);
    assert_eq!(judge(1, 1, 0), 21);
    assert_eq!(judge(0, 1, 1), 21);
    assert_eq!(judge(0, 0, 1), 21);
    assert_eq!(judge(0, 0, 0), 0);
    assert_eq!(judge(1, 0, 0), 0);
    assert_eq!(judge(1, 1, 1), 0);
    assert_eq!(judge(2, 0, 0), 21);
}

#[test]
fn reading_mixed_types() {
    for a in 0..8 {
        for b in 0..8 {
            let good = |c| [0, 1, 3, 4, 5].contains(&c);
            let word = 0x08100010 | a << 7 | b << 10;
            let want = if good(a) && good(b) { 0 } else { 12 };
            assert_eq!(judge_word(Kind::F8f6f4, false, false, word), want);
            let want = if a < 2 && b < 2 { 0 } else { 12 };
            assert_eq!(judge_word(Kind::I8, false, false, word ^ 0x30), want);
            let want = if a == 2 && b == 2 { 0 } else { 12 };
            assert_eq!(judge_word(Kind::Tf32, false, false, word), want);
        }
    }
}

#[test]
fn reading_ws() {
    for kind in Kind::ALL {
        for (sp, ns) in [(false, &[64, 128, 256][..]), (true, &[64, 128])] {
            for n in (0..=520).step_by(4) {
                let d = plain(if kind == Kind::I8 { 2 } else { 1 }, 0, 0, 32, n);
                let want = if ns.contains(&n) { 0 } else { 2 };
                assert_eq!(listing(kind, true, sp, &d), want);
            }
        }
    }
    let i8_48 = plain(S32, 1, 0, 128, 48);
    assert_eq!(listed(Kind::I8, true, false, &i8_48), 20);
}

/// With `.ws` the list of N goes by the `.sp` of the opcode, in each kind.
#[test]
fn reading_ws_sp() {
    for kind in Kind::ALL {
        let code = if kind == Kind::Tf32 { 2 } else { 0 };
        let dtype = if kind == Kind::I8 { S32 } else { F32 };
        let dense = |m, n| plain(dtype, code, code, m, n);
        let sparse = |m, n| Instruction { sparse: 1, ..dense(m, n) };
        let judge = |ws, sp, d| {
            // N is no matter of coding
            let word = encode_instruction(kind, ws, sp, &d).unwrap();
            assert_eq!(decode_instruction(kind, ws, sp, word), Ok(d));
            judge_word(kind, ws, sp, word)
        };
        for m in [32, 64, 128] {
            assert_eq!(judge(true, true, sparse(m, 64)), 0);
            assert_eq!(judge(true, true, sparse(m, 128)), 0);
            assert_eq!(judge(true, true, sparse(m, 192)), 20);
            assert_eq!(judge(true, true, sparse(m, 256)), 20);
            assert_eq!(judge(true, false, dense(m, 256)), 0);
            assert_eq!(judge(false, true, sparse(m, 256)), if m == 32 { 13 } else { 0 });
        }
        assert_eq!(judge(true, true, sparse(256, 256)), 13);
        let word = encode_instruction(kind, true, false, &dense(128, 256)).unwrap();
        assert_eq!(judge_word(kind, true, true, word), 12);
        assert_eq!(judge_word(kind, true, false, word | 4), 12);
    }
}

// The lists, written out once more in another way.

#[test]
fn listing_order_and_lists() {
    for (kind, ws, sp) in opcodes() {
        let dtype = if kind == Kind::I8 { 2 } else { 1 };
        for m in 0..600 {
            let want = if m == 64 || m == 128 || (ws && m == 32) { 0 } else { 1 };
            assert_eq!(listing(kind, ws, sp, &plain(dtype, 0, 0, m, 64)), want);
        }
        let ns: Vec<u32> = if ws && sp {
            vec![64, 128]
        } else if ws {
            vec![64, 128, 256]
        } else if kind == Kind::I8 {
            [8, 16, 24, 32].into_iter().chain((3..=16).map(|i| i * 16)).collect()
        } else {
            (1..=32).map(|i| i * 8).collect()
        };
        for n in 0..600 {
            let want = if ns.contains(&n) { 0 } else { 2 };
            assert_eq!(listing(kind, ws, sp, &plain(dtype, 0, 0, 128, n)), want);
        }
        // Everything wrong: M is named; M right: N; both right: types.
        for (m, n, place, reason) in [(16, 4, 1, 13), (64, 4, 2, 20), (64, 64, 3, 21)] {
            let d = plain(3, 0, 1, m, n);
            assert_eq!(listing(kind, ws, sp, &d), place);
            assert_eq!(listed(kind, ws, sp, &d), reason);
        }
    }
}

#[test]
fn the_list_of_n_does_not_go_by_m() {
    for (kind, ws, sp) in opcodes() {
        let dtype = if kind == Kind::I8 { 2 } else { 1 };
        for n in (0..=504).step_by(8) {
            let at = |m| listed(kind, ws, sp, &plain(dtype, 0, 0, m, n));
            assert_eq!(at(64), at(128));
            assert_eq!(at(32), if ws { at(64) } else { 13 });
        }
    }
}

#[test]
fn k_values() {
    let ks: Vec<[u32; 2]> = Kind::ALL.iter().map(|&kind| [k(kind, false), k(kind, true)]).collect();
    assert_eq!(ks, [[16, 32], [8, 16], [32, 64], [32, 64]]);
}

#[test]
fn numbers_of_kinds() {
    for (n, kind) in Kind::ALL.into_iter().enumerate() {
        assert_eq!(Kind::from_number(n as u32), Some(kind));
        assert_eq!(kind.number(), n as u32);
    }
    assert_eq!(Kind::from_number(4), None);
}

/// All words with one N and one M: the number that reads is a product over the
/// fields, and each that reads encodes back to itself.
#[test]
fn all_words_of_one_size() {
    for (kind, ws, sp) in opcodes() {
        let mut count = 0u64;
        for low in 0..1u32 << 17 {
            for high in 0..16u32 {
                // Bits 23, 29, 30 and 31 from `high`; N 64 and M 128 stand between.
                let word = low | 8 << 17 | (high & 1) << 23 | 8 << 24 | (high >> 1) << 29;
                match decode_instruction(kind, ws, sp, word) {
                    Ok(d) => {
                        count += 1;
                        assert_eq!(encode_instruction(kind, ws, sp, &d), Ok(word));
                        assert_eq!((d.n, d.m), (64, 128));
                    }
                    Err(reason) => assert_eq!(reason, 12),
                }
            }
        }
        let selector = if sp { 4 } else { 1 };
        let saturate = if kind == Kind::I8 { 2 } else { 1 };
        let negate = if kind == Kind::I8 { 1 } else { 4 };
        let shift = if ws { 4 } else { 1 };
        let types = [2, 1, 5, 2][kind.number() as usize];
        assert_eq!(count, selector * saturate * 3 * types * types * negate * 4 * shift);
    }
}

#[test]
fn random_words() {
    let mut random = Random(1);
    for _ in 0..200_000 {
        let word = random.next() as u32 & !(1 << 6 | 1 << 23 | 1 << 29);
        for (kind, ws, sp) in opcodes() {
            if let Ok(d) = decode_instruction(kind, ws, sp, word) {
                assert_eq!(encode_instruction(kind, ws, sp, &d), Ok(word));
                assert_eq!(Instruction::from_array(d.to_array()), d);
            }
        }
    }
}

#[test]
fn random_shared_words() {
    let mut random = Random(2);
    let unused = 3 << 14 | 3 << 30 | 0xffu64 << 53;
    let mut read = 0;
    for _ in 0..200_000 {
        let word = random.next() & !unused & !(7 << 46) | 1 << 46;
        match decode_shared(word) {
            Ok(d) => {
                read += 1;
                assert_eq!(encode_shared(&d), Ok(word));
                assert_eq!(Shared::from_array(d.to_array()), d);
                for bit in 0..64 {
                    if unused >> bit & 1 == 1 || (46..49).contains(&bit) {
                        assert_eq!(decode_shared(word ^ 1 << bit), Err(12));
                    }
                }
            }
            Err(reason) => {
                assert_eq!(reason, 12);
                let swizzle = word >> 61;
                let base = word >> 49 & 7;
                assert!([3, 5, 7].contains(&swizzle) || (swizzle == 0 && base != 0));
            }
        }
    }
    assert!(read > 80_000);
    assert_eq!(decode_shared(0), Err(12));
}

#[test]
fn shared_small_fields() {
    for base in 0..10 {
        for mode in 0..4 {
            for swizzle in 0..10 {
                let d = Shared { start: 16, leading: 32, stride: 48, base, mode, swizzle };
                let good = base < 8 && mode < 2 && [0, 1, 2, 4, 6].contains(&swizzle) && (swizzle != 0 || base == 0);
                match encode_shared(&d) {
                    Ok(word) => {
                        assert!(good);
                        assert_eq!(decode_shared(word), Ok(d));
                    }
                    Err(reason) => {
                        assert!(!good);
                        assert_eq!(reason, 12);
                    }
                }
            }
        }
    }
}
