//! One measured run: `bench FUNCTION SIDE`, the side `proved` or `reference`. Under callgrind only `measured` counts
//! (bench/words). Both sides are called through the same C signatures. Prints how many calls it made and a sum over
//! the answers, which must be the same for both sides. For a sheet it prints its bytes as well.
#![deny(clippy::undocumented_unsafe_blocks)]

use staplehorn_difftest::proved::c;
use staplehorn_difftest::random::Random;
use staplehorn_reference::descriptor::{self as reference, Instruction, Kind, Shared};
use staplehorn_reference::{fragment, judge, statement};

const CALLS: usize = 2_000;
/// How many bytes of sheets are judged in one run.
const SHEET_BYTES: usize = 131_072;

/// Half of the words read, as in the comparison; the others are random.
fn words() -> Vec<u32> {
    let mut r = Random::new(7);
    let types = &[0, 1]; // of kind f16
    (0..CALLS)
        .map(|i| {
            let w = (r.below(3) as u32) << 4
                | r.pick(types) << 7
                | r.pick(types) << 10
                | (r.below(64) as u32) << 17
                | (r.below(32) as u32) << 24;
            if i % 2 == 0 {
                w
            } else {
                w ^ 1 << r.below(32)
            }
        })
        .collect()
}

fn shared_words() -> Vec<u64> {
    let mut r = Random::new(8);
    (0..CALLS)
        .map(|i| {
            let w = r.below(1 << 14)
                | r.below(1 << 14) << 16
                | r.below(1 << 14) << 32
                | 1 << 46
                | r.below(8) << 49
                | r.pick(&[1, 2, 4, 6]) << 61;
            if i % 2 == 0 {
                w
            } else {
                w ^ 1 << r.below(64)
            }
        })
        .collect()
}

/// Matrices with two numbers each: of a thread and an element, or a row and a column; some are one too large.
fn fragments(first: u64, second: [u64; 3]) -> Vec<[u32; 3]> {
    let mut r = Random::new(11);
    let one = |_| {
        let matrix = r.below(3);
        [matrix, r.below(first + 1), r.below(second[matrix as usize] + 1)].map(|n| n as u32)
    };
    (0..CALLS).map(one).collect()
}

fn instruction_fields() -> Vec<[u32; 13]> {
    let mut r = Random::new(9);
    (0..CALLS)
        .map(|i| {
            let mut f = [
                0,
                0,
                0,
                r.below(3) as u32,
                r.below(2) as u32,
                r.below(2) as u32,
                0,
                0,
                1,
                0,
                r.below(64) as u32 * 8,
                r.below(32) as u32 * 16,
                0,
            ];
            if i % 2 == 1 {
                f[r.below(13) as usize] = r.below(9) as u32;
            }
            f
        })
        .collect()
}

fn shared_fields() -> Vec<[u64; 6]> {
    let mut r = Random::new(10);
    (0..CALLS)
        .map(|i| {
            let mut f =
                [r.below(1 << 14) * 16, r.below(1 << 14) * 16, r.below(1 << 14) * 16, r.below(8), r.below(2), r.pick(&[1, 2, 4, 6])];
            if i % 2 == 1 {
                f[r.below(6) as usize] = r.below(300_000);
            }
            f
        })
        .collect()
}

/// Typical statements, by name.
fn text(name: &str) -> Option<Vec<u8>> {
    let list = |n: usize| (0..n).map(|i| format!("%r{i}")).collect::<Vec<_>>().join(", ");
    let text = match name {
        "mov" => "mov.b32 idesc, 0x08100010;".into(),
        "mov64" => "mov.b64 adesc, 0x0000400800100000;".into(),
        "zero" => "mov.b32 x, 0;".into(),
        "decimal" => "mov.b32 x, 4294967295;".into(),
        "decimal64" => "mov.b64 x, 18446744073709551615;".into(),
        "octal" => "mov.b32 x, 037777777777;".into(),
        "binary" => "mov.b32 x, 0b100000U;".into(),
        "sum" => "mov.b32 x, (32*65536)+4;".into(),
        "sum1001" => format!("mov.b32 x, 1{};", "+1".repeat(500)),
        "sum4001" => format!("mov.b32 x, 1{};", "+1".repeat(2_000)),
        "levels" => format!("mov.b32 x, {}1{};", "(".repeat(16), ")".repeat(16)),
        "alloc" => "tcgen05.alloc.cta_group::1.sync.aligned.shared::cta.b32 [taddr], 128;".into(),
        "dealloc" => "tcgen05.dealloc.cta_group::1.sync.aligned.b32 taddr, 128;".into(),
        "ld4" => format!("tcgen05.ld.sync.aligned.32x32b.x4.b32 {{{}}}, [taddr+2097152];", list(4)),
        "st32" => format!("tcgen05.st.sync.aligned.32x32b.x32.b32 [taddr], {{{}}};", list(32)),
        "ld128" => format!("tcgen05.ld.sync.aligned.32x32b.x128.b32 {{{}}}, [taddr];", list(128)),
        "mma" => "tcgen05.mma.cta_group::1.kind::f16 [taddr], adesc, bdesc, idesc, p;".into(),
        "mma.ws.sp" => "tcgen05.mma.ws.sp.cta_group::1.kind::f8f6f4 [taddr], [taddr+64], bdesc, [taddr+96], idesc, p;".into(),
        "wait" => "tcgen05.wait::ld.sync.aligned;".into(),
        "exit" => "exit;".into(),
        "refused" => "tcgen05.ld.sync.aligned.32x32b.x4.b32 {%r0, %r1, %r2, %r3}, [taddr+2097152]".into(),
        _ => return None,
    };
    Some(String::into_bytes(text))
}

/// A sheet of a kind with as many lines as this many bytes allow. It passes.
fn sheet(kind: &str, bytes: usize) -> Option<Vec<u8>> {
    let (opening, lines, closing): (&str, fn(usize) -> String, &str) = match kind {
        "allocs" => ("", alloc_lines, ""),
        "loads" => (ALLOC, load_lines, DEALLOC),
        "mma" => (ALLOC, mma_lines, DEALLOC),
        "mov" => ("", mov_lines, ""),
        "mixed" => (ALLOC, mixed_lines, DEALLOC),
        _ => return None,
    };
    let mut sheet = format!("sheet\t1\tsm_100a\n{opening}");
    let mut end = format!("{closing}0\texit;\n");
    for turn in 0.. {
        let more = lines(turn);
        let wait = if kind == "loads" { WAITS.get(turn).copied().unwrap_or("") } else { "" };
        if sheet.len() + more.len() + wait.len() + end.len() > bytes {
            break;
        }
        sheet.push_str(&more);
        end.insert_str(0, wait);
    }
    Some((sheet + &end).into_bytes())
}

const ALLOC: &str = "0\ttcgen05.alloc.cta_group::1.sync.aligned.b32 [taddr], 256;\n";
const DEALLOC: &str = "0\ttcgen05.dealloc.cta_group::1.sync.aligned.b32 taddr, 256;\n";
/// The wait of each warp that `load_lines` has: warps 0 and 2 load, 1 and 3 store.
const WAITS: [&str; 4] = [
    "0\ttcgen05.wait::ld.sync.aligned;\n",
    "1\ttcgen05.wait::st.sync.aligned;\n",
    "2\ttcgen05.wait::ld.sync.aligned;\n",
    "3\ttcgen05.wait::st.sync.aligned;\n",
];

fn alloc_lines(turn: usize) -> String {
    let (name, columns) = (turn % 100, 32 << (turn % 5));
    format!(
        "0\ttcgen05.alloc.cta_group::1.sync.aligned.b32 [t{name}], {columns};\n\
         0\ttcgen05.dealloc.cta_group::1.sync.aligned.b32 t{name}, {columns};\n"
    )
}

fn registers(count: usize) -> String {
    (0..count).map(|i| format!("%r{i}")).collect::<Vec<_>>().join(", ")
}

fn load_lines(turn: usize) -> String {
    let (warp, list) = (turn % 4, registers(if turn % 2 == 0 { 128 } else { 64 }));
    let lane = warp * 32 * 65_536;
    if turn % 2 == 0 {
        format!("{warp}\ttcgen05.ld.sync.aligned.32x32b.x128.b32 {{{list}}}, [taddr+{}];\n", lane + 128)
    } else {
        format!("{warp}\ttcgen05.st.sync.aligned.16x64b.x64.b32 [taddr+{}], {{{list}}};\n", lane + 1_048_576)
    }
}

fn mma_lines(turn: usize) -> String {
    let (sparse, column) = (turn % 2 == 1, turn % 64);
    let (sp, meta, word) = if sparse { (".sp", "[taddr+254], ", 0x0810_0014) } else { ("", "", 0x0810_0010) };
    format!(
        "0\tmov.b64 adesc, 0x0000400800100000;\n\
         0\tmov.b64 bdesc, {};\n\
         0\tmov.b32 idesc, {word:#010x};\n\
         0\ttcgen05.mma{sp}.cta_group::1.kind::f16 [taddr+{column}], adesc, bdesc, {meta}idesc, p;\n\
         0\ttcgen05.mma{sp}.cta_group::1.kind::f16 [taddr+{column}], [taddr+128], bdesc, {meta}idesc, p;\n",
        0x0000_4008_0010_0000u64 + turn as u64
    )
}

fn mov_lines(turn: usize) -> String {
    let (name, wide) = (turn % 128, turn % 2 == 0);
    format!("0\tmov.b{} value{name}, {};\n", if wide { 64 } else { 32 }, turn * 31)
}

fn mixed_lines(turn: usize) -> String {
    let (name, list) = (turn % 10, registers(16));
    format!(
        "0\ttcgen05.alloc.cta_group::1.sync.aligned.shared::cta.b32 [t{name}], 64;\n\
         1\ttcgen05.st.sync.aligned.32x32b.x16.b32 [t{name}+2097168], {{{list}}};\n\
         1\ttcgen05.wait::st.sync.aligned;\n\
         {}\
         0\ttcgen05.fence::after_thread_sync;\n\
         2\ttcgen05.ld.sync.aligned.16x256b.x4.b32 {{{list}}}, [t{name}+4194304];\n\
         2\ttcgen05.wait::ld.sync.aligned;\n\
         0\ttcgen05.dealloc.cta_group::1.sync.aligned.b32 t{name}, 64;\n",
        mma_lines(turn)
    )
}

/// The reference behind the signatures of include/staplehorn.h.
mod behind {
    use super::*;

    fn opcode(kind: u32, ws: u32, sp: u32) -> Option<(Kind, bool, bool)> {
        (ws <= 1 && sp <= 1).then_some(())?;
        Some((Kind::from_number(kind)?, ws == 1, sp == 1))
    }

    #[inline(never)]
    pub unsafe extern "C" fn instruction_decode(kind: u32, ws: u32, sp: u32, word: u32, fields: *mut [u32; 13]) -> u32 {
        let read = opcode(kind, ws, sp).map_or(Err(12), |(kind, ws, sp)| reference::decode_instruction(kind, ws, sp, word));
        let (reason, d) = read.map_or_else(|reason| (reason, Instruction::default()), |d| (0, d));
        *fields = d.to_array();
        reason
    }

    #[inline(never)]
    pub unsafe extern "C" fn instruction_encode(kind: u32, ws: u32, sp: u32, fields: *const [u32; 13], word: *mut u32) -> u32 {
        let d = Instruction::from_array(*fields);
        let coded = opcode(kind, ws, sp).map_or(Err(12), |(kind, ws, sp)| reference::encode_instruction(kind, ws, sp, &d));
        let (reason, w) = coded.map_or_else(|reason| (reason, 0), |w| (0, w));
        *word = w;
        reason
    }

    #[inline(never)]
    pub unsafe extern "C" fn instruction_judge(kind: u32, ws: u32, sp: u32, word: u32) -> u32 {
        opcode(kind, ws, sp).map_or(12, |(kind, ws, sp)| reference::judge_word(kind, ws, sp, word))
    }

    #[inline(never)]
    pub unsafe extern "C" fn statement_reason(text: *const u8, length: usize, column: *mut usize) -> u32 {
        let verdict = statement::judge_alone(std::slice::from_raw_parts(text, length));
        *column = verdict.column;
        verdict.reason
    }

    #[inline(never)]
    pub unsafe extern "C" fn statement_canonical(text: *const u8, length: usize, room: *mut u8, size: usize, written: *mut usize) -> u32 {
        let (reason, n) = match statement::canonical(std::slice::from_raw_parts(text, length), std::slice::from_raw_parts_mut(room, size)) {
            Ok(n) => (0, n),
            Err(reason) => (reason, 0),
        };
        *written = n;
        reason
    }

    /// The reference does not count its starts.
    #[inline(never)]
    pub unsafe extern "C" fn judge(sheet: *const u8, length: usize, starts: *mut u16, places: usize, answer: *mut [u32; 6]) -> u32 {
        let a = judge::judge(std::slice::from_raw_parts(sheet, length), std::slice::from_raw_parts_mut(starts, places));
        *answer = [a.reason, a.line as u32, a.column as u32, a.held, a.peak, 0];
        a.reason
    }

    #[inline(never)]
    pub unsafe extern "C" fn shared_decode(word: u64, fields: *mut [u64; 6]) -> u32 {
        let (reason, d) = reference::decode_shared(word).map_or_else(|reason| (reason, Shared::default()), |d| (0, d));
        *fields = d.to_array();
        reason
    }

    #[inline(never)]
    pub unsafe extern "C" fn shared_encode(fields: *const [u64; 6], word: *mut u64) -> u32 {
        let (reason, w) = reference::encode_shared(&Shared::from_array(*fields)).map_or_else(|reason| (reason, 0), |w| (0, w));
        *word = w;
        reason
    }

    #[inline(never)]
    pub unsafe extern "C" fn fragment_place(matrix: u32, thread: u32, element: u32, place: *mut [u32; 2]) -> u32 {
        let (reason, row, column) = fragment::place(matrix, thread, element);
        *place = [row, column];
        reason
    }

    #[inline(never)]
    pub unsafe extern "C" fn fragment_holder(matrix: u32, row: u32, column: u32, holder: *mut [u32; 2]) -> u32 {
        let (reason, thread, element) = fragment::holder(matrix, row, column);
        *holder = [thread, element];
        reason
    }
}

#[no_mangle]
#[inline(never)]
fn measured(work: &mut dyn FnMut() -> u64) -> u64 {
    work()
}

/// A sum over a reason and the ends of what was written: enough to see a difference, and cheap.
fn mixed(sum: u64, reason: u32, first: u64, last: u64) -> u64 {
    sum.wrapping_mul(31) ^ u64::from(reason) ^ first << 8 ^ last
}

fn main() {
    let args: Vec<String> = std::env::args().collect();
    let (function, side) = (args.get(1).map_or("", String::as_str), args.get(2).map_or("", String::as_str));
    let proved = match side {
        "proved" => true,
        "reference" => false,
        _ => usage(),
    };
    let mut calls = CALLS;
    let mut bytes = None;
    let (words, shared, fields, six) = (words(), shared_words(), instruction_fields(), shared_fields());
    let mut work: Box<dyn FnMut() -> u64> = match function {
        "instruction_decode" => {
            let f = if proved { c::staplehorn_instruction_decode } else { behind::instruction_decode };
            Box::new(move || {
                words.iter().fold(0, |s, &w| {
                    let mut out = [0; 13];
                    // SAFETY: numbers, locals and slices alone; each array has the header's size.
                    let reason = unsafe { f(0, 0, 0, w, &mut out) };
                    mixed(s, reason, out[10].into(), out[12].into())
                })
            })
        }
        "instruction_encode" => {
            let f = if proved { c::staplehorn_instruction_encode } else { behind::instruction_encode };
            Box::new(move || {
                fields.iter().fold(0, |s, x| {
                    let mut word = 0;
                    // SAFETY: numbers, locals and slices alone; each array has the header's size.
                    let reason = unsafe { f(0, 0, 0, x, &mut word) };
                    mixed(s, reason, word.into(), 0)
                })
            })
        }
        "instruction_judge" => {
            let f = if proved { c::staplehorn_instruction_judge } else { behind::instruction_judge };
            // SAFETY: numbers, locals and slices alone; each array has the header's size.
            Box::new(move || words.iter().fold(0, |s, &w| mixed(s, unsafe { f(0, 0, 0, w) }, 0, 0)))
        }
        "shared_decode" => {
            let f = if proved { c::staplehorn_shared_decode } else { behind::shared_decode };
            Box::new(move || {
                shared.iter().fold(0, |s, &w| {
                    let mut out = [0; 6];
                    // SAFETY: numbers, locals and slices alone; each array has the header's size.
                    let reason = unsafe { f(w, &mut out) };
                    mixed(s, reason, out[0], out[5])
                })
            })
        }
        "shared_encode" => {
            let f = if proved { c::staplehorn_shared_encode } else { behind::shared_encode };
            Box::new(move || {
                six.iter().fold(0, |s, x| {
                    let mut word = 0;
                    // SAFETY: numbers, locals and slices alone; each array has the header's size.
                    let reason = unsafe { f(x, &mut word) };
                    mixed(s, reason, word, 0)
                })
            })
        }
        "fragment_place" | "fragment_holder" => {
            let place = function == "fragment_place";
            let f = match (place, proved) {
                (true, true) => c::staplehorn_fragment_place,
                (true, false) => behind::fragment_place,
                (false, true) => c::staplehorn_fragment_holder,
                (false, false) => behind::fragment_holder,
            };
            let asked = if place { fragments(32, [8, 4, 4]) } else { fragments(16, [16, 8, 8]) };
            Box::new(move || {
                asked.iter().fold(0, |s, &[matrix, first, second]| {
                    let mut out = [0; 2];
                    // SAFETY: numbers, locals and slices alone; each array has the header's size.
                    let reason = unsafe { f(matrix, first, second, &mut out) };
                    mixed(s, reason, out[0].into(), out[1].into())
                })
            })
        }
        _ => match function.split_once(':') {
            Some(("reason", name)) => {
                let t = text(name).unwrap_or_else(|| usage());
                let f = if proved { c::staplehorn_statement_reason } else { behind::statement_reason };
                Box::new(move || {
                    (0..CALLS).fold(0, |s, _| {
                        let mut column = 0;
                        // SAFETY: numbers, locals and slices alone; each array has the header's size.
                        let reason = unsafe { f(t.as_ptr(), t.len(), &mut column) };
                        mixed(s, reason, t.len() as u64, column as u64)
                    })
                })
            }
            Some(("canonical", name)) => {
                let t = text(name).unwrap_or_else(|| usage());
                let mut room = vec![0; 4096];
                let f = if proved { c::staplehorn_statement_canonical } else { behind::statement_canonical };
                Box::new(move || {
                    (0..CALLS).fold(0, |s, _| {
                        let mut n = 0;
                        // SAFETY: numbers, locals and slices alone; each array has the header's size.
                        let reason = unsafe { f(t.as_ptr(), t.len(), room.as_mut_ptr(), room.len(), &mut n) };
                        mixed(s, reason, n as u64, room[n / 2].into())
                    })
                })
            }
            Some(("sheet", kind_and_size)) => {
                let (kind, size) = kind_and_size.split_once(':').unwrap_or_else(|| usage());
                let size: usize = size.parse().unwrap_or_else(|_| usage());
                let t = sheet(kind, size).unwrap_or_else(|| usage());
                calls = (SHEET_BYTES / size.max(1)).max(1);
                bytes = Some(t.len());
                let mut starts = vec![0; 4096];
                let f = if proved { c::staplehorn_judge } else { behind::judge };
                Box::new(move || {
                    (0..calls).fold(0, |s, _| {
                        let mut answer = [0; 6];
                        // SAFETY: numbers, locals and slices alone; each array has the header's size.
                        let reason = unsafe { f(t.as_ptr(), t.len(), starts.as_mut_ptr(), starts.len(), &mut answer) };
                        assert_eq!(reason, 0, "a sheet to be measured passes");
                        mixed(s, reason, answer[1].into(), u64::from(answer[4]) ^ u64::from(starts[1]) << 16)
                    })
                })
            }
            _ => usage(),
        },
    };
    let sum = measured(&mut *work);
    // a third argument asks for the time of a call as well, the best of that many turns
    let turns = args.get(3).map_or(0, |n| n.parse().unwrap_or(0));
    let best = (0..turns).map(|_| time(&mut *work, calls)).fold(f64::INFINITY, f64::min);
    match bytes {
        Some(bytes) => println!("{calls} {sum} {best:.1} {bytes}"),
        None => println!("{calls} {sum} {best:.1}"),
    }
}

/// Nanoseconds for each call.
fn time(work: &mut dyn FnMut() -> u64, calls: usize) -> f64 {
    let began = std::time::Instant::now();
    std::hint::black_box(work());
    began.elapsed().as_nanos() as f64 / calls as f64
}

fn usage() -> ! {
    eprintln!("usage: bench FUNCTION proved|reference [TURNS]; FUNCTION is instruction_decode, instruction_encode, instruction_judge, shared_decode, shared_encode, fragment_place, fragment_holder, reason:NAME, canonical:NAME or sheet:KIND:BYTES");
    std::process::exit(2);
}
