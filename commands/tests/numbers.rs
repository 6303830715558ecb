//! Numbers through the wrapper: what the library reads in each place, what it writes, and where it points; `describe` reads them the same.

use commands::number::{b32, b64, plain32, plain64, Fault, MOST};
use staplehorn::{canonical, judge, statement, Passed, Reason, Refused, RefusedStatement};

const ALLOC: &str = "tcgen05.alloc.cta_group::1.sync.aligned.b32";
const DEALLOC: &str = "tcgen05.dealloc.cta_group::1.sync.aligned.b32";

/// A number of each spelling, and its value.
const NUMBERS: [(&str, u64); 30] = [
    ("0", 0),
    ("0U", 0),
    ("00", 0),
    ("000", 0),
    ("00U", 0),
    ("07", 7),
    ("010", 8),
    ("040", 32),
    ("064", 52),
    ("064U", 52),
    ("0100", 64),
    ("00000000000000000000000000000000000000000000000000000000000000000000100U", 64),
    ("1", 1),
    ("9U", 9),
    ("64", 64),
    ("64U", 64),
    ("1000", 1_000),
    ("0x0", 0),
    ("0x40", 64),
    ("0X0040U", 64),
    ("0xb1", 0xB1),
    ("0xB", 11),
    ("0x0b1U", 0xB1),
    ("0xDeadBeefU", 0xDEAD_BEEF),
    ("0b0", 0),
    ("0b1U", 1),
    ("0B100000", 32),
    ("0b0000000000000000000000000000000000000000000000000000000000000000000000101U", 5),
    ("0x000000000000000000000000000000000000000000000000000000000000000000000000fU", 15),
    ("0b11", 3),
];

/// Runs that are no numbers.
const OTHERS: [&str; 28] = [
    "08", "09", "019", "0018", "08U", "0o7", "0b2", "0b102", "0b12", "0b", "0B", "0bU", "0x", "0X", "0xU", "0xg", "0x1g", "64u", "0u",
    "0UU", "64UU", "64U1", "0U0", "U", "U1", "64abc", "0b1b", "0d10",
];

/// The largest number of so many bits in each base, and one more.
fn limits(bits: usize) -> [(String, String); 4] {
    let ones = "1".repeat(bits);
    let zeros = "0".repeat(bits);
    let (octal, more, decimal, one_more) = match bits {
        32 => ("037777777777", "040000000000", "4294967295", "4294967296"),
        _ => ("01777777777777777777777", "02000000000000000000000", "18446744073709551615", "18446744073709551616"),
    };
    [
        (format!("0x{}", "F".repeat(bits / 4)), format!("0x1{}", "0".repeat(bits / 4))),
        (format!("0b{ones}"), format!("0b1{zeros}")),
        (octal.into(), more.into()),
        (decimal.into(), one_more.into()),
    ]
}

fn written(text: &str) -> Result<String, Reason> {
    canonical(text.as_bytes()).map(|bytes| String::from_utf8(bytes).unwrap())
}

#[test]
fn every_spelling_is_written_in_decimals() {
    for (text, value) in NUMBERS {
        for (before, after) in [
            ("mov.b32 x, ", ";"),
            ("mov.b64 x, ", ";"),
            ("tcgen05.alloc.cta_group::1.sync.aligned.b32 [t], ", ";"),
            ("tcgen05.dealloc.cta_group::1.sync.aligned.b32 t, ", ";"),
        ] {
            assert_eq!(written(&format!("{before}{text}{after}")), Ok(format!("{before}{value}{after}")), "{text}");
        }
        let offset = if value == 0 { String::new() } else { format!("+{value}") };
        let ld = "tcgen05.ld.sync.aligned.32x32b.x1.b32 {r}, [t";
        assert_eq!(written(&format!("{ld}+{text}];")), Ok(format!("{ld}{offset}];")), "{text}");
        let mma = |at: &str| format!("tcgen05.mma.sp.cta_group::1.kind::f16 [d{at}], [a{at}], b, [m{at}], i, p;");
        assert_eq!(written(&mma(&format!("+{text}"))), Ok(mma(&offset)), "{text}");
        assert_eq!((b32(text), b64(text)), (Ok(value as u32), Ok(value)), "{text}");
    }
}

/// Reason 3 at the first byte of the run, wherever it stands; `describe` says whether the leading zero may be why.
#[test]
fn a_run_that_is_no_number_is_refused_at_its_start() {
    for text in OTHERS {
        for (before, after) in [("mov.b32 x, ", ";"), ("tcgen05.ld.sync.aligned.32x32b.x1.b32 {r}, [ t + ", " ] ;")] {
            let whole = format!("{before}{text}{after}");
            let refused = RefusedStatement { reason: Reason::Form, column: before.len() + 1 };
            assert_eq!(statement(whole.as_bytes()), Err(refused), "{whole}");
            assert_eq!(written(&whole), Err(Reason::Form), "{whole}");
        }
        let fault = if text.bytes().all(|b| b.is_ascii_digit()) { Fault::Octal } else { Fault::Spelling };
        assert_eq!((b32(text), b64(text)), (Err(fault), Err(fault)), "{text}");
    }
}

/// Reason 4 goes by the value, at the number's first byte, with leading zeros and `U` or without.
#[test]
fn the_limits_of_every_base() {
    for bits in [32, 64] {
        let most = if bits == 32 { u64::from(u32::MAX) } else { u64::MAX };
        for (largest, over) in limits(bits) {
            let prefix = if largest.starts_with("0x") || largest.starts_with("0b") { 2 } else { 0 };
            let zeros = |text: &str| format!("{}0000{}", &text[..prefix], &text[prefix..]);
            let longer = if largest.starts_with('0') { [zeros(&largest), zeros(&over)] } else { [largest.clone(), over.clone()] };
            for (good, bad) in [(&largest, &over), (&format!("{largest}U"), &format!("{over}U")), (&longer[0], &longer[1])] {
                let mov = |text: &str| format!("mov.b{bits} x, {text};");
                assert_eq!(written(&mov(good)), Ok(mov(&most.to_string())), "{good}");
                assert_eq!(written(&mov(bad)), Err(Reason::Number), "{bad}");
                let refused = RefusedStatement { reason: Reason::Number, column: 12 };
                assert_eq!(statement(mov(bad).as_bytes()), Err(refused), "{bad}");
                if bits == 32 {
                    assert_eq!((b32(good), b32(bad), b64(bad)), (Ok(u32::MAX), Err(Fault::Large(32)), Ok(1 << 32)), "{good}");
                    let st = |text: &str| format!("tcgen05.st.sync.aligned.32x32b.x1.b32 [t+{text}], {{r}};");
                    assert_eq!(written(&st(good)), Ok(st("4294967295")), "{good}");
                    let refused = RefusedStatement { reason: Reason::Number, column: 42 };
                    assert_eq!(statement(st(bad).as_bytes()), Err(refused), "{bad}");
                } else {
                    assert_eq!((b64(good), b64(bad), b32(good)), (Ok(u64::MAX), Err(Fault::Large(64)), Err(Fault::Large(32))), "{good}");
                }
            }
        }
    }
}

/// The value of a run, by the table of spellings.
fn value(run: &str) -> Option<u64> {
    let run = run.strip_suffix('U').unwrap_or(run);
    let (digits, base) = match run.as_bytes() {
        [b'0', b'x' | b'X', ..] => (&run[2..], 16),
        [b'0', b'b' | b'B', ..] => (&run[2..], 2),
        [b'0', ..] => (run, 8),
        _ => (run, 10),
    };
    let good = !digits.is_empty() && digits.bytes().all(|b| char::from(b).is_digit(base));
    good.then(|| u64::from_str_radix(digits, base).ok()).flatten()
}

/// Every run of one to five bytes of those that some spelling has, and of some that none has.
#[test]
fn every_short_run() {
    const BYTES: &[u8] = b"012789abBxXUug_";
    let (mut numbers, mut others) = (0, 0);
    for length in 1..=5 {
        for index in 0..BYTES.len().pow(length) {
            let run: String = (0..length).map(|place| char::from(BYTES[index / BYTES.len().pow(place) % BYTES.len()])).collect();
            let text = format!("mov.b64 x, {run};");
            if let Some(value) = value(&run) {
                numbers += 1;
                assert_eq!(written(&text), Ok(format!("mov.b64 x, {value};")), "{run}");
            } else {
                others += 1;
                assert_eq!(statement(text.as_bytes()), Err(RefusedStatement { reason: Reason::Form, column: 12 }), "{run}");
            }
        }
    }
    assert_eq!((numbers, others), (11_354, 802_261));
}

#[test]
fn sheets() {
    let sheet = |lines: &[String]| format!("sheet\t1\tsm_100a\n{}0\texit;\n", lines.concat()).into_bytes();
    let line = |warp: u32, text: String| format!("{warp}\t{text};\n");
    let ld = |offset: &str| format!("tcgen05.ld.sync.aligned.32x32b.x1.b32 {{r}}, [t+{offset}]");
    // taken in one spelling and given back in another
    for (taken, given) in [("0100", "64"), ("64U", "0x40"), ("0b1000000", "0100U"), ("0X40U", "0B1000000U")] {
        let lines = [line(2, format!("{ALLOC} [t], {taken}")), line(2, format!("{DEALLOC} t, {given}"))];
        assert_eq!(judge(&sheet(&lines)), Ok(Passed { line: 4, peak: 64, starts: vec![0] }), "{taken}");
    }
    // octal 064 is 52, and never 64
    let columns = Refused { reason: Reason::Columns, line: 2, column: 52, held: 0, peak: 0 };
    assert_eq!(judge(&sheet(&[line(0, format!("{ALLOC} [t], 064"))])), Err(columns));
    let given = [line(0, format!("{ALLOC} [t], 64")), line(0, format!("{DEALLOC} t, 064"))];
    assert_eq!(judge(&sheet(&given)), Err(Refused { reason: Reason::Columns, line: 3, column: 52, held: 64, peak: 64 }));
    // 040 is column 32, past the end of 32; 037 is the last; 010000000 is lane 32, which is warp 1's
    let one = |warp: u32, offset: &str| {
        let wait = line(warp, "tcgen05.wait::ld.sync.aligned".into());
        sheet(&[line(0, format!("{ALLOC} [t], 32")), line(warp, ld(offset)), wait, line(0, format!("{DEALLOC} t, 32"))])
    };
    let passed = Ok(Passed { line: 6, peak: 32, starts: vec![0] });
    assert_eq!(judge(&one(0, "037")), passed);
    assert_eq!(judge(&one(0, "040")), Err(Refused { reason: Reason::Cells, line: 3, column: 46, held: 32, peak: 32 }));
    assert_eq!(judge(&one(1, "010000000")), passed);
    assert_eq!(judge(&one(1, "10000000")), Err(Refused { reason: Reason::Warp, line: 3, column: 46, held: 32, peak: 32 }));
    let form = Refused { reason: Reason::Form, line: 3, column: 49, held: 32, peak: 32 };
    assert_eq!(judge(&one(0, "08")), Err(form));
    assert_eq!(judge(&one(0, "040000000000")), Err(Refused { reason: Reason::Number, ..form }));
}

/// What has spaces around it is no number, though a statement with it reads; nor is what is longer than a statement.
#[test]
fn what_describe_is_given() {
    for text in ["", " ", "1 ", " 1", "1;", "1_0", "0x1.8", "\u{661}", "1\n", "%1", "$", "x, 1"] {
        assert_eq!(b64(text), Err(Fault::Spelling), "{text:?}");
    }
    for text in ["1+1", "(1)", "-1", "+1", "1 ", ""] {
        assert_eq!((plain32(text), plain64(text)), (Err(Fault::Spelling), Err(Fault::Spelling)), "{text:?}");
    }
    assert_eq!((plain32("0x10"), plain64("064"), plain32("08")), (Ok(16), Ok(52), Err(Fault::Octal)));
    let zeros = "0".repeat(MOST - 1);
    assert_eq!(b64(&format!("{zeros}7")), Ok(7));
    assert_eq!(b64(&format!("0{zeros}7")), Err(Fault::Long));
    assert_eq!(b32(&"9".repeat(MOST)), Err(Fault::Large(32)));
    for (fault, said) in [
        (Fault::Spelling, "no number"),
        (Fault::Octal, "no number (a leading zero means octal)"),
        (Fault::Large(32), "too large for 32 bits"),
        (Fault::Long, "over 4084 bytes"),
    ] {
        assert_eq!(fault.to_string(), said);
    }
}
