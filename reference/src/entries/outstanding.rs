//! Loads and stores that are waited for before their holding is given back, and
//! those that are not.

use super::Entries;

const A32: &str = "0|@alloc [t], 32;";
const D32: &str = "0|@dealloc t, 32;";
const EXIT: &str = "0|exit;";
/// The same with a second holding.
const B32: &str = "0|@alloc [u], 32;";
const E32: &str = "0|@dealloc u, 32;";

/// Loads and stores, and each other's waits.
const BOTH: [(&str, &str); 2] = [("ld", "st"), ("st", "ld")];

pub fn all(e: &mut Entries) {
    marks(e);
    warps(e);
    stars(e);
    loads_and_stores(e);
    each_of_eight(e);
    holdings(e);
    sixteen_holdings(e);
    names_used_again(e);
    what_clears_nothing(e);
    shapes(e);
    exits(e);
}

/// A load or store of one column, at the first lane of the warp.
fn access(op: &str, warp: u32, name: &str) -> String {
    let address = format!("[{name}+{}]", warp * 32 * 65_536);
    match op {
        "ld" => format!("{warp}|@ld(32x32b.x1) {{r}}, {address};"),
        _ => format!("{warp}|@st(32x32b.x1) {address}, {{r}};"),
    }
}

fn wait(op: &str, warp: u32) -> String {
    format!("{warp}|@wait::{op};")
}

impl Entries {
    /// Lines 3 and on in a holding of 32, which can then be given back.
    fn clear<S: AsRef<str>>(&mut self, name: &str, lines: &[S]) {
        let mut all = vec![A32];
        all.extend(lines.iter().map(AsRef::as_ref));
        all.extend([D32, EXIT]);
        self.passed(name, &all, 32, &[0]);
    }

    /// The same, where it cannot.
    fn outstanding<S: AsRef<str>>(&mut self, name: &str, lines: &[S]) {
        let mut all = vec![A32];
        all.extend(lines.iter().map(AsRef::as_ref));
        all.extend([D32, EXIT]);
        let line = lines.len() as u32 + 3;
        self.refused(name, &all, [18, line, 32, 32]);
    }
}

/// One mark, whatever the number of loads; it is of those before the wait.
fn marks(e: &mut Entries) {
    for (op, _) in BOTH {
        let (access, wait) = (access(op, 0, "t"), wait(op, 0));
        e.outstanding(&format!("{op}-without-wait"), &[&access]);
        e.clear(&format!("{op}-then-wait"), &[&access, &wait]);
        e.outstanding(&format!("wait-then-{op}"), &[&wait, &access]);
        e.clear(&format!("two-{op}-one-wait"), &[&access, &access, &wait]);
        e.clear(&format!("one-{op}-two-waits"), &[&access, &wait, &wait]);
        e.outstanding(&format!("{op}-after-the-wait"), &[&access, &wait, &access]);
        e.clear(&format!("{op}-waited-for-twice"), &[&access, &wait, &access, &wait]);
        e.clear(&format!("no-{op}-and-a-wait"), &[&wait]);
        e.outstanding(&format!("five-{op}-none-waited-for"), &[&access; 5]);
    }
}

/// A wait is for the loads or stores of its own warp, whichever warp gives back.
fn warps(e: &mut Entries) {
    for (op, _) in BOTH {
        for warp in 0..4 {
            for waiting in 0..4 {
                let (name, lines) = (format!("{op}-by-{warp}-wait-by-{waiting}"), [access(op, warp, "t"), wait(op, waiting)]);
                if warp == waiting {
                    e.clear(&name, &lines);
                } else {
                    e.outstanding(&name, &lines);
                }
            }
        }
        let two = [access(op, 2, "t"), access(op, 3, "t"), wait(op, 2)];
        e.outstanding(&format!("{op}-by-2-and-3-wait-by-2"), &two);
        let others = [access(op, 1, "t"), wait(op, 0), wait(op, 2), wait(op, 3)];
        e.outstanding(&format!("{op}-by-1-wait-by-all-others"), &others);
        let two = [&two[..], &[wait(op, 3)]].concat();
        e.clear(&format!("{op}-by-2-and-3-wait-by-both"), &two);
        // the warp that gives back has no say in it
        let (own, other) = (access(op, 3, "t"), access(op, 0, "t"));
        let (alloc, dealloc) = ("3|@alloc [t], 32;", "3|@dealloc t, 32;");
        e.refused(&format!("{op}-by-the-booking-warp"), &[alloc, &own, dealloc], [18, 4, 32, 32]);
        e.refused(&format!("{op}-by-another-warp"), &[alloc, &other, &wait(op, 3), dealloc], [18, 5, 32, 32]);
        e.passed(&format!("{op}-waited-for-by-another-warp"), &[alloc, &other, &wait(op, 0), dealloc, EXIT], 32, &[0]);
    }
}

/// A star is warp 0.
fn stars(e: &mut Entries) {
    for (op, _) in BOTH {
        let starred = |line: String| line.replacen('0', "*", 1);
        let star = starred(access(op, 0, "t"));
        let star_waits = starred(wait(op, 0));
        e.clear(&format!("{op}-by-star-wait-by-0"), &[&star, &wait(op, 0)]);
        e.clear(&format!("{op}-by-star-wait-by-star"), &[&star, &star_waits]);
        e.clear(&format!("{op}-by-0-wait-by-star"), &[&access(op, 0, "t"), &star_waits]);
        e.outstanding(&format!("{op}-by-star"), &[&star]);
        e.outstanding(&format!("{op}-by-star-wait-by-1"), &[&star, &wait(op, 1)]);
        e.outstanding(&format!("{op}-by-1-wait-by-star"), &[&access(op, 1, "t"), &star_waits]);
    }
}

/// Each has its own wait.
fn loads_and_stores(e: &mut Entries) {
    for (op, other) in BOTH {
        e.outstanding(&format!("{op}-wait-{other}"), &[access(op, 0, "t"), wait(other, 0)]);
        let two = [access(op, 1, "t"), access(other, 1, "t"), wait(op, 1)];
        e.outstanding(&format!("{op}-and-{other}-wait-{op}"), &two);
        let two = [&two[..], &[wait(other, 1)]].concat();
        e.clear(&format!("{op}-and-{other}-two-waits"), &two);
        // of two warps
        let crossed = [access(op, 1, "t"), access(other, 2, "t"), wait(other, 1), wait(op, 2)];
        e.outstanding(&format!("{op}-by-1-and-{other}-by-2-crossed"), &crossed);
        let own = [access(op, 1, "t"), access(other, 2, "t"), wait(other, 2), wait(op, 1)];
        e.clear(&format!("{op}-by-1-and-{other}-by-2"), &own);
    }
}

/// All warps load and store: eight waits are needed, in any order.
fn each_of_eight(e: &mut Entries) {
    let pairs = |op: &'static str| (0..4).map(move |warp| (op, warp));
    let eight: Vec<(&str, u32)> = pairs("ld").chain(pairs("st")).collect();
    let accesses: Vec<String> = eight.iter().map(|&(op, warp)| access(op, warp, "t")).collect();
    let waits: Vec<String> = eight.iter().rev().map(|&(op, warp)| wait(op, warp)).collect();
    e.clear("eight-and-eight-waits", &[&accesses[..], &waits].concat());
    for (op, warp) in eight {
        let left_out = wait(op, warp);
        let seven: Vec<String> = waits.iter().filter(|wait| **wait != left_out).cloned().collect();
        e.outstanding(&format!("eight-without-wait-{op}-by-{warp}"), &[&accesses[..], &seven].concat());
    }
}

/// A mark is one holding's, a wait for all of them.
fn holdings(e: &mut Entries) {
    for (op, _) in BOTH {
        let (on_t, on_u, waits) = (access(op, 2, "t"), access(op, 2, "u"), wait(op, 2));
        let (on_t, on_u, waits) = (on_t.as_str(), on_u.as_str(), waits.as_str());
        let mut passed = |name: &str, lines: &[&str]| e.passed(&format!("{op}-{name}"), lines, 64, &[0, 32]);
        passed("on-two-one-wait", &[A32, B32, on_t, on_u, waits, D32, E32, EXIT]);
        passed("on-two-one-wait-turned", &[A32, B32, on_t, on_u, waits, E32, D32, EXIT]);
        passed("on-the-other", &[A32, B32, on_u, D32, waits, E32, EXIT]);
        passed("on-the-other-turned", &[A32, B32, on_t, E32, waits, D32, EXIT]);
        let mut refused = |name: &str, lines: &[&str], held: u32| {
            let line = lines.len() as u32 + 1;
            e.refused(&format!("{op}-{name}"), lines, [18, line, held, 64]);
        };
        refused("on-two", &[A32, B32, on_t, on_u, D32], 64);
        refused("on-the-first", &[A32, B32, on_t, D32], 64);
        refused("on-the-second", &[A32, B32, on_u, E32], 64);
        // what is on the one stays when the other is given back
        refused("on-the-second-stays", &[A32, B32, on_u, D32, E32], 32);
        refused("on-the-first-stays", &[A32, B32, on_t, E32, D32], 32);
        refused("on-the-second-after-a-wait", &[A32, B32, on_t, waits, on_u, D32, E32], 32);
    }
}

/// As many holdings as there can be, each loaded by one warp.
fn sixteen_holdings(e: &mut Entries) {
    let names: Vec<String> = (0..16).map(|i| format!("t{i}")).collect();
    let mut lines: Vec<String> = names.iter().map(|name| format!("0|@alloc [{name}], 32;")).collect();
    lines.extend(names.iter().zip(0..).map(|(name, i)| access("ld", i % 4, name)));
    lines.extend((0..3).map(|warp| wait("ld", warp)));
    let deallocs: Vec<String> = names.iter().map(|name| format!("0|@dealloc {name}, 32;")).collect();
    // the fourth is the first that was loaded by warp 3
    e.refused("sixteen-loaded-three-waits", &[&lines[..], &deallocs].concat(), [18, 40, 416, 512]);
    lines.push(wait("ld", 3));
    lines.extend(deallocs);
    lines.push(EXIT.into());
    let starts: Vec<u16> = (0..16).map(|i| 32 * i).collect();
    e.passed("sixteen-loaded-four-waits", &lines, 512, &starts);
}

/// A name that is used again, or its columns, begins with nothing outstanding.
fn names_used_again(e: &mut Entries) {
    for (op, _) in BOTH {
        let (access, wait) = (access(op, 1, "t"), wait(op, 1));
        let first = [A32, &access, &wait, D32];
        let again = |more: &[&'static str]| [&first[..], more].concat();
        e.passed(&format!("{op}-and-name-used-again"), &again(&[A32, D32, EXIT]), 32, &[0, 0]);
        e.passed(&format!("{op}-and-columns-used-again"), &again(&[B32, E32, EXIT]), 32, &[0, 0]);
        let twice = [&first[..], &first, &[EXIT]].concat();
        e.passed(&format!("{op}-twice-under-a-name"), &twice, 32, &[0, 0]);
        let then = [&first[..], &[A32, &access, D32]].concat();
        e.refused(&format!("{op}-after-name-used-again"), &then, [18, 8, 32, 32]);
        let other = [A32, B32, &access, E32, "0|@alloc [v], 32;", "0|@dealloc v, 32;", &wait, D32, EXIT];
        e.passed(&format!("{op}-and-other-columns-used-again"), &other, 64, &[0, 32, 32]);
    }
}

/// Fences, moves and a relinquish clear nothing; an mma does not either, and leaves
/// nothing outstanding.
fn what_clears_nothing(e: &mut Entries) {
    let before = "0|@fence::before_thread_sync;";
    let after = "0|@fence::after_thread_sync;";
    for (op, _) in BOTH {
        let access = access(op, 0, "t");
        e.outstanding(&format!("{op}-then-fence-before"), &[&access, before]);
        e.outstanding(&format!("{op}-then-fence-after"), &[&access, after]);
        e.outstanding(&format!("{op}-between-fences"), &[before, &access, after]);
        e.outstanding(&format!("{op}-then-mov"), &[&access, "0|mov.b32 x, 1;"]);
        e.outstanding(&format!("{op}-then-relinquish"), &[&access, "0|@relinquish;"]);
        e.clear(&format!("{op}-wait-fence"), &[&access, &wait(op, 0), before, after]);
    }
    let words = ["0|mov.b64 b, 0x0000400800100000;", "0|mov.b32 i, 0x08040014;"];
    let mma = "1|@mma.sp(f16) [t], [t+24], b, [t+30], i, p;";
    e.clear("mma-needs-no-wait", &[words[0], words[1], mma, mma]);
    for (op, _) in BOTH {
        let (access, wait) = (access(op, 1, "t"), wait(op, 1));
        e.outstanding(&format!("{op}-then-mma"), &[&access, words[0], words[1], mma]);
        e.clear(&format!("{op}-wait-mma"), &[&access, &wait, words[0], words[1], mma]);
        e.clear(&format!("{op}-mma-wait"), &[words[0], words[1], &access, mma, &wait]);
    }
}

/// Accesses of each shape, at both of the lanes that a shape may have.
fn shapes(e: &mut Entries) {
    for (shape, registers, lane) in [("32x32b", 1, 96), ("16x64b", 1, 112), ("16x128b", 2, 96), ("16x256b", 4, 112)] {
        let address = format!("[t+{}]", lane * 65_536);
        let load = format!("3|@ld({shape}.x1) {{#{registers}}}, {address};");
        let store = format!("3|@st({shape}.x1) {address}, {{#{registers}}};");
        for (op, access) in [("ld", &load), ("st", &store)] {
            e.outstanding(&format!("{op}-of-{shape}-without-wait"), &[access]);
            e.clear(&format!("{op}-of-{shape}-and-wait"), &[access, &wait(op, 3)]);
        }
        let all = [&load, &store, &wait("st", 3), &wait("ld", 3)];
        e.clear(&format!("ld-and-st-of-{shape}"), &all);
        e.outstanding(&format!("ld-and-st-of-{shape}-without-wait-ld"), &all[..3]);
    }
}

/// A load is no fault by itself, and one that is refused leaves nothing.
fn exits(e: &mut Entries) {
    let load = access("ld", 0, "t");
    e.refused("exit-with-a-load-outstanding", &[A32, &load, EXIT], [15, 4, 32, 32]);
    e.refused("no-exit-and-a-load-outstanding", &[A32, &load], [15, 3, 32, 32]);
    e.refused("load-refused-then-dealloc", &[A32, "0|@ld(32x32b.x1) {r}, ^[t+32];", D32, EXIT], [14, 3, 32, 32]);
    e.refused("load-by-a-wrong-warp-then-dealloc", &[A32, "1|@ld(32x32b.x1) {r}, ^[t];", D32, EXIT], [8, 3, 32, 32]);
    e.refused("dealloc-outstanding-then-nonsense", &[A32, &load, D32, "9|nothing"], [18, 4, 32, 32]);
    e.refused("nonsense-then-dealloc-outstanding", &[A32, &load, "0|^nothing;", D32], [3, 4, 32, 32]);
    let waits_late = [A32, &load, D32, &wait("ld", 0), EXIT];
    e.refused("wait-after-the-dealloc", &waits_late, [18, 4, 32, 32]);
}
