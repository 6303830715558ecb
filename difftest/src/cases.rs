//! Cases in a folder: NAME.sheet and the report that it gets, NAME.report. `write` makes them with the reference,
//! `compare` asks the library for each report again.

use crate::maker::Maker;
use crate::sheets::{Proved, Side};
use staplehorn_difftest::counts::Counts;
use staplehorn_difftest::random::Random;
use staplehorn_reference::entries::{self, Entry};
use staplehorn_reference::report::report;
use staplehorn_reference::sheet::steps;
use staplehorn_reference::statement::{form, FORMS};
use std::collections::{BTreeMap, BTreeSet};
use std::fs;
use std::io;
use std::path::Path;

/// The least room that takes any report.
const ROOM: usize = 102_391;
/// Larger entries are left out, but for one on each side of a limit.
const LARGE: usize = 8_000;
/// How many entries of each reason become cases, and how many that pass.
const REFUSED: usize = 12;
const PASSED: usize = 48;

/// Writes all cases. Says whether it could.
pub fn write(folder: &Path) -> bool {
    match try_write(folder) {
        Ok(count) => {
            println!("{count} cases in {}", folder.display());
            true
        }
        Err(error) => {
            println!("{}: {error}", folder.display());
            false
        }
    }
}

fn try_write(folder: &Path) -> io::Result<usize> {
    fs::create_dir_all(folder)?;
    let cases = all();
    for (name, sheet) in &cases {
        fs::write(folder.join(format!("{name}.sheet")), sheet)?;
        fs::write(folder.join(format!("{name}.report")), report(sheet))?;
    }
    Ok(cases.len())
}

/// The sheets of all cases, by name.
fn all() -> BTreeMap<String, Vec<u8>> {
    let mut cases = BTreeMap::new();
    for reason in (0..=15).chain([18, 20, 21]) {
        for entry in some_entries(reason) {
            cases.insert(entry.name, entry.sheet);
        }
    }
    for entry in entries::all().into_iter().filter(|e| e.name.starts_with(EXPRESSIONS)) {
        cases.insert(entry.name, entry.sheet);
    }
    let mut r = Random::new(5);
    for reason in (2..=15).chain([18, 20, 21]) {
        for number in 0..2 {
            cases.insert(format!("made-{reason}-{number}"), faulty(&mut r, reason, false));
        }
    }
    for (number, lines) in [3, 5, 8, 12, 20, 30, 40, 60, 90, 120, 200, 300].into_iter().enumerate() {
        cases.insert(format!("made-passes-{number}"), passing(&mut r, lines, false));
    }
    cases.insert("made-many-allocs".into(), many_allocs(&mut r));
    for number in 0..4 {
        cases.insert(format!("{EXPRESSIONS}made-passes-{number}"), passing(&mut r, 5 + 10 * number, true));
        for reason in [3, 4, 9, 14] {
            cases.insert(format!("{EXPRESSIONS}made-{reason}-{number}"), faulty(&mut r, reason, true));
        }
    }
    cases
}

/// Entries whose names start so all become cases.
const EXPRESSIONS: &str = "expression-";

/// Other entries with this reason, evenly chosen when there are many.
fn some_entries(reason: u32) -> Vec<Entry> {
    let is_limit = |name: &str| matches!(name, "bytes-65536" | "bytes-65537" | "lines-4096" | "lines-4097");
    let mut entries = entries::all();
    entries.retain(|e| !e.name.starts_with(EXPRESSIONS));
    entries.retain(|e| e.answer[0] == reason && (e.sheet.len() < LARGE || is_limit(&e.name)));
    let (total, most) = (entries.len(), if reason == 0 { PASSED } else { REFUSED });
    let is_chosen = |place: usize, name: &str| place * most % total < most || is_limit(name) || name.starts_with("given-whole");
    entries.into_iter().enumerate().filter(|(place, e)| is_chosen(*place, &e.name)).map(|(_, e)| e).collect()
}

fn faulty(r: &mut Random, reason: u32, takes_expressions: bool) -> Vec<u8> {
    loop {
        let mut m = Maker { takes_expressions, ..Maker::new(r) };
        for _ in 0..m.r.below(15) {
            m.valid();
        }
        if m.fault(reason).is_some() {
            m.exit();
            return m.bytes;
        }
    }
}

fn passing(r: &mut Random, lines: u32, takes_expressions: bool) -> Vec<u8> {
    let mut m = Maker { takes_expressions, ..Maker::new(r) };
    m.may_relinquish = lines % 20 == 0;
    while m.lines < lines {
        m.valid();
    }
    m.exit();
    m.bytes
}

fn many_allocs(r: &mut Random) -> Vec<u8> {
    let mut m = Maker::new(r);
    while m.bytes.len() < 30_000 {
        let columns = m.r.pick(&[32, 64, 128]);
        if !m.alloc(columns) {
            m.valid();
        }
    }
    m.exit();
    m.bytes
}

/// Compares the library's report of each case with the one in the folder.
pub fn compare(folder: &Path) -> bool {
    match try_compare(folder) {
        Ok(good) => good,
        Err(error) => {
            println!("{}: {error}", folder.display());
            false
        }
    }
}

fn try_compare(folder: &Path) -> io::Result<bool> {
    let (sheets, reports) = (names(folder, "sheet")?, names(folder, "report")?);
    let mut whole = !sheets.is_empty();
    for name in sheets.symmetric_difference(&reports) {
        println!("MISSING {name}: a sheet or a report without the other");
        whole = false;
    }
    let mut counts = Counts::new();
    let mut room = vec![0; ROOM];
    for name in sheets.intersection(&reports) {
        let sheet = fs::read(folder.join(format!("{name}.sheet")))?;
        let wanted = fs::read(folder.join(format!("{name}.report")))?;
        let reason = reason_of(&wanted);
        let (returned, length) = Proved.report(&sheet, &mut room);
        let ours = (returned, &room[..length.min(ROOM)]);
        counts.compare("cases", reason, ours, (reason, &wanted), || name.clone());
        if name.starts_with(EXPRESSIONS) {
            counts.seen("cases of expressions", reason);
        }
        counts.compare("cases, reference", reason, report(&sheet), wanted.clone(), || name.clone());
        if reason == 0 {
            for step in steps(&sheet).unwrap_or_default() {
                counts.seen("forms in passed cases", form(&step.statement));
            }
        }
    }
    let mut least: Vec<_> = (0..=15).chain([18, 20, 21]).map(|reason| ("cases", reason, 2)).collect();
    least.extend([("cases of expressions", 0, 20), ("cases of expressions", 3, 20), ("cases of expressions", 4, 20)]);
    least.extend((0..FORMS).map(|form| ("forms in passed cases", form, 2)));
    Ok(counts.finish("data", &least) && whole)
}

/// The names of the files of a sort, without their endings.
fn names(folder: &Path, ending: &str) -> io::Result<BTreeSet<String>> {
    let mut names = BTreeSet::new();
    for file in fs::read_dir(folder)? {
        let path = file?.path();
        if path.extension().is_some_and(|e| e == ending) {
            names.extend(path.file_stem().map(|stem| stem.to_string_lossy().into_owned()));
        }
    }
    Ok(names)
}

/// The first number of a report.
fn reason_of(report: &[u8]) -> u32 {
    report.iter().take_while(|b| b.is_ascii_digit()).fold(0, |n, b| 10 * n + u32::from(b - b'0'))
}
