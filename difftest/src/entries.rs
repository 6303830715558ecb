//! The sheets whose answers were worked out by hand: each is asked of both sides, with its list and its report.

use crate::readings;
use crate::sheets::{Proved, Reference, Side};
use staplehorn_difftest::counts::Counts;
use staplehorn_difftest::proved;
use staplehorn_reference::entries::{all, Entry};
use staplehorn_reference::report::report;

/// The version that is compared: 0.7.0.
const VERSION: u32 = 700;
/// What stands in a list or room before a call.
const BEFORE: u16 = 0xA5A5;
/// The least room that takes any report.
const ROOM: usize = 102_391;

/// The list as it must be after the call.
fn list_after(entry: &Entry) -> Vec<u16> {
    let mut list = vec![BEFORE; entry.places];
    list[..entry.starts.len()].copy_from_slice(&entry.starts);
    list
}

fn judged(counts: &mut Counts, what: &'static str, side: &impl Side, entry: &Entry) {
    let mut list = vec![BEFORE; entry.places];
    let (reason, answer) = side.judge(&entry.sheet, &mut list);
    let [wanted, line, column, held, peak] = entry.answer;
    let all = (wanted, [wanted, line, column, held, peak, entry.starts.len() as u32], list_after(entry));
    counts.compare(what, wanted, (reason, answer, list), all, || entry.name.clone());
}

fn reported(counts: &mut Counts, entry: &Entry) {
    let text = report(&entry.sheet);
    let mut room = vec![0; ROOM];
    let (_, length) = Proved.report(&entry.sheet, &mut room);
    counts.compare("reports", entry.answer[0], &room[..length.min(ROOM)], &text[..], || entry.name.clone());
}

pub fn run() -> bool {
    let mut counts = Counts::new();
    for entry in all() {
        judged(&mut counts, "entries", &Proved, &entry);
        judged(&mut counts, "entries, reference", &Reference, &entry);
        reported(&mut counts, &entry);
    }
    readings::sheets(&mut counts);
    counts.compare("version", 0, proved::version(), VERSION, || "the library's number".into());
    let mut wanted: Vec<_> = (0..=16).chain([18, 20, 21]).map(|reason| ("entries", reason, 2)).collect();
    wanted.extend([
        ("readings of columns", 3, 80),
        ("readings of columns", 4, 25),
        ("readings of columns", 6, 8),
        ("readings of columns", 9, 10),
        ("readings of columns", 18, 40),
    ]);
    wanted.extend((0..=16).chain([18, 20, 21]).map(|reason| ("readings of columns", reason, 1)));
    counts.finish("entries", &wanted)
}
