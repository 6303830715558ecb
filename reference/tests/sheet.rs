//! Every entry, its report, and that no two have one name.

use std::collections::BTreeSet;

use staplehorn_reference::entries::{all, Entry};
use staplehorn_reference::judge::{judge, Answer};
use staplehorn_reference::report::report;

/// What stands in a lent list before the call.
const UNTOUCHED: u16 = 0xa5a5;

fn answer_of(entry: &Entry) -> Answer {
    let [reason, line, column, held, peak] = entry.answer;
    Answer { reason, line: line as usize, column: column as usize, held, peak }
}

#[test]
fn every_entry_has_its_answer_and_starts() {
    let mut faults = Vec::new();
    for entry in all() {
        let mut list = vec![UNTOUCHED; entry.places];
        let answer = judge(&entry.sheet, &mut list);
        let mut want = vec![UNTOUCHED; entry.places];
        want[..entry.starts.len()].copy_from_slice(&entry.starts);
        if answer != answer_of(&entry) || list != want {
            let front = &list[..list.len().min(20)];
            faults.push(format!("{}: wanted {:?} {:?}, got {answer:?} {front:?}", entry.name, entry.answer, entry.starts));
        }
    }
    assert!(faults.is_empty(), "{}", faults.join("\n"));
}

#[test]
fn every_entry_has_its_report() {
    for entry in all() {
        let text = String::from_utf8(report(&entry.sheet)).unwrap();
        let first = text.lines().next().unwrap();
        // the program lends a list that is long enough for every sheet
        let [reason, line, column, held, peak] = entry.answer;
        let (reason, column) = if reason == 16 { (0, 0) } else { (reason, column) };
        assert_eq!(first, format!("{reason}\t{line}\t{column}\t{held}\t{peak}"), "{}", entry.name);
        assert!(text.ends_with('\n'), "{}", entry.name);
        if entry.answer[0] != 16 {
            assert_eq!(text.lines().count(), 1 + entry.starts.len(), "{}", entry.name);
        }
    }
}

#[test]
fn names_of_entries_are_file_names_and_differ() {
    let mut names = BTreeSet::new();
    for entry in all() {
        let good = |byte: u8| byte.is_ascii_alphanumeric() || byte == b'-';
        assert!(entry.name.bytes().all(good), "{}", entry.name);
        assert!(names.insert(entry.name.clone()), "{} twice", entry.name);
    }
}

#[test]
fn every_reason_has_entries() {
    let entries = all();
    for reason in (0..=16).chain([18, 20, 21]) {
        let count = entries.iter().filter(|entry| entry.answer[0] == reason).count();
        assert!(count >= 2, "reason {reason} has {count}");
    }
}

#[test]
fn reports_of_the_sheet_given_whole() {
    let entries = all();
    let report_of = |name: &str| {
        let entry = entries.iter().find(|entry| entry.name == name).unwrap();
        String::from_utf8(report(&entry.sheet)).unwrap()
    };
    assert_eq!(report_of("given-whole-without-wait"), "18\t7\t3\t64\t96\n");
    assert_eq!(report_of("given-whole"), "0\t10\t0\t0\t96\nt0\t0\t64\nt1\t64\t32\nt2\t0\t32\n");
}
