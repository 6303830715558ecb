//! The run: where it stops, what it sees after each line, and that it agrees with
//! the judge on every entry that passes. What is outstanding at a dealloc has its
//! own file.

use staplehorn_reference::entries::{all, sheet};
use staplehorn_reference::judge::judge;
use staplehorn_reference::run::{choose_starts, run, End, Outcome};
use staplehorn_reference::sheet::{steps, Step};

const A32: &str = "0|@alloc [t], 32;";
const D32: &str = "0|@dealloc t, 32;";
const EXIT: &str = "0|exit;";

fn steps_of(lines: &[&str]) -> Vec<Step> {
    steps(&sheet(lines)).expect("every line reads")
}

fn outcome(lines: &[&str], starts: &[u32]) -> Outcome {
    run(&steps_of(lines), starts)
}

#[track_caller]
fn stops(lines: &[&str], starts: &[u32], line: usize) {
    assert_eq!(outcome(lines, starts).end, End::Stopped(line), "{lines:?} {starts:?}");
}

#[track_caller]
fn exits(lines: &[&str], starts: &[u32]) {
    let outcome = outcome(lines, starts);
    assert_eq!(outcome.end, End::Exited(lines.len() + 1), "{lines:?} {starts:?}");
    assert!(outcome.seen.iter().all(|seen| seen.is_good()));
}

#[test]
fn any_usable_start_will_do() {
    for start in (0..=480).step_by(32) {
        exits(&[A32, D32, EXIT], &[start]);
    }
    for start in [1, 31, 33, 481, 496, 512, 1 << 31, u32::MAX, u32::MAX - 31] {
        stops(&[A32, D32, EXIT], &[start], 2);
    }
    exits(&["0|@alloc [t], 512;", "0|@dealloc t, 512;", EXIT], &[0]);
    stops(&["0|@alloc [t], 512;", "0|@dealloc t, 512;", EXIT], &[32], 2);
}

#[test]
fn held_columns_may_not_be_used() {
    let lines = ["0|@alloc [t], 64;", "0|@alloc [u], 64;", "0|@dealloc t, 64;", "0|@dealloc u, 64;", EXIT];
    exits(&lines, &[64, 0]);
    exits(&lines, &[64, 128]);
    for start in [32, 64, 96] {
        stops(&lines, &[64, start], 3);
    }
}

#[test]
fn columns_given_back_may_be_used() {
    let lines = ["0|@alloc [t], 64;", "0|@dealloc t, 64;", "0|@alloc [u], 64;", "0|@dealloc u, 64;", EXIT];
    exits(&lines, &[64, 64]);
    let outcome = outcome(&lines, &[64, 96]);
    assert_eq!(outcome.peak, 64);
    let last = outcome.seen.last().unwrap();
    assert_eq!((last.held, last.asked, last.given_back), (0, 128, 128));
}

#[test]
fn lists_of_another_length() {
    stops(&[A32, D32, EXIT], &[], 2);
    exits(&[A32, D32, EXIT], &[0, 1, 7]);
    exits(&[EXIT], &[]);
}

#[test]
fn no_exit_is_an_end_of_its_own() {
    assert_eq!(outcome(&[A32], &[0]).end, End::Ended);
    assert_eq!(outcome(&[], &[]).end, End::Ended);
}

#[test]
fn lines_after_exit_are_not_reached() {
    assert_eq!(outcome(&[EXIT, A32, A32], &[1, 1]).end, End::Exited(2));
}

#[test]
fn exit_needs_all_given_back() {
    stops(&[A32, EXIT], &[0], 3);
}

#[test]
fn a_live_name_is_not_taken_twice() {
    stops(&[A32, A32], &[0, 32], 3);
    exits(&[A32, D32, A32, D32, EXIT], &[0, 32]);
}

#[test]
fn dealloc_needs_name_and_length() {
    stops(&[D32], &[], 2);
    stops(&[A32, "0|@dealloc t, 64;"], &[0], 3);
    stops(&[A32, "0|@dealloc u, 32;"], &[0], 3);
}

#[test]
fn warps_widths_and_permits_are_not_looked_at() {
    exits(&[A32, "3|@dealloc t, 32;", "2|@relinquish;", "1|@alloc [u], 96;", "0|@dealloc u, 96;", EXIT], &[0, 32]);
    // warp 1 at lane 0
    exits(&[A32, "1|@ld(32x32b.x1) {r}, [t];", "1|@wait::ld;", D32, EXIT], &[0]);
    // lane 96 is the last for 32 lanes, 112 for 16
    exits(&[A32, "0|@ld(32x32b.x1) {r}, [t+6291456];", "0|@wait::ld;", D32, EXIT], &[0]);
    stops(&[A32, "0|@ld(32x32b.x1) {r}, [t+6356992];"], &[0], 3);
    exits(&[A32, "0|@ld(16x64b.x1) {r}, [t+7340032];", "0|@wait::ld;", D32, EXIT], &[0]);
    stops(&[A32, "0|@ld(16x64b.x1) {r}, [t+7405568];"], &[0], 3);
}

#[test]
fn moving_to_a_live_name_does_not_stop() {
    exits(&[A32, "0|mov.b32 t, 1;", D32, EXIT], &[0]);
}

#[test]
fn a_request_for_nothing() {
    let lines = ["0|@alloc [t], 0;", EXIT];
    exits(&lines, &[64]);
    exits(&lines, &[1 << 20]);
    stops(&lines, &[65], 2);
}

#[test]
fn accesses_stay_in_their_holding() {
    exits(&[A32, "0|@ld(32x32b.x32) {#32}, [t];", "0|@wait::ld;", D32, EXIT], &[480]);
    stops(&[A32, "0|@ld(32x32b.x32) {#32}, [t+1];"], &[0], 3);
    stops(&["0|@ld(32x32b.x1) {r}, [t];"], &[], 2);
    // the next holding does not help
    stops(&[A32, "0|@alloc [u], 32;", "0|@ld(32x32b.x1) {r}, [t+32];"], &[0, 32], 4);
}

#[test]
fn mma_reads_its_n_from_the_number() {
    let sheet = |number: &str, operands: &str| {
        vec![A32.to_string(), format!("0|{number};"), format!("0|@mma(f16) {operands};"), D32.into(), EXIT.into()]
    };
    let end = |lines: Vec<String>| {
        let lines: Vec<&str> = lines.iter().map(String::as_str).collect();
        outcome(&lines, &[0]).end
    };
    // N 32, 40 and 0, at either width
    assert_eq!(end(sheet("mov.b32 i, 0x80000", "[t], a, b, i, p")), End::Exited(6));
    assert_eq!(end(sheet("mov.b64 i, 0xfff0000000080000", "[t], a, b, i, p")), End::Exited(6));
    assert_eq!(end(sheet("mov.b32 i, 0xa0000", "[t], a, b, i, p")), End::Stopped(4));
    assert_eq!(end(sheet("mov.b32 i, 0", "[t+32], a, b, i, p")), End::Exited(6));
    assert_eq!(end(sheet("mov.b32 i, 0", "[t+33], a, b, i, p")), End::Stopped(4));
    // lanes, a in memory, a number never moved
    assert_eq!(end(sheet("mov.b32 i, 0", "[t+65536], a, b, i, p")), End::Stopped(4));
    assert_eq!(end(sheet("mov.b32 i, 0", "[t], [t+24], b, i, p")), End::Exited(6));
    assert_eq!(end(sheet("mov.b32 i, 0", "[t], [t+25], b, i, p")), End::Stopped(4));
    assert_eq!(end(sheet("mov.b32 j, 0", "[t], a, b, i, p")), End::Stopped(4));
}

#[test]
fn passed_entries_run_as_judged() {
    for entry in all().into_iter().filter(|entry| entry.answer[0] == 0) {
        let mut list = vec![0; entry.places];
        let answer = judge(&entry.sheet, &mut list);
        let steps = steps(&entry.sheet).unwrap();
        let starts: Vec<u32> = list.iter().map(|&start| start.into()).collect();
        let outcome = run(&steps, &starts);
        assert_eq!(outcome.end, End::Exited(answer.line), "{}", entry.name);
        assert_eq!(outcome.peak, answer.peak, "{}", entry.name);
        assert!(outcome.seen.iter().all(|seen| seen.is_good()), "{}", entry.name);
        // the judge's placing is the lowest of the usable starts
        let lowest = choose_starts(&steps, |usable| usable[0]);
        assert_eq!(lowest, starts[..lowest.len()], "{}", entry.name);
        assert_eq!(lowest.len(), entry.starts.len(), "{}", entry.name);
    }
}
