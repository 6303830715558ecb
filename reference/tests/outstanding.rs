//! What the run notes as outstanding at each dealloc: that it never stops for it,
//! that it is what the judge refuses, and that in a passed sheet there is nothing,
//! whichever the list of starts.

use staplehorn_reference::entries::{all, sheet};
use staplehorn_reference::judge::judge;
use staplehorn_reference::run::Outstanding::{self, Load, Store};
use staplehorn_reference::run::{choose_starts, run, End, Outcome, Seen};
use staplehorn_reference::sheet::{steps, Step};
use staplehorn_reference::statement::Statement;

const A32: &str = "0|@alloc [t], 32;";
const D32: &str = "0|@dealloc t, 32;";
const B32: &str = "0|@alloc [u], 32;";
const E32: &str = "0|@dealloc u, 32;";
const EXIT: &str = "0|exit;";
const LOAD: &str = "0|@ld(32x32b.x1) {r}, [t];";
const STORE: &str = "0|@st(32x32b.x1) [t], {r};";
const OTHER: &str = "0|@ld(32x32b.x1) {r}, [u];";
const LOAD_1: &str = "1|@ld(32x32b.x1) {r}, [t+2097152];";
const WAIT_LD: &str = "0|@wait::ld;";
const WAIT_ST: &str = "0|@wait::st;";
const WAIT_LD_1: &str = "1|@wait::ld;";

/// What is outstanding at the lines that give something back, each with its line.
fn noted(outcome: &Outcome) -> Vec<(usize, Outstanding)> {
    let of_line = |seen: &Seen| seen.outstanding.iter().map(|&what| (seen.line, what)).collect::<Vec<_>>();
    outcome.seen.iter().flat_map(of_line).collect()
}

/// Each alloc gets columns of its own, and the run reaches its exit.
#[track_caller]
fn notes(lines: &[&str], want: &[(usize, Outstanding)]) {
    let starts: Vec<u32> = (0..16).map(|i| 32 * i).collect();
    let outcome = run(&steps(&sheet(lines)).unwrap(), &starts);
    assert_eq!(outcome.end, End::Exited(lines.len() + 1), "{lines:?}");
    assert_eq!(noted(&outcome), want, "{lines:?}");
}

#[test]
fn the_run_does_not_stop() {
    let entries = all();
    let whole = entries.iter().find(|entry| entry.name == "given-whole-without-wait").unwrap();
    let outcome = run(&steps(&whole.sheet).unwrap(), &[0, 64, 0]);
    assert_eq!((outcome.end, outcome.peak), (End::Exited(9), 96));
    assert_eq!(noted(&outcome), [(7, Load(1))]);
    let bad: Vec<bool> = outcome.seen.iter().map(|seen| !seen.is_good()).collect();
    assert_eq!(bad, [false, false, false, false, false, true, false, false]);
}

#[test]
fn loads_and_stores_until_they_are_waited_for() {
    notes(&[A32, LOAD, D32, EXIT], &[(4, Load(0))]);
    notes(&[A32, STORE, D32, EXIT], &[(4, Store(0))]);
    notes(&[A32, LOAD, STORE, LOAD_1, D32, EXIT], &[(6, Load(1)), (6, Store(0)), (6, Load(0))]);
    notes(&[A32, LOAD, LOAD, WAIT_LD, D32, EXIT], &[]);
    notes(&[A32, LOAD, STORE, WAIT_LD, D32, EXIT], &[(6, Store(0))]);
    notes(&[A32, LOAD, STORE, WAIT_ST, D32, EXIT], &[(6, Load(0))]);
    notes(&[A32, LOAD, STORE, WAIT_ST, WAIT_LD, D32, EXIT], &[]);
    notes(&[A32, LOAD, WAIT_LD, LOAD, D32, EXIT], &[(6, Load(0))]);
    notes(&[A32, WAIT_LD, LOAD, D32, EXIT], &[(5, Load(0))]);
}

#[test]
fn waits_are_of_a_warp() {
    notes(&[A32, LOAD_1, WAIT_LD, D32, EXIT], &[(5, Load(1))]);
    notes(&[A32, LOAD, LOAD_1, WAIT_LD, D32, EXIT], &[(6, Load(1))]);
    notes(&[A32, LOAD, LOAD_1, WAIT_LD, WAIT_LD_1, D32, EXIT], &[]);
    notes(&[A32, LOAD, "*|@wait::ld;", D32, EXIT], &[]);
    notes(&[A32, "*|@ld(32x32b.x1) {r}, [t];", WAIT_LD, D32, EXIT], &[]);
    notes(&[A32, LOAD_1, "*|@wait::ld;", D32, EXIT], &[(5, Load(1))]);
}

#[test]
fn holdings_are_kept_apart() {
    notes(&[A32, B32, LOAD, OTHER, WAIT_LD, D32, E32, EXIT], &[]);
    notes(&[A32, B32, OTHER, D32, E32, EXIT], &[(6, Load(0))]);
    notes(&[A32, B32, LOAD, D32, E32, EXIT], &[(5, Load(0))]);
    notes(&[A32, B32, LOAD, OTHER, D32, E32, EXIT], &[(6, Load(0)), (7, Load(0))]);
}

/// Also where the dealloc before it was not waited for.
#[test]
fn a_name_used_again_begins_with_nothing() {
    notes(&[A32, LOAD, D32, A32, D32, EXIT], &[(4, Load(0))]);
    notes(&[A32, LOAD, D32, A32, LOAD, D32, EXIT], &[(4, Load(0)), (7, Load(0))]);
}

#[test]
fn others_change_nothing() {
    notes(&[A32, LOAD, "0|@fence::before_thread_sync;", "0|@fence::after_thread_sync;", D32, EXIT], &[(6, Load(0))]);
    notes(&[A32, "0|mov.b32 i, 0x80000;", "0|@mma(f16) [t], [t], b, i, p;", D32, EXIT], &[]);
    notes(&[A32, LOAD, "0|mov.b32 i, 0x80000;", "0|@mma(f16) [t], [t], b, i, p;", "0|@relinquish;", D32, EXIT], &[(7, Load(0))]);
}

/// Lists under which the run goes on to its exit, and lists under which it stops at
/// one of the allocs or another.
fn lists(steps: &[Step], own: &[u32]) -> Vec<Vec<u32>> {
    let mut lists = vec![own.to_vec(), choose_starts(steps, |usable| usable[usable.len() - 1]), vec![0; own.len()]];
    // a few allocs of a sheet that has very many
    for place in (0..own.len()).step_by(own.len() / 16 + 1) {
        lists.push(own[..place].to_vec());
        for start in [0, 16, 32, 256, 480, 512] {
            let mut other = own.to_vec();
            other[place] = start;
            lists.push(other);
        }
    }
    lists
}

/// Runs a passed sheet under many lists: nothing is outstanding at the deallocs that
/// it reaches. Answers how many runs stopped behind one.
fn runs(sheet: &[u8], own: &[u16]) -> usize {
    let is_dealloc = |step: &Step| matches!(step.statement, Statement::Dealloc { .. });
    let own: Vec<u32> = own.iter().map(|&start| start.into()).collect();
    let steps = steps(sheet).unwrap();
    let mut stopped = 0;
    for list in lists(&steps, &own) {
        let outcome = run(&steps, &list);
        assert_eq!(noted(&outcome), [], "{list:?} {}", String::from_utf8_lossy(sheet));
        let done = &steps[..outcome.seen.len()];
        stopped += usize::from(matches!(outcome.end, End::Stopped(_)) && done.iter().any(is_dealloc));
    }
    stopped
}

#[test]
fn nothing_is_outstanding_in_passed_entries_under_any_list() {
    let passed = all().into_iter().filter(|entry| entry.answer[0] == 0 && entry.sheet.len() < 20_000);
    let stopped: usize = passed.map(|entry| runs(&entry.sheet, &entry.starts)).sum();
    assert!(stopped >= 50, "{stopped}");
}

/// Calls for each sheet that has these lines, at most so many of the others in any
/// order, and an exit.
fn for_each_sheet(lines: &[&str], others: &[&str], more: usize, call: &mut impl FnMut(&[u8])) {
    call(&sheet(&[lines, &[EXIT]].concat()));
    if more > 0 {
        for other in others {
            for_each_sheet(&[lines, &[other]].concat(), others, more - 1, call);
        }
    }
}

/// The judge keeps marks, the run looks back: the first dealloc that is refused with
/// 18 is the first at which something is noted.
#[test]
fn the_judge_refuses_what_the_run_notes() {
    let mut refused = 0;
    let others = [LOAD, STORE, LOAD_1, OTHER, WAIT_LD, WAIT_ST, WAIT_LD_1, D32, E32, A32];
    for_each_sheet(&[A32, B32], &others, 5, &mut |sheet| {
        let answer = judge(sheet, &mut [0; 8]);
        let steps = steps(sheet).unwrap();
        let lowest = choose_starts(&steps, |usable| usable[0]);
        let first = noted(&run(&steps, &lowest)).first().map(|&(line, _)| line);
        let agrees = match answer.reason {
            18 => first == Some(answer.line),
            _ => first.is_none_or(|line| line > answer.line),
        };
        assert!(agrees, "{answer:?} {first:?} {}", String::from_utf8_lossy(sheet));
        refused += u32::from(answer.reason == 18);
    });
    assert!(refused >= 10_000, "{refused}");
}

#[test]
fn nothing_is_outstanding_in_short_passed_sheets_under_any_list() {
    let (mut passed, mut stopped) = (0, 0);
    let others = [LOAD, OTHER, WAIT_LD, D32, E32, A32];
    for_each_sheet(&[A32, B32], &others, 6, &mut |sheet| {
        let mut starts = [0; 8];
        if judge(sheet, &mut starts).reason == 0 {
            let allocs = String::from_utf8_lossy(sheet).matches(".alloc.").count();
            stopped += runs(sheet, &starts[..allocs]);
            passed += 1;
        }
    });
    assert!(passed >= 400 && stopped >= 400, "{passed} {stopped}");
}
