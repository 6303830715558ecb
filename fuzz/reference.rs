//! The reference behind C signatures, so that the harness can compare both programs on the same bytes.

use staplehorn_reference::{judge, report, sheet, statement};
use std::slice;

/// # Safety
/// Each pointer is valid for its length, and the answer for six numbers.
#[no_mangle]
pub unsafe extern "C" fn reference_judge(sheet: *const u8, length: usize, starts: *mut u16, places: usize, answer: *mut u32) -> u32 {
    let (sheet, starts) = unsafe { (slice::from_raw_parts(sheet, length), slice::from_raw_parts_mut(starts, places)) };
    let a = judge::judge(sheet, starts);
    let count = if a.reason == 0 { allocs(sheet) } else { 0 };
    let answer = unsafe { slice::from_raw_parts_mut(answer, 6) };
    answer.copy_from_slice(&[a.reason, a.line as u32, a.column as u32, a.held, a.peak, count]);
    a.reason
}

/// How many allocs a passed sheet has: each has a start.
fn allocs(sheet: &[u8]) -> u32 {
    let steps = sheet::steps(sheet).expect("a passed sheet reads");
    steps.iter().filter(|step| matches!(step.statement, statement::Statement::Alloc { .. })).count() as u32
}

/// The bytes of the report, as many of them as there is room for; returns how many there are.
///
/// # Safety
/// Each pointer is valid for its length.
#[no_mangle]
pub unsafe extern "C" fn reference_report(sheet: *const u8, length: usize, room: *mut u8, places: usize) -> usize {
    let (sheet, room) = unsafe { (slice::from_raw_parts(sheet, length), slice::from_raw_parts_mut(room, places)) };
    let text = report::report(sheet);
    let n = text.len().min(places);
    room[..n].copy_from_slice(&text[..n]);
    text.len()
}

/// The reason of a statement's text by itself, 3, 4, 5 or 0; its column goes to `*column`. A text that reads is written in its
/// canonical form, and its length goes to `*written`.
///
/// # Safety
/// Each pointer is valid for its length.
#[no_mangle]
pub unsafe extern "C" fn reference_statement(
    text: *const u8,
    length: usize,
    room: *mut u8,
    places: usize,
    written: *mut usize,
    column: *mut usize,
) -> u32 {
    let (text, room) = unsafe { (slice::from_raw_parts(text, length), slice::from_raw_parts_mut(room, places)) };
    let alone = statement::judge_alone(text);
    unsafe {
        *written = statement::canonical(text, room).unwrap_or(0);
        *column = alone.column;
    }
    alone.reason
}
