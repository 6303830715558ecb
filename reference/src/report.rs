//! What the program `foot` prints for a sheet.

use crate::judge::{judge, PASSED};
use crate::sheet::{steps, MOST_LINES};
use crate::statement::Statement;

/// The five numbers of the answer in one line; for a passed sheet, then a line
/// for each alloc with its name, start and columns.
pub fn report(sheet: &[u8]) -> Vec<u8> {
    let mut starts = [0; MOST_LINES];
    let answer = judge(sheet, &mut starts);
    let mut text = Vec::new();
    put_numbers(&mut text, &[answer.reason, answer.line as u32, answer.column as u32, answer.held, answer.peak]);
    if answer.reason == PASSED {
        put_holdings(&mut text, sheet, &starts);
    }
    text
}

fn put_holdings(text: &mut Vec<u8>, sheet: &[u8], starts: &[u16]) {
    let steps = steps(sheet).unwrap_or_default();
    let allocs = steps.iter().filter_map(|step| match &step.statement {
        Statement::Alloc { name, columns } => Some((name, *columns)),
        _ => None,
    });
    for ((name, columns), &start) in allocs.zip(starts) {
        text.extend_from_slice(name.as_bytes());
        text.push(b'\t');
        put_numbers(text, &[u32::from(start), columns]);
    }
}

/// The numbers with tabs between them, then LF.
fn put_numbers(text: &mut Vec<u8>, numbers: &[u32]) {
    for (place, number) in numbers.iter().enumerate() {
        if place != 0 {
            text.push(b'\t');
        }
        text.extend_from_slice(number.to_string().as_bytes());
    }
    text.push(b'\n');
}
