//! An explanation as text, JSON and SARIF. Each takes reason, line, column, held and peak from the library's answer alone.

pub mod json;
pub mod sarif;
pub mod text;

use crate::explain::{Explanation, Span};
use crate::history::Allocation;
use staplehorn::Answer;

/// The library's figures, as every form says them.
fn figures(a: &Answer) -> String {
    format!("(line {}, column {}; held {}, peak {})", a.line, a.column, a.held, a.peak)
}

/// The reason's number: 0 on a pass.
fn number(a: &Answer) -> u32 {
    a.reason.map_or(0, |reason| reason.number())
}

/// What is pointed at, always from the library's line and column on; none on a pass and for reason 1.
fn primary(e: &Explanation) -> Option<Span> {
    let Answer { line, column, .. } = e.answer;
    if e.answer.reason.is_none() || line == 0 {
        return None;
    }
    let (line, from) = (line as usize, column as usize);
    let (to, label) = e.primary.as_ref().map_or((from, ""), |span| (span.to, &span.label));
    Some(Span { line, from, to: to.max(from), label: label.into() })
}

/// The allocations to list: all on a pass, those that are live on a refusal. None where they are not known, or do not add up to the
/// library's held.
fn allocations(e: &Explanation) -> Option<Vec<&Allocation>> {
    let history = e.history.as_ref().filter(|history| history.held() == e.answer.held)?;
    Some(match e.answer.reason {
        None => history.allocations.iter().collect(),
        Some(_) => history.live().collect(),
    })
}

/// Text for one line: each character that is not ASCII, or does not print, as `?`; a line's end as a space.
fn plain(text: &str) -> String {
    let one = |c: char| match c {
        ' '..='~' => c,
        '\n' | '\t' => ' ',
        _ => '?',
    };
    text.chars().map(one).collect()
}
