//! An explanation as a JSON object. Its shape is the same for every sheet; `schema` counts up if it changes:
//!
//! | Field | |
//! |---|---|
//! | `schema` | 1 |
//! | `file` | the name that was given; `-` for standard input |
//! | `reason`, `line`, `column`, `held`, `peak` | the report's five numbers; `reason` is 0 on a pass |
//! | `reason_text` | the reason's sentence, `passed` on a pass |
//! | `title` | what is wrong, with this sheet's names and numbers |
//! | `primary` | the span that is refused; null on a pass and for reason 1 |
//! | `related` | spans of earlier lines that are behind it |
//! | `notes` | texts, each of one line or several |
//! | `helps` | what would have been right: `text`, and `edit` or null |
//! | `allocations` | on a pass all, on a refusal those that are live (their `columns` add up to `held`); null where they are not known |
//!
//! A span has `line`, `from` and `to` (columns in bytes, from 1; `to` is one past its end) and `label`. An edit has `line`, `from`, `to`,
//! the same place in bytes of the file as `start` and `end` (from 0), and the ASCII `text` to put there. An allocation has `name`, `start`
//! (its first column, or null), `columns`, `line` (that took it) and `end` (the line that gave it back, or null).

use super::{allocations, number, primary};
use crate::explain::{Explanation, Help, Span};
use crate::history::Allocation;
use crate::sheet::{Edit, Sheet};
use serde_json::{json, Value};

/// The object of one sheet.
pub fn object(name: &str, sheet: &Sheet, e: &Explanation) -> Value {
    let a = &e.answer;
    json!({
        "schema": 1,
        "file": name,
        "reason": number(a),
        "reason_text": a.reason.map_or_else(|| "passed".into(), |reason| reason.to_string()),
        "line": a.line,
        "column": a.column,
        "held": a.held,
        "peak": a.peak,
        "title": e.title,
        "primary": primary(e).as_ref().map(span),
        "related": e.related.iter().map(span).collect::<Vec<_>>(),
        "notes": e.notes,
        "helps": e.helps.iter().map(|h| help(sheet, h)).collect::<Vec<_>>(),
        "allocations": allocations(e).map(|all| all.into_iter().map(allocation).collect::<Vec<_>>()),
    })
}

fn span(s: &Span) -> Value {
    json!({ "line": s.line, "from": s.from, "to": s.to, "label": s.label })
}

fn help(sheet: &Sheet, h: &Help) -> Value {
    json!({ "text": h.text, "edit": h.edit.as_ref().and_then(|e| edit(sheet, e)) })
}

/// None where the text is not ASCII: no other text could be written without a loss, and none gets past reason 2.
fn edit(sheet: &Sheet, e: &Edit) -> Option<Value> {
    let text = std::str::from_utf8(&e.text).ok().filter(|text| text.is_ascii())?;
    let (start, end) = sheet.range(e);
    Some(json!({ "line": e.line, "from": e.from, "to": e.to, "start": start, "end": end, "text": text }))
}

fn allocation(a: &Allocation) -> Value {
    json!({ "name": a.name, "start": a.start, "columns": a.columns, "line": a.line, "end": a.end })
}
