//! Explanations as a SARIF 2.1.0 log: one run, a rule for each reason, a result for each sheet that is refused.

use super::{figures, number, primary};
use crate::command::number_of_version;
use crate::explain::{Explanation, Help, Span};
use crate::sheet::Sheet;
use serde_json::{json, Map, Value};
use staplehorn::Reason;

const SCHEMA: &str = "https://docs.oasis-open.org/sarif/sarif/v2.1.0/errata01/os/schemas/sarif-schema-2.1.0.json";

/// The log of some sheets, each with the name that was given for it; `whole` if they are all that were given, for none could not be read.
pub fn log(files: &[(String, &Sheet, &Explanation)], whole: bool) -> Value {
    let rules: Vec<Reason> = (1..=22).filter_map(Reason::from_number).filter(of_sheets).collect();
    // the standard wants each artifact once
    let mut uris: Vec<String> = Vec::new();
    let mut results = Vec::new();
    for (name, sheet, e) in files {
        let uri = uri(name);
        let index = uris.iter().position(|other| *other == uri).unwrap_or_else(|| {
            uris.push(uri.clone());
            uris.len() - 1
        });
        let artifact = json!({ "uri": uri, "index": index });
        results.extend(e.answer.reason.map(|reason| result(reason, &rules, &artifact, sheet, e)));
    }
    json!({
        "$schema": SCHEMA,
        "version": "2.1.0",
        "runs": [{
            "tool": { "driver": {
                "name": "foot",
                "version": number_of_version(),
                "rules": rules.into_iter().map(rule).collect::<Vec<_>>(),
            } },
            "invocations": [{ "executionSuccessful": whole }],
            // a CR belongs to its line
            "newlineSequences": ["\n"],
            "columnKind": "unicodeCodePoints",
            "artifacts": uris.iter().map(|uri| json!({ "location": { "uri": uri }, "roles": ["analysisTarget"] })).collect::<Vec<_>>(),
            "results": results,
        }],
    })
}

/// The reasons for which a sheet is refused: not those of lent room, nor that of fragments.
fn of_sheets(reason: &Reason) -> bool {
    !matches!(reason, Reason::Starts | Reason::Room | Reason::Fragment | Reason::Other(_))
}

fn id(reason: Reason) -> String {
    format!("SH{:04}", reason.number())
}

fn rule(reason: Reason) -> Value {
    json!({
        "id": id(reason),
        "name": format!("{reason:?}"),
        "shortDescription": { "text": escaped(&reason.to_string()) },
        "defaultConfiguration": { "level": "error" },
    })
}

fn result(reason: Reason, rules: &[Reason], artifact: &Value, sheet: &Sheet, e: &Explanation) -> Value {
    let mut result = json!({
        "ruleId": id(reason),
        "level": "error",
        "kind": "fail",
        "message": message(&said(e)),
        "locations": [location(artifact, primary(e).map(|span| region(sheet, &span)))],
        "properties": {
            "reason": number(&e.answer),
            "line": e.answer.line,
            "column": e.answer.column,
            "held": e.answer.held,
            "peak": e.answer.peak,
        },
    });
    // a reason that a later library has is in no list
    if let Some(index) = rules.iter().position(|&other| other == reason) {
        result["ruleIndex"] = index.into();
    }
    let related: Vec<Value> = e.related.iter().enumerate().map(|(i, span)| behind(artifact, sheet, i, span)).collect();
    let mut fixes: Vec<Value> = Vec::new();
    for fix in e.helps.iter().filter_map(|h| fix(artifact, sheet, h)) {
        if !fixes.contains(&fix) {
            fixes.push(fix);
        }
    }
    for (key, list) in [("relatedLocations", related), ("fixes", fixes)] {
        if !list.is_empty() {
            result[key] = list.into();
        }
    }
    result
}

/// All that is said, the sentence with the figures first.
fn said(e: &Explanation) -> String {
    let label = primary(e).map(|span| span.label).filter(|label| !label.is_empty());
    let mut lines = vec![format!("{} {}", e.title, figures(&e.answer))];
    lines.extend(label.map(|label| format!("here: {label}")));
    lines.extend(e.notes.iter().map(|note| format!("note: {note}")));
    lines.extend(e.helps.iter().map(|h| format!("help: {}", h.text)));
    lines.join("\n")
}

fn message(text: &str) -> Value {
    json!({ "text": escaped(text) })
}

/// A brace begins a placeholder, unless it is doubled.
fn escaped(text: &str) -> String {
    text.replace('{', "{{").replace('}', "}}")
}

fn location(artifact: &Value, region: Option<Value>) -> Value {
    let mut place = Map::from_iter([("artifactLocation".to_string(), artifact.clone())]);
    place.extend(region.map(|region| ("region".to_string(), region)));
    json!({ "physicalLocation": place })
}

fn behind(artifact: &Value, sheet: &Sheet, i: usize, span: &Span) -> Value {
    let mut location = location(artifact, Some(region(sheet, span)));
    location["id"] = (i + 1).into();
    if !span.label.is_empty() {
        location["message"] = message(&span.label);
    }
    location
}

fn region(sheet: &Sheet, span: &Span) -> Value {
    let line = sheet.line(span.line);
    let [from, to] = [span.from, span.to.max(span.from)].map(|column| {
        let before = column.saturating_sub(1);
        let inside = before.min(line.len());
        characters(&line[..inside]) + (before - inside) + 1
    });
    json!({ "startLine": span.line.max(1), "startColumn": from, "endColumn": to })
}

/// A log counts columns in characters. A line that the library reads is ASCII; one of another layout is taken as UTF-8.
fn characters(bytes: &[u8]) -> usize {
    String::from_utf8_lossy(bytes).chars().count()
}

/// None where there is no edit, or what it puts or takes is not ASCII: a log has no bytes for that.
fn fix(artifact: &Value, sheet: &Sheet, h: &Help) -> Option<Value> {
    let edit = h.edit.as_ref()?;
    let (from, to) = sheet.range(edit);
    let text = std::str::from_utf8(&edit.text).ok().filter(|text| text.is_ascii() && sheet.bytes[from..to].is_ascii())?;
    let mut replacement = json!({ "deletedRegion": deleted(sheet.bytes, from, to) });
    if !text.is_empty() {
        replacement["insertedContent"] = json!({ "text": text });
    }
    let change = json!({ "artifactLocation": artifact, "replacements": [replacement] });
    Some(json!({ "description": message(&h.text), "artifactChanges": [change] }))
}

/// The region between two places: it may end after an LF, in the next line.
fn deleted(bytes: &[u8], from: usize, to: usize) -> Value {
    let place = |at: usize| {
        let mut lines = bytes[..at].rsplit(|&b| b == b'\n');
        let column = characters(lines.next().unwrap_or_default()) + 1;
        (lines.count() + 1, column)
    };
    let ((start_line, start), (end_line, end)) = (place(from), place(to));
    json!({ "startLine": start_line, "startColumn": start, "endLine": end_line, "endColumn": end })
}

/// A name as a URI: relative, unless it is absolute. Standard input has none, and gets `stdin`.
fn uri(name: &str) -> String {
    let mut path = name;
    while let Some(rest) = path.strip_prefix("./") {
        path = rest.trim_start_matches('/');
    }
    let path = if name == "-" { "stdin" } else { path };
    let encoded: String = path.bytes().map(percent).collect();
    if encoded.starts_with('/') {
        format!("file://{encoded}")
    } else {
        encoded
    }
}

fn percent(byte: u8) -> String {
    match byte {
        b'a'..=b'z' | b'A'..=b'Z' | b'0'..=b'9' | b'-' | b'.' | b'_' | b'~' | b'/' => (byte as char).to_string(),
        _ => format!("%{byte:02X}"),
    }
}
