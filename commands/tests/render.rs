//! Text, JSON and SARIF of explanations: what they look like, that they agree with the library's answer, and that no bytes and no spans
//! stop them. `tests/sarif.py` holds the SARIF logs to the published structure.
#![deny(clippy::undocumented_unsafe_blocks)]

use commands::explain::{answer_of, explain, Explanation, Help, Span};
use commands::history::{Allocation, History};
use commands::render::{json, sarif, text};
use commands::sheet::{Edit, Sheet};
use serde_json::{json, Value};
use std::io::Write;
use std::process::{Command, Stdio};

const ALLOC: &str = "tcgen05.alloc.cta_group::1.sync.aligned.b32";
const DEALLOC: &str = "tcgen05.dealloc.cta_group::1.sync.aligned.b32";

fn sheet(lines: &[&str]) -> String {
    let body: String = lines.iter().map(|line| format!("{line}\n")).collect();
    format!("sheet\t1\tsm_100a\n{body}").replace("ALLOC", ALLOC).replace("DEALLOC", DEALLOC).replace("DEtcgen05.alloc", "tcgen05.dealloc")
}

/// t1 is not given back.
fn leak() -> String {
    sheet(&["0\tALLOC [t0], 64;", "0\tALLOC [t1], 32;", "1\ttcgen05.wait::ld.sync.aligned;", "0\tDEALLOC t0, 64;", "0\texit;"])
}

fn span(line: usize, from: usize, to: usize, label: &str) -> Span {
    Span { line, from, to, label: label.into() }
}

/// An explanation with nothing but what is given, for the library's answer.
fn bare(bytes: &[u8]) -> Explanation {
    let answer = answer_of(bytes);
    let title = answer.reason.map_or("passed".into(), |reason| reason.to_string());
    Explanation { answer, title, primary: None, related: vec![], notes: vec![], helps: vec![], history: None }
}

/// What an explanation of `leak` may say.
fn leaked(bytes: &[u8]) -> Explanation {
    let fix = Edit::before(6, format!("0\t{DEALLOC} t1, 32;\n"));
    Explanation {
        title: "exit while 32 columns are held".into(),
        primary: Some(span(6, 1, 2, "32 columns are held here")),
        related: vec![span(3, 47, 51, "`t1` takes 32 columns here and never gives them back")],
        notes: vec!["live at exit:\n`t1`: 32 columns".into()],
        helps: vec![
            Help { text: "give `t1` back before exit".into(), edit: Some(fix) },
            Help { text: "or leave `{t1}` out".into(), edit: None },
        ],
        history: explain(bytes, bytes.len()).history,
        ..bare(bytes)
    }
}

fn shown(bytes: &[u8], e: &Explanation) -> String {
    String::from_utf8(text::render("leak.sheet", &Sheet::new(bytes), e, false)).unwrap()
}

/// The lines of a text that have a part.
fn with<'t>(text: &'t str, part: &str) -> Vec<&'t str> {
    text.lines().filter(|line| line.contains(part)).collect()
}

#[test]
fn a_refusal() {
    let leak = leak();
    let wanted = "\
error[15]: exit while 32 columns are held (line 6, column 1; held 32, peak 96)
  --> leak.sheet:6:1
  |
3 | 0   tcgen05.alloc.cta_group::1.sync.aligned.b32 [t1], 32;
  |                                                 ---- `t1` takes 32 columns here and never gives them back
  ...
6 | 0   exit;
  | ^ 32 columns are held here
  |
  = note: live at exit:
          `t1`: 32 columns
  = help: give `t1` back before exit
    6 + 0\ttcgen05.dealloc.cta_group::1.sync.aligned.b32 t1, 32;
  = help: or leave `{t1}` out
";
    assert_eq!(shown(leak.as_bytes(), &leaked(leak.as_bytes())), wanted);
}

#[test]
fn colours_change_nothing_else() {
    let leak = leak();
    let e = leaked(leak.as_bytes());
    let coloured = text::render("leak.sheet", &Sheet::new(leak.as_bytes()), &e, true);
    let coloured = String::from_utf8(coloured).unwrap();
    assert!(coloured.contains("\x1b[31m") || coloured.contains("\x1b[38;5;9m"), "{coloured:?}");
    let mut plain = String::new();
    for (i, part) in coloured.split('\x1b').enumerate() {
        plain += if i == 0 { part } else { part.split_once('m').unwrap().1 };
    }
    assert_eq!(plain, shown(leak.as_bytes(), &e));
}

#[test]
fn a_pass() {
    let bytes = sheet(&["0\tALLOC [t0], 64;", "0\tALLOC [acc], 32;", "0\tDEALLOC t0, 64;", "0\tDEALLOC acc, 32;", "0\texit;"]);
    let wanted = "\
leak.sheet: passed (line 6, column 0; held 0, peak 96)
2 allocations:
  name  first column  columns  taken at line  given back at line
  t0               0       64              2                   4
  acc             64       32              3                   5
";
    assert_eq!(shown(bytes.as_bytes(), &explain(bytes.as_bytes(), bytes.len())), wanted);
    let none = sheet(&["0\texit;"]);
    assert_eq!(
        shown(none.as_bytes(), &explain(none.as_bytes(), none.len())),
        "leak.sheet: passed (line 2, column 0; held 0, peak 0)\nno allocations\n"
    );
    let pair = ["0\tALLOC [t], 32;", "0\tDEALLOC t, 32;"];
    let many = sheet(&[&pair.repeat(42)[..], &["0\texit;"]].concat());
    let text = shown(many.as_bytes(), &explain(many.as_bytes(), many.len()));
    assert_eq!((text.lines().count(), text.lines().nth(1), text.lines().last()), (44, Some("42 allocations:"), Some("  and 2 more")));
}

#[test]
fn reason_1_has_a_name_and_no_line() {
    let bytes = "\n".repeat(4_097);
    let e = explain(bytes.as_bytes(), bytes.len());
    let text = shown(bytes.as_bytes(), &e);
    let first = format!("error[1]: {} (line 0, column 0; held 0, peak 0)\n  --> leak.sheet\n", e.title);
    assert!(text.starts_with(&first), "{text}");
}

#[test]
fn one_caret_past_the_end() {
    let bytes = sheet(&["0\tmov.b32 x, 1"]);
    let text = shown(bytes.as_bytes(), &explain(bytes.as_bytes(), bytes.len()));
    assert_eq!(with(&text, "2 | "), ["2 | 0   mov.b32 x, 1"]);
    assert_eq!(with(&text, "^").first().map(|line| line.find('^')), Some(Some("2 | 0   mov.b32 x, 1".len())));
    assert_eq!(with(&text, "-->"), ["  --> leak.sheet:2:15"]);
}

#[test]
fn bytes_that_do_not_print_keep_their_columns() {
    for (line, column, under) in
        [(&b"0\tex\xc3\xa9it;"[..], 5, "ex??it;"), (b"0\texit;\r", 8, "exit;?"), (b"\xef\xbb\xbfx", 1, "???x"), (b"0 exit;", 2, "0 exit;")]
    {
        let bytes = [b"sheet\t1\tsm_100a\n", line, b"\n"].concat();
        let mut e = explain(&bytes, bytes.len());
        assert_eq!(e.answer.line, 2);
        e.answer.column = column;
        let text = shown(&bytes, &e);
        let source = with(&text, under)[0];
        let carets = text.lines().skip_while(|line| *line != source).nth(1).unwrap();
        // a tab is as wide as its stop
        let wide = if column > 2 && line[1] == b'\t' { 2 } else { 0 };
        assert_eq!(carets.find('^'), Some(4 + column as usize - 1 + wide), "{text}");
        assert!(text.is_ascii());
    }
}

#[test]
fn a_long_line_is_clipped_around_the_span() {
    let registers: Vec<String> = (0..128).map(|i| format!("r{i}")).collect();
    let line = format!("0\ttcgen05.ld.sync.aligned.32x32b.x128.b32 {{{}}}, [unknown];", registers.join(", "));
    let bytes = sheet(&[&line]);
    let mut e = explain(bytes.as_bytes(), bytes.len());
    e.related = vec![span(2, 3, 10, "far left")];
    let text = shown(bytes.as_bytes(), &e);
    let column = line.find("[unknown").unwrap() + 2;
    assert_eq!(with(&text, "-->"), [format!("  --> leak.sheet:2:{column}")]);
    let source = with(&text, "[unknown];")[0];
    assert!(source.starts_with("2 | ...") && source.len() < 120, "{source}");
    let carets = with(&text, "^")[0];
    assert_eq!(carets.find('^'), source.find("unknown"));
    // what is far away is under the dots
    assert_eq!(carets.find("---"), Some(4));
    e.answer.column = 400;
    let text = shown(bytes.as_bytes(), &e);
    let source = with(&text, "2 | ")[0];
    assert!(source.starts_with("2 | ...") && source.ends_with("...") && source.len() < 120, "{source}");
    assert_eq!(source.as_bytes()[with(&text, "^")[0].find('^').unwrap()], line.as_bytes()[399]);
}

#[test]
fn a_line_alone_between_two_is_shown() {
    let leak = leak();
    let mut e = leaked(leak.as_bytes());
    e.related = vec![span(4, 3, 9, "x"), span(2, 3, 9, "y")];
    let text = shown(leak.as_bytes(), &e);
    assert!(!text.contains("..."), "{text}");
    let numbers: Vec<_> = text.lines().filter_map(|line| line.split(" | ").next()?.parse::<u32>().ok()).collect();
    assert_eq!(numbers, [2, 3, 4, 5, 6]);
}

/// What is shown of an edit.
fn edited(bytes: &[u8], edit: Edit) -> Vec<String> {
    let mut e = bare(bytes);
    e.helps = vec![Help { text: "so".into(), edit: Some(edit) }];
    let text = shown(bytes, &e);
    text.lines().skip_while(|line| !line.ends_with("help: so")).skip(1).map(|line| line.trim_start().to_string()).collect()
}

#[test]
fn edits() {
    let bytes = b"sheet\n0\tmov.b32 x 1;\n0\texit;";
    let within = |line, from, to, text: &str| edited(bytes, Edit { line, from, to, text: text.into() });
    assert_eq!(within(2, 12, 12, ","), ["2 - 0\tmov.b32 x 1;", "2 + 0\tmov.b32 x, 1;"]);
    assert_eq!(within(1, 1, 6, "sheet\t1\tsm_100a"), ["1 - sheet", "1 + sheet\t1\tsm_100a"]);
    // a line is taken out, or split; two are put before one, or behind the last
    assert_eq!(within(2, 1, 16, ""), ["2 - 0\tmov.b32 x 1;"]);
    assert_eq!(within(2, 8, 9, "\n"), ["2 - 0\tmov.b32 x 1;", "2 + 0\tmov.b", "3 + 2 x 1;"]);
    assert_eq!(edited(bytes, Edit::before(3, "a\nb\n")), ["3 + a", "4 + b"]);
    assert_eq!(edited(b"a\nb\n", Edit::before(3, "c\n")), ["3 + c"]);
    assert_eq!(edited(b"", Edit::before(1, "c\n")), ["1 + c"]);
    // what is not to be seen is said
    assert_eq!(edited(b"0\texit; \n", Edit { line: 1, from: 8, to: 9, text: vec![] }), ["1 - 0\texit;<space>", "1 + 0\texit;"]);
    assert_eq!(edited(b"a  \t\n\n", Edit { line: 1, from: 2, to: 4, text: vec![] }), ["1 - a<3 blanks>", "1 + a<tab>"]);
    assert_eq!(edited(b"0\texit;\r\n", Edit { line: 1, from: 8, to: 9, text: vec![] }), ["1 - 0\texit;\\x0d", "1 + 0\texit;"]);
    // an LF at the end of the file is not to be seen
    assert!(within(3, 8, 8, "\n").is_empty());
    assert_eq!(edited(&bytes.repeat(30), Edit { line: 1, from: 1, to: 5000, text: vec![] }).last().unwrap(), "- ... 41 more lines");
    // of a long line only the part
    let long = format!("0\t{}MID{};\n", "a".repeat(200), "b".repeat(200));
    let part = edited(long.as_bytes(), Edit { line: 1, from: 203, to: 206, text: b"dle".to_vec() });
    let (a, b) = ("a".repeat(30), "b".repeat(30));
    assert_eq!(part, [format!("1 - ...{a}MID{b}..."), format!("1 + ...{a}dle{b}...")]);
}

/// xorshift64*
struct Random(u64);

impl Random {
    fn below(&mut self, n: usize) -> usize {
        self.0 ^= self.0 >> 12;
        self.0 ^= self.0 << 25;
        self.0 ^= self.0 >> 27;
        self.0.wrapping_mul(0x2545_F491_4F6C_DD1D) as usize % n
    }

    fn span(&mut self) -> Span {
        let far = [0, 1, 2, 3, 40, 130, 400, 4_000, usize::MAX];
        let line = [0, 1, 2, 3, 4, 6, 8, 9, usize::MAX][self.below(9)];
        span(line, far[self.below(9)], far[self.below(9)], ["", "a", "two\nlines", "\x1b[31m \u{e9}"][self.below(4)])
    }

    fn bytes(&mut self) -> Vec<u8> {
        let length = [0, 1, 30, 600, 3_000][self.below(5)];
        let mut bytes = leak().into_bytes();
        bytes.truncate(self.below(300));
        bytes.extend((0..length).map(|_| b"\n\n\t \x00\x1b\x80\xffa1;[{"[self.below(13)]).collect::<Vec<u8>>());
        bytes
    }

    fn explanation(&mut self, bytes: &[u8]) -> Explanation {
        let mut e = explain(bytes, bytes.len());
        e.primary = Some(self.span());
        e.related = (0..self.below(5)).map(|_| self.span()).collect();
        e.notes = vec!["".into(), "a\n\nb \n".into()];
        for _ in 0..self.below(3) {
            let Span { line, from, to, label } = self.span();
            e.helps.push(Help { text: label.clone(), edit: Some(Edit { line, from, to, text: label.into() }) });
        }
        e
    }
}

#[test]
fn any_bytes_and_any_spans() {
    let mut random = Random(17);
    let mut logs = Vec::new();
    for round in 0..3_000 {
        let bytes = random.bytes();
        let sheet = &Sheet::new(&bytes);
        let e = random.explanation(&bytes);
        let plain = text::render("a\nb", sheet, &e, round % 2 == 1);
        let plain = String::from_utf8(plain).unwrap();
        let a = e.answer;
        let figures = format!("(line {}, column {}; held {}, peak {})", a.line, a.column, a.held, a.peak);
        assert!(plain.lines().next().unwrap().contains(&figures), "{plain}");
        assert!(plain.lines().all(|line| !line.ends_with([' ', '\t']) && !line.ends_with(" \x1b[0m")), "{plain:?}");
        assert!(plain.ends_with('\n') && !plain.ends_with("\n\n"));
        if a.line > 0 && a.reason.is_some() {
            assert!(plain.contains(&format!(" a?b:{}:{}\n", a.line, a.column)), "{plain}");
        }
        let object = json::object("x", sheet, &e);
        assert_eq!((object["line"].as_u64(), object["held"].as_u64()), (Some(a.line.into()), Some(a.held.into())));
        if round % 10 == 0 {
            logs.push(sarif::log(&[("x".into(), sheet, &e), ("y".into(), sheet, &e), ("x".into(), sheet, &e)], true));
        }
    }
    assert!(faults(&logs).iter().all(|fault| fault == "ok"));
}

#[test]
fn an_object() {
    let leak = leak();
    let bytes = leak.as_bytes();
    let object = json::object("leak.sheet", &Sheet::new(bytes), &leaked(bytes));
    let place = leak.find("0\texit").unwrap();
    let wanted = json!({
        "schema": 1, "file": "leak.sheet", "reason": 15,
        "reason_text": "exit while columns are held, a line after exit, or no exit",
        "line": 6, "column": 1, "held": 32, "peak": 96, "title": "exit while 32 columns are held",
        "primary": { "line": 6, "from": 1, "to": 2, "label": "32 columns are held here" },
        "related": [{ "line": 3, "from": 47, "to": 51, "label": "`t1` takes 32 columns here and never gives them back" }],
        "notes": ["live at exit:\n`t1`: 32 columns"],
        "helps": [
            { "text": "give `t1` back before exit", "edit": {
                "line": 6, "from": 1, "to": 1, "start": place, "end": place,
                "text": "0\ttcgen05.dealloc.cta_group::1.sync.aligned.b32 t1, 32;\n",
            } },
            { "text": "or leave `{t1}` out", "edit": null },
        ],
        "allocations": [{ "name": "t1", "start": 64, "columns": 32, "line": 3, "end": null }],
    });
    assert_eq!(object, wanted);
}

#[test]
fn an_object_says_only_what_is_proved() {
    let leak = leak();
    let bytes = leak.as_bytes();
    let mut e = leaked(bytes);
    // another place than the library's, allocations that do not add up, and a text that JSON has no bytes for
    e.primary = Some(span(2, 9, 1, "elsewhere"));
    let other = Allocation { name: "u".into(), columns: 64, line: 2, end: None, start: None };
    e.history = Some(History { allocations: vec![other], ..History::default() });
    e.helps = vec![Help { text: "x".into(), edit: Some(Edit { line: 1, from: 1, to: 1, text: vec![0xff] }) }];
    let object = json::object("leak.sheet", &Sheet::new(bytes), &e);
    assert_eq!(object["primary"], json!({ "line": 6, "from": 1, "to": 1, "label": "elsewhere" }));
    assert_eq!((&object["allocations"], &object["helps"][0]["edit"]), (&Value::Null, &Value::Null));
    assert!(shown(bytes, &e).contains("\n  --> leak.sheet:6:1\n"));
    let pass = sheet(&["0\tALLOC [t], 64;", "0\tDEALLOC t, 64;", "0\texit;"]);
    let object = json::object("-", &Sheet::new(pass.as_bytes()), &explain(pass.as_bytes(), pass.len()));
    assert_eq!((&object["reason"], &object["reason_text"], &object["primary"]), (&json!(0), &json!("passed"), &Value::Null));
    assert_eq!(object["allocations"], json!([{ "name": "t", "start": 0, "columns": 64, "line": 2, "end": 3 }]));
    let large = "\n".repeat(4_097);
    let object = json::object("-", &Sheet::new(large.as_bytes()), &explain(large.as_bytes(), large.len()));
    assert_eq!((&object["reason"], &object["line"], &object["primary"]), (&json!(1), &json!(0), &Value::Null));
}

/// What `tests/sarif.py` says of logs: `ok`, or a fault.
fn faults(logs: &[Value]) -> Vec<String> {
    let script = concat!(env!("CARGO_MANIFEST_DIR"), "/../tests/sarif.py");
    let mut checker = Command::new("python3").arg(script).stdin(Stdio::piped()).stdout(Stdio::piped()).spawn().unwrap();
    let lines: String = logs.iter().map(|log| format!("{log}\n")).collect();
    let mut input = checker.stdin.take().unwrap();
    // it may end before it has read all; its status says so then
    let writer = std::thread::spawn(move || input.write_all(lines.as_bytes()));
    let output = checker.wait_with_output().unwrap();
    let _ = writer.join();
    assert!(matches!(output.status.code(), Some(0 | 1)), "the checker could not run");
    let said: Vec<String> = String::from_utf8(output.stdout).unwrap().lines().map(String::from).collect();
    assert_eq!(said.len(), logs.len());
    said
}

/// A log of a refused, a passed and a much too large sheet.
fn sample() -> Value {
    let (leak, pass, large) = (leak(), sheet(&["0\texit;"]), "\n".repeat(4_097));
    let [leak, pass, large] = [leak.as_bytes(), pass.as_bytes(), large.as_bytes()];
    let (a, b, c) = (leaked(leak), explain(pass, pass.len()), explain(large, large.len()));
    let sheets = [Sheet::new(leak), Sheet::new(pass), Sheet::new(large)];
    sarif::log(&[("./my sheets/\u{e9}:1%.sheet".into(), &sheets[0], &a), ("b".into(), &sheets[1], &b), ("-".into(), &sheets[2], &c)], true)
}

#[test]
fn a_log() {
    let log = sample();
    let run = &log["runs"][0];
    assert_eq!((log["version"].as_str(), run["tool"]["driver"]["name"].as_str()), (Some("2.1.0"), Some("foot")));
    // a rule for each reason of a sheet, and for no other
    let rules: Vec<_> = run["tool"]["driver"]["rules"].as_array().unwrap().iter().map(|r| r["id"].as_str().unwrap()).collect();
    assert_eq!(rules, (1..=15).chain([18, 20, 21]).map(|n| format!("SH{n:04}")).collect::<Vec<_>>());
    let uris: Vec<_> = run["artifacts"].as_array().unwrap().iter().map(|a| a["location"]["uri"].as_str().unwrap()).collect();
    assert_eq!(uris, ["my%20sheets/%C3%A9%3A1%25.sheet", "b", "stdin"]);
    let results = run["results"].as_array().unwrap();
    assert_eq!(results.len(), 2);
    let place = |r: &Value| r["locations"][0]["physicalLocation"].clone();
    assert_eq!(place(&results[0])["region"], json!({ "startLine": 6, "startColumn": 1, "endColumn": 2 }));
    assert_eq!(place(&results[1]), json!({ "artifactLocation": { "uri": "stdin", "index": 2 } }));
    let [id, text] = [&results[0]["ruleId"], &results[0]["message"]["text"]].map(|v| v.as_str().unwrap());
    assert_eq!(id, "SH0015");
    assert!(text.starts_with("exit while 32 columns are held (line 6, column 1; held 32, peak 96)\n"), "{text}");
    assert!(text.ends_with("help: or leave `{{t1}}` out"), "{text}");
    let related = &results[0]["relatedLocations"][0];
    assert_eq!((&related["id"], &related["physicalLocation"]["region"]["startLine"]), (&json!(1), &json!(3)));
    let replacement = &results[0]["fixes"][0]["artifactChanges"][0]["replacements"][0];
    assert_eq!(replacement["deletedRegion"], json!({ "startLine": 6, "startColumn": 1, "endLine": 6, "endColumn": 1 }));
    assert_eq!(replacement["insertedContent"]["text"], format!("0\t{DEALLOC} t1, 32;\n"));
    assert_eq!((&results[0]["properties"]["held"], &results[0]["properties"]["peak"]), (&json!(32), &json!(96)));
}

#[test]
fn columns_of_a_log_are_characters() {
    let bytes = b"sheet\n0\t\xc3\xa9ab\xff;\n0\texit;\n";
    let mut e = bare(bytes);
    e.related = vec![span(2, 5, 8, ""), span(2, 12, 3, ""), span(0, 0, 0, "")];
    let edits = [(2, 5, 7, "x"), (2, 3, 5, ""), (3, 1, 8, ""), (3, 3, 9, "")];
    e.helps = edits.map(|(line, from, to, text)| Help { text: "so".into(), edit: Some(Edit { line, from, to, text: text.into() }) }).into();
    let log = sarif::log(&[("x".into(), &Sheet::new(bytes), &e)], true);
    let result = &log["runs"][0]["results"][0];
    let regions: Vec<_> = (0..3).map(|i| result["relatedLocations"][i]["physicalLocation"]["region"].clone()).collect();
    let region = |line, from, to| json!({ "startLine": line, "startColumn": from, "endColumn": to });
    assert_eq!(regions, [region(2, 4, 7), region(2, 11, 11), region(1, 1, 1)]);
    // an edit of bytes that are no ASCII is left out
    let deleted: Vec<_> =
        result["fixes"].as_array().unwrap().iter().map(|f| f["artifactChanges"][0]["replacements"][0]["deletedRegion"].clone()).collect();
    let region = |line, from, end, to| json!({ "startLine": line, "startColumn": from, "endLine": end, "endColumn": to });
    assert_eq!(deleted, [region(2, 4, 2, 6), region(3, 1, 3, 8), region(3, 3, 4, 1)]);
    assert_eq!(faults(&[log]), ["ok"]);
}

#[test]
fn names_as_uris() {
    let bytes = b"";
    let (sheet, e) = (Sheet::new(bytes), bare(bytes));
    let names = ["a/b.sheet", "/a b", "././/a", "..", "a?#b", "-x", "c:d"];
    let files: Vec<_> = names.iter().map(|name| (name.to_string(), &sheet, &e)).collect();
    let log = sarif::log(&files, true);
    let results = log["runs"][0]["results"].as_array().unwrap();
    let uri = |r: &Value| r["locations"][0]["physicalLocation"]["artifactLocation"]["uri"].as_str().unwrap().to_string();
    let uris: Vec<_> = results.iter().map(uri).collect();
    assert_eq!(uris, ["a/b.sheet", "file:///a%20b", "a", "..", "a%3F%23b", "-x", "c%3Ad"]);
    assert_eq!(faults(&[log]), ["ok"]);
}

/// The log with another value at a place; null takes it away.
fn broken(log: &Value, place: &str, value: Value) -> Value {
    let mut log = log.clone();
    let (parent, key) = place.rsplit_once('/').unwrap();
    let object = log.pointer_mut(parent).unwrap().as_object_mut().unwrap();
    match value {
        Value::Null => object.remove(key),
        value => object.insert(key.into(), value),
    };
    log
}

#[test]
fn a_log_has_the_published_structure() {
    let log = sample();
    let run = "/runs/0";
    let result = "/runs/0/results/0";
    let region = "/runs/0/results/0/locations/0/physicalLocation/region";
    let related = log.pointer(&format!("{result}/relatedLocations/0")).unwrap().clone();
    let ways = [
        ("/version", json!("2.0.0"), "'2.0.0' is not one of ['2.1.0']"),
        ("/runs", Value::Null, "no runs"),
        (&format!("{run}/tool"), Value::Null, "no tool"),
        (&format!("{run}/columnKind"), json!("bytes"), "is not one of"),
        (&format!("{run}/colour"), json!("red"), "Run has no property colour"),
        (&format!("{run}/tool/driver/rules/0/id"), json!("SH0002"), "two rules have one id"),
        (&format!("{run}/artifacts"), json!([]), "no artifact 0"),
        (&format!("{run}/invocations/0/executionSuccessful"), json!(1), "no bool"),
        (&format!("{result}/message"), Value::Null, "no message"),
        (&format!("{result}/message/text"), json!("{t}"), "a single brace"),
        (&format!("{result}/level"), json!("fatal"), "is not one of"),
        (&format!("{result}/level"), json!("none"), "kind and level differ"),
        (&format!("{result}/ruleIndex"), json!(3), "ruleId and ruleIndex differ"),
        (&format!("{result}/ruleIndex"), json!(99), "no rule 99"),
        (&format!("{region}/startLine"), json!(0), "0 is under 1"),
        (&format!("{region}/startColumn"), json!("1"), "no int64"),
        (&format!("{region}/startColumn"), json!(3), "ends before it starts"),
        (&format!("{result}/locations/0/physicalLocation/artifactLocation/uri"), json!("a b"), "is no URI"),
        (&format!("{result}/locations/0/physicalLocation/artifactLocation/index"), json!(1), "uri and index differ"),
        (&format!("{result}/relatedLocations"), json!([related, related]), "not unique"),
        (&format!("{result}/fixes/0/artifactChanges"), json!([]), "empty"),
        (&format!("{result}/fixes/0/artifactChanges/0/replacements/0/deletedRegion"), Value::Null, "no deletedRegion"),
    ];
    let logs: Vec<Value> =
        std::iter::once(log.clone()).chain(ways.iter().map(|(place, value, _)| broken(&log, place, value.clone()))).collect();
    let said = faults(&logs);
    assert_eq!(said[0], "ok");
    for ((place, value, fault), said) in ways.iter().zip(&said[1..]) {
        assert!(said.contains(fault), "{place} {value}: {said}");
    }
}
