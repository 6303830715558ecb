//! foot [FILE ...]: the report of each sheet, or its explanation. All judging is the proved library's.
#![deny(clippy::undocumented_unsafe_blocks)]
#![no_main]

mod options;

use commands::command::{self, complain, print, standard, FAILED, PASSED, REFUSED};
use commands::explain::{explain, Explanation};
use commands::picture;
use commands::render::{json, sarif, text};
use commands::sheet::Sheet;
use options::{shown, Asked, Format, Sheets};
use std::ffi::{c_int, OsStr};
use std::fs::File;
use std::io::{self, ErrorKind, Read};
use std::os::unix::ffi::OsStrExt;

/// A sheet that was read.
struct Input {
    /// Its name as it is, which JSON can say, and on one line.
    name: String,
    shown: String,
    /// All bytes, or one more than a sheet may have.
    bytes: Vec<u8>,
    /// How many bytes there were, counted up to one more than `command::MOST_COUNTED`.
    size: usize,
}

/// A sheet with its explanation.
struct Told<'a> {
    input: &'a Input,
    sheet: Sheet<'a>,
    e: Explanation,
}

/// Fills a buffer as far as there is something to read. A read that fails leaves nothing to judge.
fn fill(input: &mut impl Read, buffer: &mut [u8]) -> io::Result<usize> {
    let mut length = 0;
    while length < buffer.len() {
        match input.read(&mut buffer[length..]) {
            Ok(0) => break,
            Ok(n) => length += n,
            Err(e) if e.kind() == ErrorKind::Interrupted => {}
            Err(e) => return Err(e),
        }
    }
    Ok(length)
}

/// The bytes of a sheet; one more than a sheet may have are enough to judge. And how many there are, where that is asked for.
fn read_sheet(mut input: impl Read, counted: bool) -> io::Result<(Vec<u8>, usize)> {
    let mut sheet = vec![0; staplehorn::MOST_BYTES + 1];
    let mut size = fill(&mut input, &mut sheet)?;
    if counted && size == sheet.len() {
        // an endless stream ends here too
        size += io::copy(&mut input.take((command::MOST_COUNTED + 1 - size) as u64), &mut io::sink())? as usize;
    }
    sheet.truncate(size);
    Ok((sheet, size))
}

/// Reads a sheet, or says why not.
fn read(name: &OsStr, counted: bool) -> Option<Input> {
    let (read, name, shown) = match name.as_bytes() {
        b"-" => (read_sheet(&*standard(0), counted), "-".into(), "standard input".into()),
        _ => (File::open(name).and_then(|file| read_sheet(file, counted)), name.to_string_lossy().into(), shown(name)),
    };
    match read {
        Ok((bytes, size)) => Some(Input { name, shown, bytes, size }),
        Err(e) => {
            complain("foot", &format!("cannot read {shown}: {e}"));
            None
        }
    }
}

impl Told<'_> {
    fn new(input: &Input) -> Told<'_> {
        Told { input, sheet: Sheet::new(&input.bytes), e: explain(&input.bytes, input.size) }
    }

    fn status(&self) -> c_int {
        self.e.answer.reason.map_or(PASSED, |_| REFUSED)
    }

    /// Draws the sheet if that is asked for; false where the picture could not be written.
    fn is_drawn(&self, asked: &Sheets) -> bool {
        let Some(path) = &asked.picture else { return true };
        let written = command::write_whole(path, picture::svg(&self.input.shown, &self.sheet, &self.e).as_bytes());
        if let Err(e) = &written {
            complain("foot", &format!("cannot write {}: {e}", shown(path.as_os_str())));
        }
        written.is_ok()
    }

    /// The explanation of one of several sheets ends in an empty line.
    fn text(&self, asked: &Sheets) -> Vec<u8> {
        let mut text = text::render(&self.input.shown, &self.sheet, &self.e, asked.colour);
        text.extend((asked.files.len() > 1).then_some(b'\n'));
        text
    }

    fn json(&self) -> Vec<u8> {
        format!("{}\n", json::object(&self.input.name, &self.sheet, &self.e)).into()
    }
}

/// The report of a sheet; that of one of several stands under its name.
fn reported(asked: &Sheets, input: &Input) -> (Vec<u8>, c_int) {
    let report = staplehorn::report(&input.bytes);
    let mut text = if asked.files.len() > 1 { format!("{}:\n", input.shown).into_bytes() } else { Vec::new() };
    text.extend(report.text);
    (text, report.reason.map_or(PASSED, |_| REFUSED))
}

/// The explanation of a sheet; none where its picture could not be written.
fn explained(asked: &Sheets, input: &Input) -> Option<(Vec<u8>, c_int)> {
    let told = Told::new(input);
    told.is_drawn(asked).then(|| match asked.format {
        Format::Text => (told.text(asked), told.status()),
        Format::Json => (told.json(), told.status()),
        Format::Report | Format::Sarif => reported(asked, input),
    })
}

/// Reads, judges and prints one sheet; no status where it could not be printed.
fn foot(asked: &Sheets, name: &OsStr) -> Option<c_int> {
    let Some(input) = read(name, asked.explains()) else { return Some(FAILED) };
    let answered = if asked.explains() { explained(asked, &input) } else { Some(reported(asked, &input)) };
    let Some((text, status)) = answered else { return Some(FAILED) };
    (print("foot", &text) == PASSED).then_some(status)
}

/// Judges all sheets, up to the first that cannot be printed.
fn feet(asked: &Sheets) -> c_int {
    let mut status = PASSED;
    for name in &asked.files {
        match foot(asked, name) {
            Some(one) => status = status.max(one),
            None => return FAILED,
        }
    }
    status
}

/// One log for all sheets that could be read.
fn log(asked: &Sheets) -> c_int {
    let inputs: Vec<Input> = asked.files.iter().filter_map(|name| read(name, true)).collect();
    let told: Vec<Told> = inputs.iter().map(Told::new).collect();
    if !told.iter().all(|told| told.is_drawn(asked)) {
        return FAILED;
    }
    let rows: Vec<_> = told.iter().map(|told| (told.input.name.clone(), &told.sheet, &told.e)).collect();
    let whole = inputs.len() == asked.files.len();
    let unread = if whole { PASSED } else { FAILED };
    let printed = print("foot", format!("{:#}\n", sarif::log(&rows, whole)).as_bytes());
    told.iter().map(Told::status).fold(unread.max(printed), c_int::max)
}

#[no_mangle]
pub extern "C" fn main() -> c_int {
    command::ignore_sigpipe();
    match options::asked(std::env::args_os().skip(1)) {
        Ok(Asked::Text(text)) => print("foot", text.as_bytes()),
        Ok(Asked::Sheets(asked)) if asked.format == Format::Sarif => log(&asked),
        Ok(Asked::Sheets(asked)) => feet(&asked),
        Err(fault) => {
            complain("foot", &format!("{fault}; foot --help shows the usage"));
            FAILED
        }
    }
}
