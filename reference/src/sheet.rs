//! The layout of a sheet: its limits, its lines, the fields of a line.

use crate::statement::{read, Statement};

/// The most bytes of a sheet.
pub const MOST_BYTES: usize = 65_536;
/// The most lines of a sheet, the first included.
pub const MOST_LINES: usize = 4_096;
/// The longest line, its LF not counted.
pub const LONGEST_LINE: usize = 2_048;

/// The only first line.
pub const HEADER: &[u8] = b"sheet\t1\tsm_100a";

/// Has the sheet too many bytes or lines?
pub fn is_over(sheet: &[u8]) -> bool {
    sheet.len() > MOST_BYTES || count_lines(sheet) > MOST_LINES
}

/// Bytes behind the last LF are a line too.
pub fn count_lines(sheet: &[u8]) -> usize {
    let ends = sheet.iter().filter(|&&byte| byte == b'\n').count();
    let open = !sheet.is_empty() && !sheet.ends_with(b"\n");
    ends + usize::from(open)
}

/// A line without its LF.
#[derive(Clone, Copy)]
pub struct Line<'a> {
    pub bytes: &'a [u8],
    /// Did an LF follow?
    pub ended: bool,
}

/// Gives out the lines one at a time.
pub struct Lines<'a> {
    rest: &'a [u8],
}

impl<'a> Lines<'a> {
    pub fn new(sheet: &'a [u8]) -> Self {
        Lines { rest: sheet }
    }
}

impl<'a> Iterator for Lines<'a> {
    type Item = Line<'a>;

    fn next(&mut self) -> Option<Line<'a>> {
        if self.rest.is_empty() {
            return None;
        }
        match self.rest.iter().position(|&byte| byte == b'\n') {
            Some(end) => {
                let bytes = &self.rest[..end];
                self.rest = &self.rest[end + 1..];
                Some(Line { bytes, ended: true })
            }
            None => {
                let bytes = self.rest;
                self.rest = &[];
                Some(Line { bytes, ended: false })
            }
        }
    }
}

impl<'a> Line<'a> {
    pub fn is_header(&self) -> bool {
        self.ended && self.bytes == HEADER
    }

    /// The warp and the text of the statement; `None` for a fault of layout.
    pub fn fields(&self) -> Option<(u8, &'a [u8])> {
        if !self.ended || self.bytes.len() > LONGEST_LINE {
            return None;
        }
        let [field, b'\t', text @ ..] = self.bytes else {
            return None;
        };
        let warp = read_warp(*field)?;
        if text.iter().all(|byte| (32..=126).contains(byte)) {
            Some((warp, text))
        } else {
            None
        }
    }
}

/// A warp that is not known counts as warp 0.
fn read_warp(field: u8) -> Option<u8> {
    match field {
        b'0'..=b'3' => Some(field - b'0'),
        b'*' => Some(0),
        _ => None,
    }
}

/// A statement and the warp it stands in.
#[derive(Clone, PartialEq, Eq, Debug)]
pub struct Step {
    pub warp: u8,
    pub statement: Statement,
}

/// The statements from line 2 on; `None` when one of the lines does not read.
pub fn steps(sheet: &[u8]) -> Option<Vec<Step>> {
    let step = |line: Line| {
        let (warp, text) = line.fields()?;
        let statement = read(text).ok()?;
        Some(Step { warp, statement })
    };
    Lines::new(sheet).skip(1).map(step).collect()
}
