//! A sheet's bytes by lines, and an edit of them. Nothing here judges: it only cuts.

/// A sheet and its lines, each without its LF.
pub struct Sheet<'a> {
    pub bytes: &'a [u8],
    lines: Vec<&'a [u8]>,
}

impl<'a> Sheet<'a> {
    pub fn new(bytes: &'a [u8]) -> Sheet<'a> {
        let mut lines: Vec<_> = bytes.split(|&b| b == b'\n').collect();
        // what stands after the last LF is a line only if there is something
        if lines.last().is_some_and(|rest| rest.is_empty()) {
            lines.pop();
        }
        Sheet { bytes, lines }
    }

    /// How many lines there are, one without its LF included.
    pub fn count(&self) -> usize {
        self.lines.len()
    }

    /// The last line has no LF.
    pub fn is_cut(&self) -> bool {
        self.bytes.last().is_some_and(|&b| b != b'\n')
    }

    /// A line, counted from 1; empty where there is none.
    pub fn line(&self, number: usize) -> &'a [u8] {
        number.checked_sub(1).and_then(|i| self.lines.get(i)).copied().unwrap_or_default()
    }

    /// The statement of a line: what stands after the warp field and the tab.
    pub fn statement(&self, number: usize) -> &'a [u8] {
        self.line(number).get(2..).unwrap_or_default()
    }

    /// The warp of a line that was accepted or refused for its statement.
    pub fn warp(&self, number: usize) -> u32 {
        match self.line(number).first() {
            Some(b @ b'0'..=b'3') => u32::from(b - b'0'),
            _ => 0,
        }
    }

    /// The bytes of the sheet after an edit.
    pub fn edited(&self, edit: &Edit) -> Vec<u8> {
        let (from, to) = self.range(edit);
        [&self.bytes[..from], &edit.text, &self.bytes[to..]].concat()
    }

    /// The edit that takes a line out, with its LF.
    pub fn without(&self, line: usize) -> Edit {
        Edit { line, from: 1, to: self.line(line).len() + 2, text: Vec::new() }
    }

    /// By how many lines an edit moves down what it leaves of its line and what follows; -1 where the line is taken out.
    pub fn moved(&self, edit: &Edit) -> i64 {
        match (edit.from, edit.to) {
            (1, 1) => edit.added() as i64,
            (1, to) if edit.text.is_empty() && to > self.line(edit.line).len() + 1 => -1,
            _ => 0,
        }
    }

    /// The bytes that an edit replaces, as places in the sheet.
    pub fn range(&self, edit: &Edit) -> (usize, usize) {
        let begins: usize = self.lines.iter().take(edit.line.saturating_sub(1)).map(|line| line.len() + 1).sum();
        let place = |column: usize| begins.saturating_add(column.saturating_sub(1)).min(self.bytes.len());
        (place(edit.from), place(edit.to).max(place(edit.from)))
    }
}

/// Bytes of one line that others would replace: from a column, counted from 1, up to one before another. A text that ends in LF at
/// column 1 is a line, or several, put before the line.
#[derive(Clone, PartialEq, Eq, Debug)]
pub struct Edit {
    pub line: usize,
    pub from: usize,
    pub to: usize,
    pub text: Vec<u8>,
}

impl Edit {
    /// The bytes of a line that differ from another text of it, which may end in an LF that the line lacks.
    pub fn between(line: usize, old: &[u8], new: &[u8]) -> Edit {
        let same = |(a, b): &(&u8, &u8)| a == b;
        let head = old.iter().zip(new).take_while(same).count();
        let tail = old[head..].iter().rev().zip(new[head..].iter().rev()).take_while(same).count();
        Edit { line, from: head + 1, to: old.len() - tail + 1, text: new[head..new.len() - tail].to_vec() }
    }

    /// Lines put before a line; each ends in LF.
    pub fn before(line: usize, text: impl Into<Vec<u8>>) -> Edit {
        Edit { line, from: 1, to: 1, text: text.into() }
    }

    /// How many lines more the sheet has after it.
    pub fn added(&self) -> usize {
        self.text.iter().filter(|&&b| b == b'\n').count()
    }
}

#[cfg(test)]
mod tests {
    use super::*;

    #[test]
    fn lines_and_edits() {
        let sheet = Sheet::new(b"ab\ncd\n\nef");
        assert_eq!((sheet.count(), sheet.is_cut()), (4, true));
        assert_eq!(
            (sheet.line(0), sheet.line(2), sheet.line(3), sheet.line(4), sheet.line(5)),
            (&b""[..], &b"cd"[..], &b""[..], &b"ef"[..], &b""[..])
        );
        let edit = Edit { line: 2, from: 2, to: 3, text: b"XY".to_vec() };
        assert_eq!(sheet.edited(&edit), b"ab\ncXY\n\nef");
        assert_eq!(sheet.edited(&Edit::before(4, "0\n")), b"ab\ncd\n\n0\nef");
        assert_eq!(sheet.edited(&Edit { line: 9, from: 7, to: 2, text: Vec::new() }), b"ab\ncd\n\nef");
        assert_eq!(sheet.range(&Edit { line: 2, from: 2, to: usize::MAX, text: Vec::new() }), (4, 9));
        assert_eq!(sheet.edited(&sheet.without(2)), b"ab\n\nef");
        assert_eq!(sheet.edited(&sheet.without(4)), b"ab\ncd\n\n");
        assert_eq!(Sheet::new(b"").count(), 0);
        let moved = |edit: Edit| sheet.moved(&edit);
        assert_eq!((moved(sheet.without(3)), moved(Edit::before(2, "a\nb\n")), moved(edit)), (-1, 2, 0));
        assert_eq!(Edit::between(2, b"abcd", b"axyd"), Edit { line: 2, from: 2, to: 4, text: b"xy".to_vec() });
        let ended = Edit::between(4, b"ef", b"ef\n");
        assert_eq!((sheet.edited(&ended), sheet.moved(&ended)), (b"ab\ncd\n\nef\n".to_vec(), 0));
        assert_eq!(Edit::between(1, b"aa", b"aaa"), Edit { line: 1, from: 3, to: 3, text: b"a".to_vec() });
    }
}
