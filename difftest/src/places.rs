//! Every place of a statement that takes a number, with the sheet around it. A text with bytes in such a place is read and
//! written by both sides and held to what is known of it; a share of the texts are lines of whole sheets.

use crate::sheets::{Reference, Side};
use crate::statements::{shown, Comparison};

/// Where a number stands: the canonical text around it, and the largest that is taken.
pub struct Place {
    pub name: &'static str,
    pub before: &'static str,
    pub after: &'static str,
    pub limit: u64,
}

const NARROW: u64 = u32::MAX as u64;

/// Every operand that is a number and every offset.
pub const PLACES: [Place; 10] = [
    Place { name: "mov.b32", before: "mov.b32 x, ", after: ";", limit: NARROW },
    Place { name: "mov.b64", before: "mov.b64 x, ", after: ";", limit: u64::MAX },
    Place { name: "alloc", before: "tcgen05.alloc.cta_group::1.sync.aligned.b32 [n], ", after: ";", limit: NARROW },
    Place { name: "dealloc", before: "tcgen05.dealloc.cta_group::1.sync.aligned.b32 t, ", after: ";", limit: NARROW },
    Place { name: "ld", before: "tcgen05.ld.sync.aligned.32x32b.x1.b32 {r}, [t+", after: "];", limit: NARROW },
    Place { name: "st", before: "tcgen05.st.sync.aligned.16x64b.x1.b32 [t+", after: "], {r};", limit: NARROW },
    Place { name: "mma d", before: "tcgen05.mma.cta_group::1.kind::f16 [t+", after: "], b, b, i, p;", limit: NARROW },
    Place { name: "mma a", before: "tcgen05.mma.cta_group::1.kind::f16 [t], [t+", after: "], b, i, p;", limit: NARROW },
    Place { name: "mma meta", before: "tcgen05.mma.sp.cta_group::1.kind::f16 [t], b, b, [t+", after: "], j, p;", limit: NARROW },
    Place { name: "mma.ws d", before: "tcgen05.mma.ws.cta_group::1.kind::f16 [t+", after: "], [t], b, i, p;", limit: NARROW },
];

/// The sheet around a line: what the statements above name is there.
const LINES_BEFORE: &str = concat!(
    "sheet\t1\tsm_100a\n",
    "0\ttcgen05.alloc.cta_group::1.sync.aligned.b32 [t], 256;\n",
    "0\tmov.b64 b, 0x0000400800100000;\n",
    "0\tmov.b32 i, 0x08100010;\n",
    "0\tmov.b32 j, 0x08100014;\n",
);
const LINES_AFTER: &str = "0\ttcgen05.dealloc.cta_group::1.sync.aligned.b32 t, 256;\n0\texit;\n";
/// The number of the line, what is held there, the number of the last line, and the bytes that a line may have.
const LINE: u32 = 6;
const HELD: u32 = 256;
const LAST: u32 = 8;
const LONGEST_LINE: usize = 2_048;
/// The bytes that a statement may have.
pub const LONGEST: usize = 4_096;
/// What stands in a list before a call.
const UNTOUCHED: u16 = 0xA5A5;

/// What the rules say of a text: the reason, the column, and the value of a number that is in range.
#[derive(Clone, Copy)]
pub struct Known {
    pub reason: u32,
    pub column: usize,
    pub value: u128,
}

impl Known {
    pub fn refused(reason: u32, column: usize) -> Self {
        Known { reason, column, value: 0 }
    }

    pub fn taken(value: u128) -> Self {
        Known { reason: 0, column: 0, value }
    }
}

impl Place {
    /// The text that has these bytes in the place.
    pub fn text(&self, middle: &[u8]) -> Vec<u8> {
        [self.before.as_bytes(), middle, self.after.as_bytes()].concat()
    }

    /// The writer's text for a value.
    fn canonical(&self, value: u128) -> Vec<u8> {
        let Place { before, after, .. } = self;
        match before.strip_suffix('+') {
            Some(address) if value == 0 => format!("{address}{after}"),
            _ => format!("{before}{value}{after}"),
        }
        .into()
    }
}

/// Compares a side with the reference, and both with what is known.
pub struct Texts<'a, S: Side> {
    pub c: Comparison<'a, S>,
    turn: u64,
}

impl<'a, S: Side> Texts<'a, S> {
    pub fn new(side: &'a S) -> Self {
        Texts { c: Comparison::new(side), turn: 0 }
    }

    /// A text that starts like this place. Answers the reason.
    pub fn compare(&mut self, place: &Place, text: &[u8], known: Option<Known>) -> u32 {
        let (reason, column) = self.c.text(text);
        if let Some(known) = &known {
            let wanted = (known.reason, known.column);
            self.c.counts.compare("known answers", known.reason, (reason, column), wanted, || shown(text));
            let wanted = if known.reason == 0 { place.canonical(known.value) } else { Vec::new() };
            self.c.counts.compare("known texts", known.reason, &self.c.written, &wanted, || shown(text));
        }
        self.c.counts.seen(place.name, reason);
        self.turn += 1;
        if self.turn % 7 == 0 {
            self.sheet(place, text, known);
        }
        reason
    }

    /// The statement as a line of a sheet: the answer, and the list.
    fn sheet(&mut self, place: &Place, text: &[u8], known: Option<Known>) {
        let sheet = [LINES_BEFORE.as_bytes(), b"0\t", text, b"\n", LINES_AFTER.as_bytes()].concat();
        let (mut ours, mut theirs) = ([UNTOUCHED; 4], [UNTOUCHED; 4]);
        let answered = self.c.side.judge(&sheet, &mut ours);
        let wanted = Reference.judge(&sheet, &mut theirs);
        self.c.counts.compare("sheets", wanted.0, (answered, ours), (wanted, theirs), || shown(text));
        let laid_out = text.len() + 2 <= LONGEST_LINE && text.iter().all(|b| (32..127).contains(b));
        if let (Some(known), true) = (known, laid_out) {
            let all = match (known.reason, place.name) {
                (0, "mov.b32" | "mov.b64") => [0, LAST, 0, 0, HELD, 1],
                (0, _) => return,
                (reason, _) => [reason, LINE, known.column as u32 + 2, HELD, HELD, 0],
            };
            self.c.counts.compare("known sheets", known.reason, wanted.1, all, || shown(text));
        }
    }
}
