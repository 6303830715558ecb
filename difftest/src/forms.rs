//! Statements of no form, each with the place where none can go on.

use crate::faults::{Fault, FIRST};
use crate::maker::{Access, Address, Maker, IDLE, RELINQUISH};
use crate::tokens::{class, Class, Role, Spacing, Text};

impl Maker<'_> {
    /// A statement that is of no form from some token on; what stands behind it does not matter.
    pub fn form_fault(&mut self) -> Fault {
        let mut text = self.readable();
        if self.one_in(12) {
            text = self.full_list();
        }
        match self.r.below(16) {
            0 | 1 => self.opcode_fault(&text),
            2 => self.known_fault(),
            3 => self.blank_fault(&text),
            4 | 5 => self.cut_fault(&text),
            6 | 7 => self.trailing_fault(&text),
            8 => self.list_fault(),
            _ => self.token_fault(&text),
        }
    }

    /// A load or store with 128 registers.
    fn full_list(&mut self) -> Text {
        let (shape, num) = self.r.pick(&[(0, 128), (1, 128), (2, 64), (3, 32)]);
        let address = Address::new("q".into(), self.r.below(9));
        let store = self.one_in(2);
        self.access_text(&Access { store, shape, num, count: 128, address, warp: 0 })
    }

    fn raw_statement(&mut self, text: &str) {
        let warp = self.any_warp();
        self.bytes.extend([b'0' + warp as u8, b'\t']);
        self.raw(text.as_bytes());
    }

    /// Another opcode, or bytes that are none: the column is its first.
    fn opcode_fault(&mut self, text: &Text) -> Fault {
        let other = loop {
            let other = self.changed_opcode(text.token(0));
            let end = other.find(|c: char| !is_opcode(c)).unwrap_or(other.len());
            // by chance it may be one again, or nothing be left
            if !other.is_empty() && !is_known(&other[..end]) {
                break other;
            }
        };
        let mut broken = Text::new(&other);
        broken.copy(text, 1..text.count());
        self.raw_statement(&broken.plain());
        Fault::new("opcode", FIRST)
    }

    fn changed_opcode(&mut self, opcode: &str) -> String {
        let cut = self.r.below(opcode.len() as u64) as usize;
        match self.r.below(7) {
            0 => format!("{}{}", opcode[..1].to_uppercase(), &opcode[1..]),
            1 => opcode[..cut].into(),
            2 => format!("{opcode}{}", self.r.pick(&[".", ":", "_", "x", "0", ".b32", "::1"])),
            3 => format!("{}{}{}", &opcode[..cut], self.r.pick(&[".", "x", "_", "2", "::"]), &opcode[cut..]),
            4 => format!("{}{opcode}", self.r.pick(&["[", "%", "@", ";", "$", "{", "-", "@p "])),
            5 => self.r.pick(&OPCODES).into(),
            _ => format!("{}{}", &opcode[..cut], &opcode[cut + 1..]),
        }
    }

    /// One of the statements that have no form here.
    fn known_fault(&mut self) -> Fault {
        let marked = self.r.pick(&WRONG);
        let at = marked.find('^').expect("the place is marked");
        self.raw_statement(&marked.replace('^', ""));
        Fault::new("known statement", FIRST + at)
    }

    /// Nothing, or spaces where the opcode should be.
    fn blank_fault(&mut self, text: &Text) -> Fault {
        let spaces = " ".repeat(1 + self.r.below(4) as usize);
        let (what, line) = match self.r.below(3) {
            0 => ("nothing", String::new()),
            1 => ("spaces alone", spaces),
            _ => ("space before the opcode", format!("{spaces}{}", text.plain())),
        };
        self.raw_statement(&line);
        Fault::new(what, FIRST)
    }

    /// A text that ends too early: the column is one past its end, with the spaces that may stand there.
    fn cut_fault(&mut self, text: &Text) -> Fault {
        let front = text.front(1 + self.r.below(text.count() as u64 - 1) as usize);
        let mut starts = Vec::new();
        let spacing = if text.length() > 500 { Spacing::Plain } else { self.r.pick(&[Spacing::Plain, Spacing::Tight, Spacing::Loose]) };
        let mut line = front.spaced(self.r, spacing, &mut starts);
        if self.one_in(3) {
            line.push_str(&" ".repeat(1 + self.r.below(4) as usize));
        }
        self.raw_statement(&line);
        Fault::new("end of the text", FIRST + line.len())
    }

    /// Anything behind the `;`: the column is that of the first byte there, a space too.
    fn trailing_fault(&mut self, text: &Text) -> Fault {
        let line = text.plain();
        let more = self.r.pick(&[" ", "  ", ";", " ;", "; ", " exit;", "exit;", " // end", "x", "0", "[", ".", "%", "~", ", x;"]);
        self.raw_statement(&format!("{line}{more}"));
        Fault::new("behind the end", FIRST + line.len())
    }

    /// A list that is too long, at the comma that no list has; or an empty one.
    fn list_fault(&mut self) -> Fault {
        let (store, many) = (self.one_in(2), !self.one_in(3));
        let count = if many { 129 + self.r.pick(&[0, 1, 71]) } else { 0 };
        let address = Address::new("q".into(), self.r.below(9));
        let text = self.access_text(&Access { store, shape: 0, num: 128, count, address, warp: 0 });
        let open = (0..text.count()).find(|&place| text.token(place) == "{").expect("a list is there");
        let spacing = self.r.pick(&[Spacing::Plain, Spacing::Tight]);
        let warp = self.any_warp();
        self.spaced_line(warp, &text, spacing);
        // each name has a comma behind it
        let place = if many { open + 2 * 128 } else { open + 1 };
        Fault::new(if many { "list of 129 names" } else { "empty list" }, FIRST + self.starts[place])
    }

    /// A token exchanged, put in or left out, so that one stands where the form wants another.
    fn token_fault(&mut self, text: &Text) -> Fault {
        let rare = if self.one_in(3) { rare_places(text) } else { Vec::new() };
        loop {
            let at = if rare.is_empty() { 1 + self.r.below(text.count() as u64 - 1) as usize } else { self.r.pick(&rare) };
            let wanted = text.wanted(at);
            let mut broken = text.front(at);
            let drops = self.r.below(3);
            if drops > 0 {
                broken.push(self.r.pick(&ODD), Role::Mark);
            }
            // left out, exchanged, put in
            let rest = if drops == 2 { at } else { at + 1 };
            broken.copy(text, rest..text.count());
            if broken.count() == at || wanted.contains(&class(broken.token(at))) {
                continue;
            }
            if drops > 0 && self.one_in(4) {
                broken = broken.front(at + 1);
            }
            let found = class(broken.token(at));
            let warp = self.any_warp();
            let spacing = self.r.pick(&[Spacing::Plain, Spacing::Tight, Spacing::Loose]);
            self.spaced_line(warp, &broken, spacing);
            let mut fault = Fault::new(wanted_name(&wanted), FIRST + self.starts[at]);
            fault.also = Some(found_name(found));
            return fault;
        }
    }
}

/// Places of which a statement has one at most.
fn rare_places(text: &Text) -> Vec<usize> {
    let is_rare = |wanted: &[Class]| matches!(wanted, [Class::Name, Class::Mark(_)] | [Class::Mark(b'{' | b'}')]);
    (1..text.count()).filter(|&place| is_rare(&text.wanted(place))).collect()
}

/// What the counts call the tokens that a form can have at a place.
fn wanted_name(wanted: &[Class]) -> &'static str {
    match wanted {
        [Class::Name, Class::Mark(b'[')] => "for a name or [",
        [Class::Name] => "for a name",
        [Class::Number, ..] => "for an operand",
        [.., Class::Mark(b'*'), Class::Mark(b')')] => "for an operator or )",
        [.., Class::Mark(b'*'), Class::Mark(b']')] => "for an operator or ]",
        [.., Class::Mark(b'*'), Class::Mark(b';')] => "for an operator or ;",
        [Class::Mark(b'+'), Class::Mark(b']')] => "for + or ]",
        [Class::Mark(b','), Class::Mark(b'}')] => "for , or }",
        [Class::Mark(b'[')] => "for [",
        [Class::Mark(b']')] => "for ]",
        [Class::Mark(b'{')] => "for {",
        [Class::Mark(b'}')] => "for }",
        [Class::Mark(b',')] => "for ,",
        [Class::Mark(b';')] => "for ;",
        _ => "for something else",
    }
}

/// What the counts call a token that stands where no form has it.
fn found_name(found: Class) -> &'static str {
    match found {
        Class::Name => "found a name",
        Class::Number => "found a number",
        Class::Neither => "found neither of the two",
        Class::Byte => "found a byte that is no token",
        Class::Mark(b'[') => "found [",
        Class::Mark(b']') => "found ]",
        Class::Mark(b'{') => "found {",
        Class::Mark(b'}') => "found }",
        Class::Mark(b'+') => "found +",
        Class::Mark(b'-') => "found -",
        Class::Mark(b'*') => "found *",
        Class::Mark(b'(') => "found (",
        Class::Mark(b')') => "found )",
        Class::Mark(b',') => "found ,",
        Class::Mark(_) => "found ;",
    }
}

fn is_opcode(c: char) -> bool {
    c.is_ascii_alphanumeric() || matches!(c, '_' | '.' | ':')
}

/// Could this be the opcode of a form? True of too many rather than too few.
fn is_known(word: &str) -> bool {
    let plain = ["exit", "mov.b32", "mov.b64", RELINQUISH].contains(&word) || IDLE.contains(&word);
    let ends = [".b32", "kind::f16", "kind::tf32", "kind::f8f6f4", "kind::i8"];
    let starts = ["tcgen05.alloc", "tcgen05.dealloc", "tcgen05.ld", "tcgen05.st", "tcgen05.mma"];
    plain || starts.iter().any(|start| word.starts_with(start)) && ends.iter().any(|end| word.ends_with(end)) && is_whole(word)
}

/// All parts are such as the opcodes have.
fn is_whole(word: &str) -> bool {
    let parts = ["tcgen05", "alloc", "dealloc", "ld", "st", "mma", "ws", "sp", "sync", "aligned", "b32", "cta_group::1", "shared::cta"];
    let sizes = ["x1", "x2", "x4", "x8", "x16", "x32", "x64", "x128", "32x32b", "16x64b", "16x128b", "16x256b"];
    let kinds = ["kind::f16", "kind::tf32", "kind::f8f6f4", "kind::i8"];
    word.split('.').all(|part| parts.contains(&part) || sizes.contains(&part) || kinds.contains(&part))
}

/// Opcodes that are none here.
const OPCODES: [&str; 14] = [
    "EXIT",
    "mov",
    "mov.b16",
    "mov.u32",
    "tcgen05.alloc.cta_group::2.sync.aligned.b32",
    "tcgen05.alloc.cta_group::1.shared::cta.sync.aligned.b32",
    "tcgen05.dealloc.cta_group::1.sync.aligned.shared::cta.b32",
    "tcgen05.mma.sp.ws.cta_group::1.kind::f16",
    "tcgen05.mma.cta_group::1.kind::mxf4",
    "tcgen05.ld.sync.aligned.32x32b.x3.b32",
    "tcgen05.ld.sync.aligned.16x32bx2.x1.b32",
    "tcgen05.st.sync.aligned.32x32b.x256.b32",
    "tcgen05.wait::ld.sync.aligned.b32",
    "bra",
];

/// Tokens to be put where a form may not have them.
const ODD: [&str; 61] = [
    "q7",
    "x",
    "%p",
    "$x1",
    "_1",
    "%%a",
    "abcdefghijklmnop",
    "abcdefghijklmnopq",
    "%bcdefghijklmnopq",
    "exit",
    "mov",
    "0",
    "12",
    "0x1F",
    "0X00ff",
    "4294967296",
    "08",
    "064",
    "00",
    "0x",
    "0xg",
    "64abc",
    "1_",
    "_",
    "$",
    "64U",
    "0U",
    "00U",
    "0xFU",
    "0b1",
    "0B01U",
    "0b",
    "0bU",
    "0b2",
    "0b102",
    "64u",
    "64UU",
    "64U1",
    "0o7",
    "U",
    "[",
    "]",
    "{",
    "}",
    "+",
    ",",
    ";",
    "%",
    "%%",
    ".",
    ":",
    "-",
    "*",
    "@",
    "~",
    "/",
    "(",
    ")",
    "\"",
    "=",
    "!",
];

/// Statements that have no form here, with a mark where none can go on.
const WRONG: [&str; 30] = [
    "^tcgen05.alloc.cta_group::2.sync.aligned.b32 [t], 32;",
    "tcgen05.alloc.cta_group::1.sync.aligned.b32 [t^+0], 32;",
    "tcgen05.alloc.cta_group::1.sync.aligned.b32 [t], ^08;",
    "tcgen05.alloc.cta_group::1.sync.aligned.b32 [t], ^64u;",
    "tcgen05.dealloc.cta_group::1.sync.aligned.b32 t, ^0b102;",
    "mov.b32 x, ^0UU;",
    "tcgen05.alloc.cta_group::1.sync.aligned.b32 ^t, 32;",
    "tcgen05.alloc.cta_group::1.sync.aligned.b32 [t] ^32;",
    "^tcgen05.dealloc.cta_group::1.sync.aligned.shared::cta.b32 t, 32;",
    "tcgen05.dealloc.cta_group::1.sync.aligned.b32 ^[t], 32;",
    "^tcgen05.mma.sp.ws.cta_group::1.kind::f16 [d], a, b, [m], i, p;",
    "tcgen05.mma.cta_group::1.kind::f16 [d], a, b, ^[m], i, p;",
    "tcgen05.mma.sp.cta_group::1.kind::f16 [d], a, b, ^i, p;",
    "^tcgen05.mma.cta_group::1.kind::mxf8f6f4 [d], a, b, i, p;",
    "tcgen05.mma.cta_group::1.kind::f16 [d], a, ^[b], i, p;",
    "tcgen05.mma.cta_group::1.kind::f16 [d], a^+1, b, i, p;",
    "tcgen05.mma.cta_group::1.kind::f16 ^d, a, b, i, p;",
    "^tcgen05.ld.sync.aligned.32x32b.x3.b32 {a, b, c}, [t];",
    "^tcgen05.ld.sync.aligned.32x32b.x256.b32 {a}, [t];",
    "^tcgen05.ld.sync.aligned.16x32bx2.x1.b32 {a}, [t], 1;",
    "^tcgen05.ld.sync.aligned.32x32b.x1.pack::16b.b32 {a}, [t];",
    "tcgen05.ld.sync.aligned.32x32b.x1.b32 {^}, [t];",
    "tcgen05.ld.sync.aligned.32x32b.x1.b32 ^r, [t];",
    "tcgen05.st.sync.aligned.32x32b.x1.b32 ^{a}, [t];",
    "^tcgen05.cp.cta_group::1.128x256b [t], s;",
    "^tcgen05.shift.cta_group::1.down [t];",
    "^tcgen05.commit.cta_group::1.mbarrier::arrive::one.b64 [m];",
    "^bra out;",
    "mov.b32 ^abcdefghijklmnopq, 1;",
    "mov.b32 ^%, 1;",
];
