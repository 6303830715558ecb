//! Makes valid sheets, line by line.
//!
//! It keeps its own small account of what is held and bound, so that it knows without asking either side that a line
//! is valid, and what the answer to a line is that is aimed at a reason (faults.rs).

use crate::spelling::{Number, Spelling, BASES};
use crate::tokens::{Operand, Role, Spacing, Text};
use crate::trees::{is_in_range, Operator, Style, Tree, LEVELS, MOST};
use staplehorn_difftest::random::Random;
use std::fmt::Write;

/// Columns are taken in units of 32, of which there are 16.
pub const UNIT: u32 = 32;
pub const UNITS: u32 = 16;
/// Value names that can be bound.
pub const VALUES: usize = 128;
/// The lanes in one step of an offset.
pub const LANE: u64 = 65_536;

const SHAPES: [&str; 4] = ["32x32b", "16x64b", "16x128b", "16x256b"];
/// For each shape: registers and columns at x1, and the largest N.
pub const SIZES: [(u64, u64, u64); 4] = [(1, 1, 128), (1, 2, 128), (2, 4, 64), (4, 8, 32)];
const KINDS: [&str; 4] = ["f16", "tf32", "f8f6f4", "i8"];
pub const I8: usize = 3;

pub struct Live {
    pub name: String,
    pub columns: u32,
    pub unit: u32,
    /// Loads and stores that were not waited for, each sort of a warp once.
    pub outstanding: Vec<Outstanding>,
}

/// A load or a store of a warp.
#[derive(Clone, Copy, PartialEq)]
pub struct Outstanding {
    pub store: bool,
    pub warp: u64,
}

#[derive(Clone, Copy, PartialEq)]
pub enum Word {
    Wide(u64),
    Narrow(u32),
}

#[derive(Clone)]
pub struct Address {
    pub name: String,
    pub offset: u64,
    /// The offset's digits, where it has none of its own.
    pub written: Option<String>,
}

impl Address {
    pub fn new(name: String, offset: u64) -> Self {
        Address { name, offset, written: None }
    }
}

#[derive(Clone)]
pub enum A {
    Name(String),
    Address(Address),
}

/// The operands of an mma.
pub struct Mma {
    pub kind: usize,
    pub ws: bool,
    pub sp: bool,
    pub d: Address,
    pub a: A,
    pub b: String,
    pub meta: Address,
    pub idesc: String,
    /// The word that idesc was bound to.
    pub word: u32,
}

/// A load or store.
pub struct Access {
    pub store: bool,
    pub shape: usize,
    pub num: u64,
    pub count: u64,
    pub address: Address,
    pub warp: u64,
}

impl Access {
    pub fn outstanding(&self) -> Outstanding {
        Outstanding { store: self.store, warp: self.warp }
    }
}

pub struct Maker<'a> {
    pub r: &'a mut Random,
    pub bytes: Vec<u8>,
    /// How many lines there are so far.
    pub lines: u32,
    pub allocs: usize,
    /// The most columns held so far.
    pub peak: u32,
    pub may_relinquish: bool,
    pub live: Vec<Live>,
    /// Names that were given back and may be used again.
    pub freed: Vec<String>,
    pub values: Vec<(String, Word)>,
    pub taken: u32,
    pub warp: Option<u64>,
    pub relinquished: bool,
    pub names_made: u32,
    /// Whether expressions stand for some of the numbers, and how many do so far.
    pub takes_expressions: bool,
    pub expressions: u64,
    /// How many numbers were spelled in each base, without a `U` and with it.
    pub spelled: [[u64; 2]; BASES.len()],
    /// Where the tokens of the line made last start.
    pub starts: Vec<usize>,
}

impl<'a> Maker<'a> {
    pub fn new(r: &'a mut Random) -> Self {
        Maker {
            r,
            bytes: b"sheet\t1\tsm_100a\n".to_vec(),
            lines: 1,
            allocs: 0,
            peak: 0,
            may_relinquish: false,
            live: Vec::new(),
            freed: Vec::new(),
            values: Vec::new(),
            taken: 0,
            warp: None,
            relinquished: false,
            names_made: 0,
            takes_expressions: false,
            expressions: 0,
            spelled: [[0; 2]; BASES.len()],
            starts: Vec::new(),
        }
    }

    pub fn held(&self) -> u32 {
        self.live.iter().map(|l| l.columns).sum()
    }

    pub fn one_in(&mut self, n: u64) -> bool {
        self.r.below(n) == 0
    }

    // lines and tokens

    /// Any bytes as a line.
    pub fn raw(&mut self, line: &[u8]) {
        self.bytes.extend_from_slice(line);
        self.bytes.push(b'\n');
        self.lines += 1;
    }

    /// A statement as a line, mostly with the writer's spaces.
    pub fn line(&mut self, warp: u64, text: &Text) {
        let spacing = match self.r.below(16) {
            0 | 1 => Spacing::Loose,
            2 => Spacing::Tight,
            _ => Spacing::Plain,
        };
        self.spaced_line(warp, text, spacing);
    }

    /// Loose spaces only in a short text, so that no line gets too long.
    pub fn spaced_line(&mut self, warp: u64, text: &Text, spacing: Spacing) {
        let field = if warp == 0 && self.one_in(8) { b'*' } else { b'0' + warp as u8 };
        self.bytes.extend([field, b'\t']);
        let spacing = if spacing == Spacing::Loose && text.length() > 500 { Spacing::Plain } else { spacing };
        let line = text.spaced(self.r, spacing, &mut self.starts);
        self.raw(line.as_bytes());
    }

    pub fn any_warp(&mut self) -> u64 {
        self.r.below(4)
    }

    /// The warp that books; one is chosen if none is fixed.
    pub fn booker(&mut self) -> u64 {
        self.warp.unwrap_or_else(|| self.r.below(4))
    }

    /// A warp that may not book.
    pub fn stranger(&mut self) -> u64 {
        (self.booker() + 1 + self.r.below(3)) % 4
    }

    /// Mostly the writer's decimals, else any spelling, or an expression where they are taken.
    pub fn number(&mut self, n: u64) -> String {
        if self.takes_expressions && is_in_range(n.into()) && self.one_in(2) {
            let size = 1 + self.r.below(6) as u32;
            let tree = Tree::of(self.r, n.into(), size);
            return self.expression(&tree);
        }
        let number = if self.one_in(3) { Spelling::any(self.r).of(n.into()) } else { n.to_string() };
        self.spelled(&number);
        number
    }

    /// The tokens of a tree without spaces. None has so many levels that one more would be too many.
    fn expression(&mut self, tree: &Tree) -> String {
        self.expressions += 1;
        loop {
            let written = tree.written(self.r, Style { needless: 8, spellings: true });
            if written.deepest < LEVELS {
                return written.tokens.concat();
            }
        }
    }

    /// An expression that is out of range: its result is over the limit or negative, or a partial result is over, whatever
    /// comes behind it.
    fn expression_over(&mut self, limit: u128) -> String {
        let size = self.r.below(4) as u32;
        let far = i128::from(self.r.below(1 << 40));
        let limit = i128::try_from(limit).unwrap_or(i128::MAX);
        let large = Tree::Number(MOST as u128 + 1 + far as u128);
        let tree = match self.r.below(5) {
            0 => Tree::of(self.r, -1 - far, size),
            1 if is_in_range(limit + 1 + far) => Tree::of(self.r, limit + 1 + far, size),
            2 => Tree::pair(Operator::Times, Tree::of(self.r, 0, size), large),
            3 => Tree::pair(Operator::Minus, large, Tree::of(self.r, MOST, size)),
            _ => Tree::pair(Operator::Plus, Tree::Number(MOST as u128), Tree::of(self.r, 1 + far, size)),
        };
        self.expression(&tree)
    }

    /// Keeps account of a number that was written.
    fn spelled(&mut self, number: &str) {
        let number = Number::new(number).expect("it was spelled as one");
        let place = BASES.iter().position(|&base| base == number.base).expect("it has one of the bases");
        self.spelled[place][usize::from(number.suffix)] += 1;
    }

    /// A number over its limit, by a little or by far, in any spelling, or such an expression.
    pub fn number_over(&mut self, wide: bool) -> String {
        let limit = if wide { u128::from(u64::MAX) } else { u128::from(u32::MAX) };
        if self.takes_expressions && self.one_in(2) {
            return self.expression_over(limit);
        }
        let spelling = Spelling::any(self.r);
        let number = match self.r.below(4) {
            0 => spelling.of(limit + 1),
            1 => spelling.of(limit + 1 + u128::from(self.r.below(1 << 30))),
            2 => spelling.of((limit + 1) << self.r.below(60)),
            _ => format!("{}1{}{}", spelling.prefix, "0".repeat(64 + self.r.below(40) as usize), self.r.pick(&["", "U"])),
        };
        self.spelled(&number);
        number
    }

    /// A name that is bound to nothing.
    pub fn new_name(&mut self) -> String {
        if !self.freed.is_empty() && self.one_in(2) {
            let place = self.r.below(self.freed.len() as u64) as usize;
            return self.freed.swap_remove(place);
        }
        self.names_made += 1;
        let head = self.r.pick(&["t", "h", "T", "%r", "$a", "_n", "exit"]);
        let name = format!("{head}{}", self.names_made);
        if self.one_in(10) {
            format!("{name:z<16}")
        } else {
            name
        }
    }

    pub fn unit_for(&self, columns: u32) -> Option<u32> {
        let units = columns / UNIT;
        (0..=UNITS - units).find(|unit| self.taken & bits(*unit, units) == 0)
    }

    pub fn live_name(&mut self) -> Option<String> {
        self.any_live().map(|place| self.live[place].name.clone())
    }

    pub fn any_live(&mut self) -> Option<usize> {
        let count = self.live.len() as u64;
        (count > 0).then(|| self.r.below(count) as usize)
    }

    pub fn value_name(&mut self) -> Option<String> {
        let count = self.values.len() as u64;
        (count > 0).then(|| self.values[self.r.below(count) as usize].0.clone())
    }

    // valid lines

    /// Adds a valid line, or a few.
    pub fn valid(&mut self) {
        match self.r.below(14) {
            0..=2 => self.alloc_or_dealloc(),
            3 | 4 => self.dealloc_one(),
            5..=7 => self.access(),
            8 | 9 => self.mov(),
            10 | 11 => self.mma(),
            12 if self.may_relinquish && self.one_in(4) => self.relinquish(),
            _ => self.idle(),
        }
    }

    pub fn alloc_or_dealloc(&mut self) {
        let columns = self.r.pick(&[32, 32, 32, 64, 64, 128, 256, 512]);
        if !self.alloc(columns) {
            self.dealloc_one();
        }
    }

    /// Books so many columns, if they can be had.
    pub fn alloc(&mut self, columns: u32) -> bool {
        if self.relinquished {
            return false;
        }
        let Some(unit) = self.unit_for(columns) else {
            return false;
        };
        let name = self.new_name();
        self.alloc_as(name, columns, unit);
        true
    }

    /// Books the columns from this unit on under a name that is bound to nothing.
    pub fn alloc_as(&mut self, name: String, columns: u32, unit: u32) {
        let warp = self.booker();
        let text = self.alloc_text(&name, u64::from(columns));
        self.line(warp, &text);
        self.live.push(Live { name, columns, unit, outstanding: Vec::new() });
        self.taken |= bits(unit, columns / UNIT);
        self.warp = Some(warp);
        self.allocs += 1;
        self.peak = self.peak.max(self.held());
    }

    pub fn alloc_text(&mut self, name: &str, columns: u64) -> Text {
        let number = self.number(columns);
        self.alloc_written(name, &number)
    }

    pub fn alloc_written(&mut self, name: &str, number: &str) -> Text {
        let shared = if self.one_in(4) { ".shared::cta" } else { "" };
        let mut text = Text::new(&format!("tcgen05.alloc.cta_group::1.sync.aligned{shared}.b32"));
        text.push("[", Role::Open(Operand::Only));
        text.push(name, Role::Name(Operand::Only));
        text.marks("],");
        text.number(number, Operand::Only);
        text.marks(";");
        text
    }

    pub fn dealloc_text(&mut self, name: &str, columns: u64) -> Text {
        let number = self.number(columns);
        name_and_number("tcgen05.dealloc.cta_group::1.sync.aligned.b32", name, &number)
    }

    pub fn dealloc_one(&mut self) {
        match self.any_live() {
            Some(place) => self.dealloc(place),
            None => self.idle(),
        }
    }

    /// Waits for what is outstanding on a holding, and gives it back.
    pub fn dealloc(&mut self, place: usize) {
        self.wait_for(place);
        let gone = self.live.swap_remove(place);
        let (text, warp) = (self.dealloc_text(&gone.name, gone.columns.into()), self.booker());
        self.line(warp, &text);
        self.taken &= !bits(gone.unit, gone.columns / UNIT);
        self.freed.push(gone.name);
    }

    pub fn relinquish(&mut self) {
        let warp = self.booker();
        self.line(warp, &bare(RELINQUISH));
        self.warp = Some(warp);
        self.relinquished = true;
    }

    /// A wait that need not be for anything, or a fence.
    pub fn idle(&mut self) {
        let warp = self.any_warp();
        match self.r.pick(&IDLE) {
            WAIT_LD => self.wait(Outstanding { store: false, warp }),
            WAIT_ST => self.wait(Outstanding { store: true, warp }),
            fence => self.line(warp, &bare(fence)),
        }
    }

    /// Waits for the loads, or the stores, of a warp on all holdings.
    pub fn wait(&mut self, what: Outstanding) {
        self.line(what.warp, &bare(if what.store { WAIT_ST } else { WAIT_LD }));
        for live in &mut self.live {
            live.outstanding.retain(|&other| other != what);
        }
    }

    /// Waits for what is outstanding on a holding, in any order.
    pub fn wait_for(&mut self, place: usize) {
        while !self.live[place].outstanding.is_empty() {
            let what = self.r.pick(&self.live[place].outstanding);
            self.wait(what);
        }
    }

    pub fn mov(&mut self) {
        let word = match self.r.below(4) {
            0 => Word::Narrow(self.r.next() as u32),
            1 => Word::Wide(self.r.next()),
            2 => Word::Narrow(self.r.below(300) as u32),
            _ => Word::Wide(shared_word(self.r)),
        };
        self.bind(word, &[]);
    }

    /// Binds a new name or an old one that is not to be left alone.
    pub fn bind(&mut self, word: Word, keep: &[&str]) -> String {
        let wants_old = self.values.len() == VALUES || self.values.len() > 4 && !self.one_in(3);
        if wants_old {
            if let Some(name) = self.value_name().filter(|name| !keep.contains(&name.as_str())) {
                self.bind_name(&name, word);
                return name;
            }
            if self.values.len() == VALUES {
                let old = self.values.iter().find(|(name, _)| !keep.contains(&name.as_str()));
                let name = old.expect("few names are kept").0.clone();
                self.bind_name(&name, word);
                return name;
            }
        }
        let name = self.new_name();
        self.bind_name(&name, word);
        name
    }

    pub fn bind_name(&mut self, name: &str, word: Word) {
        let (text, warp) = (self.mov_text(name, word), self.any_warp());
        self.line(warp, &text);
        match self.values.iter_mut().find(|(other, _)| other == name) {
            Some((_, old)) => *old = word,
            None => self.values.push((name.into(), word)),
        }
    }

    pub fn mov_text(&mut self, name: &str, word: Word) -> Text {
        let (opcode, value) = match word {
            Word::Wide(n) => ("mov.b64", n),
            Word::Narrow(n) => ("mov.b32", n.into()),
        };
        let number = self.number(value);
        name_and_number(opcode, name, &number)
    }

    pub fn access(&mut self) {
        match self.good_access() {
            Some(access) => self.access_line(&access),
            None => self.idle(),
        }
    }

    /// A load or store inside a live holding.
    pub fn good_access(&mut self) -> Option<Access> {
        let place = self.any_live()?;
        Some(self.good_access_to(place))
    }

    /// One inside this holding.
    pub fn good_access_to(&mut self, place: usize) -> Access {
        let (name, length) = (self.live[place].name.clone(), u64::from(self.live[place].columns));
        let shape = self.r.below(4) as usize;
        let (registers, columns, largest) = SIZES[shape];
        let most = largest.min(length / columns);
        let highest = if self.one_in(12) { 7 } else { 2 };
        let num = 1 << self.r.below(1 + u64::from(most.ilog2().min(highest)));
        let room = length - columns * num;
        let column = match self.r.below(3) {
            0 => 0,
            1 => room,
            _ => self.r.below(room + 1),
        };
        let warp = self.any_warp();
        let half = if shape > 0 { 16 * self.r.below(2) } else { 0 };
        let address = Address::new(name, (32 * warp + half) * LANE + column);
        Access { store: self.one_in(2), shape, num, count: registers * num, address, warp }
    }

    pub fn access_line(&mut self, access: &Access) {
        let text = self.access_text(access);
        self.line(access.warp, &text);
        let what = access.outstanding();
        let live = self.live.iter_mut().find(|live| live.name == access.address.name).expect("the access is to a live holding");
        if !live.outstanding.contains(&what) {
            live.outstanding.push(what);
        }
    }

    pub fn access_text(&mut self, x: &Access) -> Text {
        let op = if x.store { "st" } else { "ld" };
        let mut text = Text::new(&format!("tcgen05.{op}.sync.aligned.{}.x{}.b32", SHAPES[x.shape], x.num));
        if x.store {
            self.put_address(&mut text, Operand::Only, &x.address);
            text.marks(",");
            self.put_list(&mut text, x);
        } else {
            self.put_list(&mut text, x);
            text.marks(",");
            self.put_address(&mut text, Operand::Only, &x.address);
        }
        text.marks(";");
        text
    }

    /// Registers; now and then all have the address's own name, where that makes no line too long.
    fn put_list(&mut self, text: &mut Text, x: &Access) {
        let head = self.r.pick(&["r", "r", "%r", "%r", "a_", ""]);
        let head = if head.is_empty() && x.count > 64 { "r" } else { head };
        let mut name = x.address.name.clone();
        text.marks("{");
        for i in 0..x.count {
            if i > 0 {
                text.marks(",");
            }
            if !head.is_empty() {
                name.clear();
                write!(name, "{head}{i}").expect("a string takes all");
            }
            text.push(&name, Role::Register);
        }
        text.marks("}");
    }

    fn put_address(&mut self, text: &mut Text, operand: Operand, address: &Address) {
        text.push("[", Role::Open(operand));
        text.push(&address.name, Role::Name(operand));
        if address.written.is_some() || address.offset != 0 || self.one_in(8) {
            let number = address.written.clone().unwrap_or_else(|| self.number(address.offset));
            text.marks("+");
            text.number(&number, operand);
        }
        text.marks("]");
    }

    pub fn mma(&mut self) {
        match self.good_mma() {
            Some(mma) => self.mma_line(&mma),
            None => self.idle(),
        }
    }

    /// An mma whose words are bound and whose cells are inside; none if nothing is held.
    pub fn good_mma(&mut self) -> Option<Mma> {
        let place = self.any_live()?;
        let length = self.live[place].columns;
        let (kind, sp) = (self.r.below(4) as usize, self.one_in(2));
        let ws = length >= 64 && self.one_in(2);
        self.good_mma_in(place, kind, ws, sp)
    }

    /// One with this opcode whose d is in this holding.
    pub fn good_mma_in(&mut self, place: usize, kind: usize, ws: bool, sp: bool) -> Option<Mma> {
        let length = self.live[place].columns;
        let word = idesc_word(self.r, kind, ws, sp, length);
        let n = word >> 17 & 63;
        let d = self.cells(place, 8 * n);
        let wide = self.good_shared(&[]);
        let a = if self.one_in(2) {
            let place = self.any_live()?;
            A::Address(self.cells(place, 8))
        } else if self.one_in(3) {
            A::Name(wide.clone())
        } else {
            A::Name(self.good_shared(&[&wide]))
        };
        let place = self.any_live()?;
        let meta = self.cells(place, 2);
        let kept = match &a {
            A::Name(name) => name.clone(),
            A::Address(_) => wide.clone(),
        };
        let idesc = self.bind(Word::Narrow(word), &[&wide, &kept]);
        Some(Mma { kind, ws, sp, d, a, b: wide, meta, idesc, word })
    }

    /// So many columns somewhere in a holding, from lane 0.
    pub fn cells(&mut self, place: usize, columns: u32) -> Address {
        let room = u64::from(self.live[place].columns - columns);
        let offset = match self.r.below(3) {
            0 => 0,
            1 => room,
            _ => self.r.below(room + 1),
        };
        Address::new(self.live[place].name.clone(), offset)
    }

    /// A name bound to a shared memory descriptor that reads.
    pub fn good_shared(&mut self, keep: &[&str]) -> String {
        let word = Word::Wide(shared_word(self.r));
        self.bind(word, keep)
    }

    pub fn mma_line(&mut self, mma: &Mma) {
        let (text, warp) = (self.mma_text(mma), self.any_warp());
        self.line(warp, &text);
    }

    pub fn mma_text(&mut self, m: &Mma) -> Text {
        let (ws, sp) = (if m.ws { ".ws" } else { "" }, if m.sp { ".sp" } else { "" });
        let mut text = Text::new(&format!("tcgen05.mma{ws}{sp}.cta_group::1.kind::{}", KINDS[m.kind]));
        self.put_address(&mut text, Operand::D, &m.d);
        text.marks(",");
        match &m.a {
            A::Name(name) => text.push(name, Role::Name(Operand::A)),
            A::Address(address) => self.put_address(&mut text, Operand::A, address),
        }
        text.marks(",");
        text.push(&m.b, Role::Name(Operand::B));
        text.marks(",");
        if m.sp {
            self.put_address(&mut text, Operand::Meta, &m.meta);
            text.marks(",");
        }
        text.push(&m.idesc, Role::Name(Operand::Idesc));
        text.marks(",");
        // never looked up, also where it is another operand's name
        let predicate = self.r.pick(&["p", "%p0", "exit", "t1", &m.d.name, &m.idesc, "unbound"]);
        text.push(predicate, Role::Predicate);
        text.marks(";");
        text
    }

    /// Gives all back and exits.
    pub fn exit(&mut self) {
        self.give_all_back();
        let warp = self.any_warp();
        self.line(warp, &bare("exit"));
    }

    pub fn give_all_back(&mut self) {
        while let Some(place) = self.any_live() {
            self.dealloc(place);
        }
    }

    /// Idle lines with spaces in them, until the sheet with its exit would have this many bytes exactly.
    pub fn exit_at(&mut self, bytes: usize) {
        self.give_all_back();
        let (head, end) = ("1\ttcgen05.wait::st.sync.aligned", "0\texit;");
        while self.bytes.len() + end.len() + 1 < bytes {
            let left = bytes - self.bytes.len() - end.len() - 1;
            let length = if left <= 2_049 { left } else { 1_900 + self.r.below(60) as usize };
            let blanks = (length - 1).saturating_sub(head.len() + 1);
            self.raw(format!("{head}{};", " ".repeat(blanks)).as_bytes());
        }
        self.raw(end.as_bytes());
    }
}

/// A statement without operands.
pub fn bare(opcode: &str) -> Text {
    let mut text = Text::new(opcode);
    text.marks(";");
    text
}

/// A `mov` or a dealloc.
pub fn name_and_number(opcode: &str, name: &str, number: &str) -> Text {
    let mut text = Text::new(opcode);
    text.push(name, Role::Name(Operand::Only));
    text.marks(",");
    text.number(number, Operand::Only);
    text.marks(";");
    text
}

fn bits(unit: u32, units: u32) -> u32 {
    ((1 << units) - 1) << unit
}

/// A word of an instruction descriptor that is listed for the opcode, with N at most this.
fn idesc_word(r: &mut Random, kind: usize, ws: bool, sp: bool, most: u32) -> u32 {
    let listed = |n: u32| match (ws, sp) {
        (false, _) => kind != I8 || n <= 32 && n % 8 == 0 || n % 16 == 0,
        (true, false) => matches!(n, 64 | 128 | 256),
        (true, true) => matches!(n, 64 | 128),
    };
    let sizes: Vec<u32> = (8..=most.min(256)).step_by(8).filter(|&n| listed(n)).collect();
    let n = if r.below(3) == 0 { sizes[sizes.len() - 1] } else { r.pick(&sizes) };
    let m = if ws { r.pick(&[32u32, 64, 128]) } else { r.pick(&[64, 128]) };
    let codes: &[u32] = match kind {
        1 => &[2],
        2 => &[0, 1, 3, 4, 5],
        _ => &[0, 1],
    };
    let a = r.pick(codes);
    let b = if kind == 0 { a } else { r.pick(codes) };
    let dtype = match kind {
        0 if a == 0 => r.below(2) as u32,
        2 => r.below(2) as u32,
        I8 => 2,
        _ => 1,
    };
    let mut word = dtype << 4 | a << 7 | b << 10 | (n / 8) << 17 | (m / 16) << 24;
    word |= (r.below(4) as u32) << 15;
    word |= if sp { 4 | r.below(4) as u32 } else { 0 };
    word |= if kind == I8 { (r.below(2) as u32) << 3 } else { (r.below(4) as u32) << 13 };
    word | if ws { (r.below(4) as u32) << 30 } else { 0 }
}

/// A word of a shared memory descriptor that reads.
pub fn shared_word(r: &mut Random) -> u64 {
    let swizzle = r.pick(&[0, 1, 2, 4, 6]);
    let base = if swizzle == 0 { 0 } else { r.below(8) };
    r.below(1 << 14) | r.below(1 << 14) << 16 | r.below(1 << 14) << 32 | 1 << 46 | base << 49 | r.below(2) << 52 | swizzle << 61
}

pub const RELINQUISH: &str = "tcgen05.relinquish_alloc_permit.cta_group::1.sync.aligned";

const WAIT_LD: &str = "tcgen05.wait::ld.sync.aligned";
const WAIT_ST: &str = "tcgen05.wait::st.sync.aligned";
pub const FENCES: [&str; 2] = ["tcgen05.fence::before_thread_sync", "tcgen05.fence::after_thread_sync"];
pub const IDLE: [&str; 4] = [WAIT_LD, WAIT_ST, FENCES[0], FENCES[1]];
