//! Lines that are refused: aimed at one reason, or with any number of faults. Of a line that is aimed the maker knows the
//! column too.

use crate::maker::{bare, name_and_number, shared_word, Access, Address, Maker, Mma, Outstanding, Word, A};
use crate::maker::{FENCES, I8, IDLE, LANE, RELINQUISH, SIZES, UNIT, UNITS, VALUES};
use crate::tokens::{Operand, Role, Spacing, Text};
use staplehorn_difftest::random::Random;

/// A refused line: what is wrong with it, and the column.
#[derive(Clone, Copy, Debug)]
pub struct Fault {
    pub what: &'static str,
    pub column: u32,
    /// What else is counted: for a fault of form what stands where no form can go on, that several operands are wrong, what
    /// waits there are, or that a reason which comes later would be given too.
    pub also: Option<&'static str>,
}

impl Fault {
    pub fn new(what: &'static str, column: usize) -> Self {
        Fault { what, column: column as u32, also: None }
    }
}

/// Operands that were broken: the leftmost, and whether there are others.
struct Broken {
    first: Operand,
    several: bool,
}

impl Broken {
    fn new(operand: Operand) -> Self {
        Broken { first: operand, several: false }
    }

    fn add(&mut self, operand: Operand) {
        self.several |= operand != self.first;
        self.first = self.first.min(operand);
    }
}

/// A line is a warp field, a tab, a statement.
pub const FIRST: usize = 3;

impl Maker<'_> {
    /// Adds a line that is refused with this reason, 2 to 15, 18, 20 or 21, and lines that it needs before it; none if it cannot.
    pub fn fault(&mut self, reason: u32) -> Option<Fault> {
        match reason {
            2 => Some(self.layout_fault()),
            3 => Some(self.form_fault()),
            4 => Some(self.number_fault()),
            5 => Some(self.register_fault()),
            6 => self.name_fault(),
            7 => Some(self.table_fault()),
            8 => self.warp_fault(),
            9 => self.request_fault(),
            10 => Some(self.permit_fault()),
            11 => self.run_fault(),
            12 => self.word_fault(),
            13 | 20 | 21 => self.listing_fault(reason),
            14 => self.cell_fault(),
            18 => self.outstanding_fault(),
            _ => self.exit_fault(),
        }
    }

    /// Adds the line; its column is that of the token in this role.
    fn at(&mut self, what: &'static str, warp: u64, text: &Text, role: Role) -> Fault {
        let spacing = self.r.pick(&[Spacing::Plain, Spacing::Tight, Spacing::Loose, Spacing::Loose]);
        self.spaced_line(warp, text, spacing);
        let place = text.find(role).expect("a statement has the operand that is wrong");
        Fault::new(what, FIRST + self.starts[place])
    }

    /// Adds an mma; its column is that of the leftmost broken operand.
    fn at_mma(&mut self, mma: &Mma, broken: &Broken, role: fn(Operand) -> Role) -> Fault {
        let (text, warp) = (self.mma_text(mma), self.any_warp());
        let mut fault = self.at(operand_name(broken.first, mma), warp, &text, role(broken.first));
        fault.also = broken.several.then_some("leftmost of several");
        fault
    }

    /// A line that reads and has the right number of registers, with any names.
    pub fn readable(&mut self) -> Text {
        let mut names = Vec::new();
        for _ in 0..6 {
            let name = match self.r.below(3) {
                0 => self.live_name(),
                1 => self.value_name(),
                _ => None,
            };
            names.push(name.unwrap_or_else(|| format!("q{}", self.r.below(9))));
        }
        let offset = self.r.pick(&[0, 1, 31, 32, 511, 65_536, 2_097_152, u64::from(u32::MAX)]);
        let address = Address::new(names[0].clone(), offset);
        match self.r.below(8) {
            0 => {
                let word = Word::Narrow(self.r.next() as u32);
                self.mov_text(&names[0], word)
            }
            1 => {
                let word = Word::Wide(self.r.next());
                self.mov_text(&names[0], word)
            }
            2 => {
                let columns = self.r.pick(&[0, 32, 33, 64, 512, 1_024]);
                self.alloc_text(&names[0], columns)
            }
            3 => {
                let columns = self.r.pick(&[0, 32, 33, 64, 512, 1_024]);
                self.dealloc_text(&names[0], columns)
            }
            4 => {
                let shape = self.r.below(4) as usize;
                let num = 1 << self.r.below(3);
                let access = Access { store: self.one_in(2), shape, num, count: SIZES[shape].0 * num, address, warp: 0 };
                self.access_text(&access)
            }
            5 => {
                let a = if self.one_in(2) { A::Name(names[1].clone()) } else { A::Address(Address::new(names[1].clone(), 0)) };
                let meta = Address::new(names[2].clone(), 2);
                let (kind, ws, sp) = (self.r.below(4) as usize, self.one_in(2), self.one_in(2));
                self.mma_text(&Mma { kind, ws, sp, d: address, a, b: names[3].clone(), meta, idesc: names[4].clone(), word: 0 })
            }
            6 => bare(RELINQUISH),
            _ => bare(self.r.pick(&IDLE)),
        }
    }

    fn layout_fault(&mut self) -> Fault {
        let text = self.readable().plain();
        let (what, line): (_, Vec<u8>) = match self.r.below(9) {
            0 => ("empty line", Vec::new()),
            1 => {
                let field = self.r.pick(&["4", "/", "a", "-", "+", ")", ":", " ", "\t", "\0", "00"]);
                ("warp field", format!("{field}\t{text}").into())
            }
            2 => ("warp field", text.into()),
            3 => ("tab", format!("0 {text}").into()),
            4 => ("byte", format!("0\t\t{text}").into()),
            5 => ("tab", vec![self.r.pick(b"0123*")]),
            6 | 7 => {
                let mut line = format!("1\t{text}").into_bytes();
                let byte = self.r.pick(&[0, 9, 13, 31, 127, 128, 160, 255]);
                let at = 2 + self.r.below(line.len() as u64 - 1) as usize;
                line.insert(at, byte);
                ("byte", line)
            }
            _ => ("line's length", format!("1\texit{};", " ".repeat(2_049 - 7 + self.r.below(3) as usize)).into()),
        };
        self.raw(&line);
        Fault::new(what, 1)
    }

    /// One number or more over its limit: the leftmost counts, whatever else is wrong with a higher reason.
    fn number_fault(&mut self) -> Fault {
        let name = self.live_name().unwrap_or_else(|| "q".into());
        let (narrow, warp) = (self.number_over(false), self.any_warp());
        let number = Role::Number(Operand::Only);
        match self.r.below(10) {
            0 => self.at("mov.b32", warp, &name_and_number("mov.b32", &name, &narrow), number),
            1 => {
                let wide = self.number_over(true);
                self.at("mov.b64", warp, &name_and_number("mov.b64", &name, &wide), number)
            }
            2 => {
                let text = self.alloc_written(&name, &narrow);
                self.at("alloc", warp, &text, number)
            }
            3 => {
                let text = name_and_number("tcgen05.dealloc.cta_group::1.sync.aligned.b32", &name, &narrow);
                self.at("dealloc", warp, &text, number)
            }
            4 | 5 => {
                // the count of registers is right or not: 4 comes first
                let (store, num) = (self.one_in(2), self.r.pick(&[1, 2]));
                let address = Address { name, offset: 0, written: Some(narrow) };
                let text = self.access_text(&Access { store, shape: 0, num, count: 1, address, warp });
                self.at(if store { "st" } else { "ld" }, warp, &text, number)
            }
            _ => self.mma_number_fault(name),
        }
    }

    fn mma_number_fault(&mut self, name: String) -> Fault {
        let (kind, ws, sp) = (self.r.below(4) as usize, self.one_in(2), !self.one_in(3));
        let offset = self.r.below(2) * 8;
        let address = |m: &mut Self, one_in: u64| {
            let written = m.one_in(one_in).then(|| m.number_over(false));
            Address { name: name.clone(), offset, written }
        };
        let d = address(self, 3);
        let cells = address(self, 2);
        let meta = address(self, 1);
        let a = if !sp || self.one_in(2) { A::Address(cells.clone()) } else { A::Name("a".into()) };
        let mut mma = Mma { kind, ws, sp, d, a, b: "b".into(), meta, idesc: "i".into(), word: 0 };
        if !sp && mma.d.written.is_none() {
            mma.a = A::Address(Address { written: Some(self.number_over(false)), ..cells });
        }
        let a_over = matches!(&mma.a, A::Address(address) if address.written.is_some());
        let over = [(Operand::D, mma.d.written.is_some()), (Operand::A, a_over), (Operand::Meta, sp)];
        let mut over = over.into_iter().filter(|(_, is_over)| *is_over).map(|(operand, _)| operand);
        let mut broken = Broken::new(over.next().expect("one is over"));
        over.for_each(|operand| broken.add(operand));
        self.at_mma(&mma, &broken, Role::Number)
    }

    fn register_fault(&mut self) -> Fault {
        let shape = self.r.below(4) as usize;
        let num = 1 << self.r.below(8);
        let wanted = SIZES[shape].0 * num;
        let count = match self.r.below(3) {
            0 => 1 + self.r.below(4),
            1 => (wanted - 1).clamp(1, 128),
            _ => (wanted + 1).min(128),
        };
        let count = if count == wanted { count % 128 + 1 } else { count };
        let name = self.live_name().unwrap_or_else(|| "q".into());
        let address = Address::new(name, self.r.below(2) * LANE);
        let (store, warp) = (self.one_in(2), self.any_warp());
        let text = self.access_text(&Access { store, shape, num, count, address, warp });
        self.at(if store { "st" } else { "ld" }, warp, &text, Role::Opcode)
    }

    /// A name that is bound to nothing; it may have been a holding's.
    fn unbound(&mut self) -> String {
        let freed = self.freed.len() as u64;
        if freed > 0 && self.one_in(3) {
            return self.freed[self.r.below(freed) as usize].clone();
        }
        self.r.pick(&["unbound", "unbound", "u", "%u", "$0"]).into()
    }

    /// A name that is no live holding: bound to nothing, or to a value.
    fn no_holding(&mut self) -> String {
        let value = if self.one_in(2) { self.value_name() } else { None };
        value.unwrap_or_else(|| self.unbound())
    }

    /// A name that is no value of this width.
    fn no_value(&mut self, wide: bool) -> String {
        let other = self.values.iter().find(|(_, word)| matches!(word, Word::Wide(_)) != wide).map(|(name, _)| name.clone());
        let name = match self.r.below(3) {
            0 => self.live_name(),
            1 => other,
            _ => None,
        };
        name.unwrap_or_else(|| self.unbound())
    }

    /// Sees to it that something is held.
    fn ensure_live(&mut self) -> bool {
        let columns = self.r.pick(&[32, 64, 128]);
        !self.live.is_empty() || self.alloc(columns)
    }

    fn name_fault(&mut self) -> Option<Fault> {
        if !self.ensure_live() {
            return None;
        }
        let (warp, columns) = (self.any_warp(), self.r.pick(&[32, 64, 33, 0, 512]));
        let name = Role::Name(Operand::Only);
        let fault = match self.r.below(10) {
            0 => {
                let taken = if self.one_in(2) { self.live_name() } else { self.value_name() };
                let text = self.alloc_text(&taken?, columns);
                self.at("alloc", warp, &text, name)
            }
            1 => {
                let taken = self.live_name()?;
                let word = if self.one_in(2) { Word::Wide(self.r.next()) } else { Word::Narrow(1) };
                let text = self.mov_text(&taken, word);
                self.at("mov", warp, &text, name)
            }
            2 => {
                let other = self.no_holding();
                let text = self.dealloc_text(&other, columns);
                self.at("dealloc", warp, &text, name)
            }
            3 | 4 => {
                let mut access = self.good_access()?;
                access.address.name = self.no_holding();
                let text = self.access_text(&access);
                self.at(if access.store { "st" } else { "ld" }, access.warp, &text, name)
            }
            _ => {
                let mut mma = self.good_mma()?;
                let mut broken = Broken::new(self.spoil_name(&mut mma));
                while self.one_in(2) {
                    broken.add(self.spoil_name(&mut mma));
                }
                self.spoil_cells(&mut mma, 3);
                self.at_mma(&mma, &broken, Role::Name)
            }
        };
        Some(fault)
    }

    /// Breaks a name of the mma; it may be another operand's good name. Says whose it is.
    fn spoil_name(&mut self, mma: &mut Mma) -> Operand {
        match self.r.below(if mma.sp { 5 } else { 4 }) {
            0 => {
                // b may have become a holding's name
                let other = self.one_in(4) && self.is_value(&mma.b);
                mma.d.name = if other { mma.b.clone() } else { self.no_holding() };
                Operand::D
            }
            1 => {
                let other = self.one_in(4) && self.word_of(&mma.idesc).is_some_and(|word| matches!(word, Word::Narrow(_)));
                match &mut mma.a {
                    A::Name(name) => *name = if other { mma.idesc.clone() } else { self.no_value(true) },
                    A::Address(address) => address.name = self.no_holding(),
                }
                Operand::A
            }
            2 => {
                mma.b = if self.one_in(4) { self.unbound() } else { self.no_value(true) };
                Operand::B
            }
            3 => {
                mma.idesc = self.no_value(false);
                Operand::Idesc
            }
            _ => {
                mma.meta.name = self.no_holding();
                Operand::Meta
            }
        }
    }

    fn table_fault(&mut self) -> Fault {
        while self.values.len() < VALUES {
            let (name, word) = (self.new_name(), Word::Narrow(self.values.len() as u32));
            self.bind_name(&name, word);
        }
        for _ in 0..self.r.below(4) {
            self.valid();
        }
        let (name, warp) = (self.new_name(), self.any_warp());
        let text = self.mov_text(&name, Word::Wide(1));
        self.at("mov", warp, &text, Role::Name(Operand::Only))
    }

    fn warp_fault(&mut self) -> Option<Fault> {
        if !self.ensure_live() {
            return None;
        }
        let (place, stranger) = (self.any_live()?, self.stranger());
        let columns = self.r.pick(&[32, 64, 33, 512]);
        let what = match self.r.below(6) {
            0 => {
                let new = self.new_name();
                let text = self.alloc_text(&new, columns);
                self.line(stranger, &text);
                "alloc"
            }
            1 => {
                let also = self.perhaps_outstanding(place);
                let (name, own) = (self.live[place].name.clone(), self.live[place].columns.into());
                let columns = if self.one_in(2) { columns } else { own };
                let text = self.dealloc_text(&name, columns);
                self.line(stranger, &text);
                return Some(Fault { also, ..Fault::new("dealloc", 1) });
            }
            2 => {
                self.line(stranger, &bare(RELINQUISH));
                "relinquish"
            }
            _ => {
                let mut access = self.good_access()?;
                let column = access.address.offset % LANE + self.r.pick(&[0, 0, 600]);
                let lane = self.wrong_lane(access.warp, access.shape);
                access.address.offset = lane * LANE + column;
                let text = self.access_text(&access);
                let what = if access.store { "st" } else { "ld" };
                return Some(self.at(what, access.warp, &text, Role::Open(Operand::Only)));
            }
        };
        Some(Fault::new(what, 1))
    }

    /// A lane that is not one that the shape may have in this warp.
    fn wrong_lane(&mut self, warp: u64, shape: usize) -> u64 {
        loop {
            let lane = match self.r.below(3) {
                0 => 16 * self.r.below(9),
                1 => self.r.below(129),
                _ => self.r.below(65_536),
            };
            if lane != 32 * warp && (shape == 0 || lane != 32 * warp + 16) {
                return lane;
            }
        }
    }

    fn request_fault(&mut self) -> Option<Fault> {
        if !self.ensure_live() {
            return None;
        }
        let (warp, number) = (self.booker(), Role::Number(Operand::Only));
        if self.one_in(2) {
            let columns =
                self.r.pick(&[0, 1, 2, 16, 31, 33, 48, 96, 160, 511, 513, 544, 1_024, 2_048, 65_568, 1 << 31, u64::from(u32::MAX)]);
            let name = self.new_name();
            let text = self.alloc_text(&name, columns);
            Some(self.at("alloc", warp, &text, number))
        } else {
            let place = self.any_live()?;
            let also = self.perhaps_outstanding(place);
            let (name, length) = (self.live[place].name.clone(), u64::from(self.live[place].columns));
            let columns = self.r.pick(&[0, length / 2, length - 1, length + 1, 2 * length, length + 65_536, length + (1 << 31)]);
            let text = self.dealloc_text(&name, columns);
            Some(Fault { also, ..self.at("dealloc", warp, &text, number) })
        }
    }

    fn permit_fault(&mut self) -> Fault {
        if !self.relinquished {
            self.relinquish();
        }
        for _ in 0..self.r.below(3) {
            self.valid();
        }
        let (name, warp, columns) = (self.new_name(), self.booker(), self.r.pick(&[32, 64, 128, 256, 512]));
        let text = self.alloc_text(&name, columns);
        self.at("alloc", warp, &text, Role::Opcode)
    }

    fn run_fault(&mut self) -> Option<Fault> {
        if self.relinquished {
            return None;
        }
        if self.one_in(2) {
            // many small holdings with gaps of one unit
            while self.alloc(32) {}
            let mut gaps = 0;
            for unit in 0..UNITS {
                let open = gaps >> unit & 1 == 1;
                let place = self.live.iter().position(|l| l.unit == unit && l.columns == UNIT);
                if let (Some(place), false, true) = (place, open, self.one_in(2)) {
                    gaps |= 2 << unit;
                    self.dealloc(place);
                }
            }
        } else if !self.ensure_live() {
            return None;
        }
        let columns = [32, 64, 128, 256, 512].into_iter().find(|&columns| self.unit_for(columns).is_none())?;
        let columns = if self.one_in(2) { columns } else { 512 };
        let (name, warp) = (self.new_name(), self.booker());
        let text = self.alloc_text(&name, columns.into());
        Some(self.at("alloc", warp, &text, Role::Opcode))
    }

    /// One descriptor or more without a reading: the leftmost counts.
    fn word_fault(&mut self) -> Option<Fault> {
        if !self.ensure_live() {
            return None;
        }
        let mut mma = self.good_mma()?;
        let mut broken = Broken::new(self.spoil_word(&mma));
        while self.one_in(2) {
            broken.add(self.spoil_word(&mma));
        }
        self.spoil_cells(&mut mma, 3);
        Some(self.at_mma(&mma, &broken, Role::Name))
    }

    /// Binds a descriptor of the mma to a word without a reading. Says whose is the leftmost that has it.
    fn spoil_word(&mut self, mma: &Mma) -> Operand {
        let bad = Word::Wide(bad_shared(self.r));
        match (self.r.below(3), &mma.a) {
            (0, A::Name(name)) => {
                self.bind_name(name, bad);
                Operand::A
            }
            (0 | 1, a) => {
                self.bind_name(&mma.b, bad);
                // a and b may be one name
                let both = matches!(a, A::Name(name) if *name == mma.b);
                if both {
                    Operand::A
                } else {
                    Operand::B
                }
            }
            _ => {
                self.spoil_idesc(mma);
                Operand::Idesc
            }
        }
    }

    /// Binds idesc to a word without a reading under the opcode.
    fn spoil_idesc(&mut self, mma: &Mma) {
        let kind = mma.kind;
        let word = mma.word;
        let bad = match self.r.below(8) {
            0 => word | 1 << self.r.pick(&[6, 23, 29]),
            1 => word ^ 4,
            2 if !mma.sp => word | (1 + self.r.below(3) as u32),
            3 if kind != I8 => word | 8,
            4 if kind == I8 => word | 1 << self.r.pick(&[13, 14]),
            5 if !mma.ws => word | 1 << self.r.pick(&[30, 31]),
            6 => word | 3 << 4,
            _ => word | 7 << self.r.pick(&[7, 10]),
        };
        self.bind_name(&mma.idesc.clone(), Word::Narrow(bad));
    }

    /// M not listed (13), else N (20), else types (21); those that are asked later may be wrong too.
    fn listing_fault(&mut self, reason: u32) -> Option<Fault> {
        if !self.ensure_live() {
            return None;
        }
        if reason == 20 && self.one_in(4) {
            return self.sparse_shape_fault();
        }
        let mut mma = self.good_mma()?;
        let unlisted_n: &[u32] = match (mma.ws, mma.sp, mma.kind) {
            (true, true, _) => &[0, 8, 32, 48, 96, 192, 256, 264, 504],
            (true, false, _) => &[0, 8, 32, 48, 96, 192, 264, 504],
            (false, _, I8) => &[0, 40, 56, 72, 248, 264, 272, 504],
            _ => &[0, 264, 272, 320, 504],
        };
        let unlisted_m: &[u32] = if mma.ws { &[0, 16, 48, 96, 144, 256] } else { &[0, 16, 32, 48, 96, 192, 256, 496] };
        let mut bad = mma.word;
        if reason == 13 {
            bad = bad & !(31 << 24) | (self.r.pick(unlisted_m) / 16) << 24;
        }
        if reason == 20 || reason == 13 && self.one_in(3) {
            bad = bad & !(63 << 17) | (self.r.pick(unlisted_n) / 8) << 17;
        }
        if reason == 21 || self.one_in(3) {
            bad = self.wrong_types(mma.kind, bad);
        }
        self.bind_name(&mma.idesc.clone(), Word::Narrow(bad));
        self.spoil_cells(&mut mma, 3);
        Some(self.at_mma(&mma, &Broken::new(Operand::Idesc), Role::Name))
    }

    /// N 256, which with `.ws` is for dense alone, where the columns are there and all else is good.
    fn sparse_shape_fault(&mut self) -> Option<Fault> {
        if !self.live.iter().any(|l| l.columns >= 256) {
            self.alloc(256);
        }
        let place = self.live.iter().position(|l| l.columns >= 256)?;
        let kind = self.r.below(4) as usize;
        let mut mma = self.good_mma_in(place, kind, true, true)?;
        mma.d = self.cells(place, 256);
        mma.word = mma.word & !(63 << 17) | (256 / 8) << 17;
        self.bind_name(&mma.idesc, Word::Narrow(mma.word));
        Some(self.at_mma(&mma, &Broken::new(Operand::Idesc), Role::Name))
    }

    /// Types that have codes in the kind and are not listed for it.
    fn wrong_types(&mut self, kind: usize, word: u32) -> u32 {
        let dtype = |code: u32| word & !(3 << 4) | code << 4;
        match kind {
            0 => match self.r.below(3) {
                0 => dtype(2),
                1 => word ^ 1 << 7,
                _ => dtype(0) & !(63 << 7) | 1 << 7 | 1 << 10,
            },
            1 => dtype(self.r.pick(&[0, 2])),
            2 => dtype(2),
            _ => dtype(self.r.pick(&[0, 1])),
        }
    }

    /// One time in so many, one operand or more is put outside as well.
    fn spoil_cells(&mut self, mma: &mut Mma, one_in: u64) {
        if self.one_in(one_in) {
            self.spoil_cell(mma);
            while self.one_in(3) {
                self.spoil_cell(mma);
            }
        }
    }

    /// Puts an operand of the mma outside. Says which.
    fn spoil_cell(&mut self, mma: &mut Mma) -> Operand {
        let beyond = if self.one_in(2) { LANE * (1 + self.r.below(127)) } else { 513 + self.r.below(60_000) };
        match (self.r.below(3), &mut mma.a) {
            (0, _) if mma.sp => {
                mma.meta.offset = mma.meta.offset % 512 + beyond;
                Operand::Meta
            }
            (1, A::Address(address)) => {
                address.offset = address.offset % 512 + beyond;
                Operand::A
            }
            _ => {
                mma.d.offset = mma.d.offset % 512 + beyond;
                Operand::D
            }
        }
    }

    fn cell_fault(&mut self) -> Option<Fault> {
        if !self.ensure_live() {
            return None;
        }
        if self.one_in(3) {
            let mut access = self.good_access()?;
            let length = self.length_of(&access.address.name);
            let columns = SIZES[access.shape].1 * access.num;
            let first = length + 1 - columns;
            let column = if self.one_in(2) { first } else { first + self.r.below(LANE - first) };
            access.address.offset = access.address.offset / LANE * LANE + column;
            let text = self.access_text(&access);
            let what = if access.store { "st" } else { "ld" };
            return Some(self.at(what, access.warp, &text, Role::Open(Operand::Only)));
        }
        let mut mma = self.good_mma()?;
        let mut broken = Broken::new(if self.one_in(2) { self.spoil_cell(&mut mma) } else { self.one_past(&mut mma) });
        while self.one_in(2) {
            broken.add(self.spoil_cell(&mut mma));
        }
        Some(self.at_mma(&mma, &broken, Role::Open))
    }

    /// Puts one operand one column past the end. Says which.
    fn one_past(&mut self, mma: &mut Mma) -> Operand {
        let n = u64::from(mma.word >> 17 & 63) * 8;
        let choice = self.r.below(3);
        match (&mut mma.a, choice) {
            (A::Address(address), 0) => {
                address.offset = self.length_of(&address.name) - 7;
                Operand::A
            }
            (_, 1) if mma.sp => {
                mma.meta.offset = self.length_of(&mma.meta.name) - 1;
                Operand::Meta
            }
            _ => {
                mma.d.offset = self.length_of(&mma.d.name) + 1 - n;
                Operand::D
            }
        }
    }

    fn length_of(&self, name: &str) -> u64 {
        self.live.iter().find(|l| l.name == name).map_or(0, |l| l.columns.into())
    }

    fn exit_fault(&mut self) -> Option<Fault> {
        let warp = self.any_warp();
        if self.one_in(2) && self.ensure_live() {
            let place = self.any_live()?;
            let also = self.perhaps_outstanding(place);
            self.line(warp, &bare("exit"));
            return Some(Fault { also, ..Fault::new("exit, columns held", 1) });
        }
        self.exit();
        let text = if self.one_in(6) { bare("exit") } else { self.readable() };
        self.line(warp, &text);
        Some(Fault::new("line after exit", 1))
    }

    /// Loads from a holding or stores to it, or does not. Says whether something is outstanding on it.
    fn perhaps_outstanding(&mut self, place: usize) -> Option<&'static str> {
        if self.one_in(2) {
            let access = self.good_access_to(place);
            self.access_line(&access);
        }
        (!self.live[place].outstanding.is_empty()).then_some("outstanding")
    }

    /// A load or store is outstanding on what is given back: there is no wait, or none that is for it.
    fn outstanding_fault(&mut self) -> Option<Fault> {
        if !self.ensure_live() {
            return None;
        }
        let mut place = self.any_live()?;
        let again = !self.relinquished && self.one_in(7);
        if again {
            place = self.take_again(place)?;
        }
        let access = self.good_access_to(place);
        self.access_line(&access);
        let lines = self.leave_outstanding(&access);
        let place = self.live.iter().position(|live| live.name == access.address.name)?;
        let fault = self.dealloc_outstanding(place);
        Some(Fault { also: Some(if again { "name used again" } else { lines }), ..fault })
    }

    /// Gives a holding back and takes as many columns under its name. Says where it is then.
    fn take_again(&mut self, place: usize) -> Option<usize> {
        let columns = self.live[place].columns;
        self.dealloc(place);
        let (name, unit) = (self.freed.pop()?, self.unit_for(columns)?);
        self.alloc_as(name, columns, unit);
        Some(self.live.len() - 1)
    }

    /// Lines that leave a load or store outstanding. Says what they are.
    fn leave_outstanding(&mut self, access: &Access) -> &'static str {
        let Outstanding { store, warp } = access.outstanding();
        let idle_holding = self.live.iter().position(|live| live.outstanding.is_empty());
        match (self.r.below(7), idle_holding) {
            (0, Some(place)) => {
                self.dealloc(place);
                "dealloc of another holding"
            }
            (1, _) => {
                self.wait(Outstanding { store: !store, warp });
                "wait of the other sort"
            }
            (2, _) => {
                let other = (warp + 1 + self.r.below(3)) % 4;
                self.wait(Outstanding { store, warp: other });
                "wait of another warp"
            }
            (3, _) => {
                self.wait(access.outstanding());
                self.access_line(access);
                "wait before the access"
            }
            (4, _) => {
                let all = (0..4).flat_map(|warp| [Outstanding { store: false, warp }, Outstanding { store: true, warp }]);
                all.filter(|&other| other != access.outstanding()).for_each(|other| self.wait(other));
                "every other wait"
            }
            (5, _) => {
                FENCES.into_iter().for_each(|fence| self.line(warp, &bare(fence)));
                "fences"
            }
            _ => "no wait",
        }
    }

    /// Gives a holding back on which something is outstanding.
    fn dealloc_outstanding(&mut self, place: usize) -> Fault {
        let live = &self.live[place];
        let what = match (live.outstanding.iter().any(|what| !what.store), live.outstanding.iter().any(|what| what.store)) {
            (true, true) => "ld and st",
            (true, false) => "ld",
            _ => "st",
        };
        let (name, columns) = (live.name.clone(), live.columns.into());
        let (text, warp) = (self.dealloc_text(&name, columns), self.booker());
        self.at(what, warp, &text, Role::Opcode)
    }

    /// A line of a sheet of loads, stores and waits on a few holdings. The fault, if it gives one back too early.
    pub fn careless(&mut self) -> Option<Fault> {
        match self.r.below(12) {
            0 | 1 if self.live.len() < 4 => {
                let columns = self.r.pick(&[32, 64]);
                self.alloc(columns);
            }
            0..=5 => self.access(),
            6..=8 => {
                let what = Outstanding { store: self.one_in(2), warp: self.any_warp() };
                self.wait(what);
            }
            9 => self.valid(),
            _ => return self.careless_dealloc(),
        }
        None
    }

    fn careless_dealloc(&mut self) -> Option<Fault> {
        let place = self.any_live()?;
        if self.live[place].outstanding.is_empty() || !self.one_in(4) {
            self.dealloc(place);
            return None;
        }
        Some(self.dealloc_outstanding(place))
    }

    /// A line in which each part is wrong about one time in three.
    pub fn wild(&mut self) {
        let name = match self.r.below(4) {
            0 => self.value_name(),
            1 => Some(format!("n{}", self.r.below(3))),
            _ => self.live_name(),
        };
        let name = name.unwrap_or_else(|| "unbound".into());
        let warp = if self.one_in(3) { self.stranger() } else { self.booker() };
        let columns = self.r.pick(&[32, 32, 64, 64, 128, 512, 0, 33, 96, 1_024]);
        let text = match self.r.below(8) {
            0 => {
                let name = if self.one_in(2) { self.new_name() } else { name };
                self.alloc_text(&name, columns)
            }
            1 => self.dealloc_text(&name, columns),
            2 => self.mov_text(&name, Word::Wide(0)),
            3 | 4 => self.wild_access(name),
            5 | 6 => self.wild_mma(),
            _ => self.readable(),
        };
        let spacing = if text.length() > 500 { Spacing::Plain } else { self.r.pick(&[Spacing::Plain, Spacing::Tight, Spacing::Loose]) };
        let mut line = format!("{warp}\t{}", text.spaced(self.r, spacing, &mut self.starts)).into_bytes();
        if self.one_in(6) {
            damage(self.r, &mut line);
        }
        self.raw(&line);
    }

    fn wild_access(&mut self, name: String) -> Text {
        let shape = self.r.below(4) as usize;
        let num = 1 << self.r.below(6);
        let count = if self.one_in(3) { 1 + self.r.below(8) } else { SIZES[shape].0 * num };
        let column = self.r.pick(&[0, 0, 1, 31, 32, 64, 511, 512]);
        let address = Address::new(name, 16 * self.r.below(9) * LANE + column);
        let store = self.one_in(2);
        self.access_text(&Access { store, shape, num, count, address, warp: 0 })
    }

    fn wild_mma(&mut self) -> Text {
        let Some(mut mma) = self.good_mma() else {
            return self.readable();
        };
        while self.one_in(3) {
            self.spoil_name(&mut mma);
        }
        while self.one_in(3) {
            self.spoil_a_value(&mma);
        }
        if self.one_in(3) {
            self.spoil_listing(&mma);
        }
        self.spoil_cells(&mut mma, 3);
        // the opcode may be another than the word's
        if self.one_in(4) {
            mma.kind = self.r.below(4) as usize;
        }
        if self.one_in(6) {
            mma.ws = !mma.ws;
        }
        self.mma_text(&mma)
    }

    /// Binds b, or idesc where it is a value, to a word without a reading.
    fn spoil_a_value(&mut self, mma: &Mma) {
        let bad = Word::Wide(bad_shared(self.r));
        if self.one_in(2) && self.is_value(&mma.b) {
            self.bind_name(&mma.b, bad);
        } else if self.is_value(&mma.idesc) {
            self.spoil_idesc(mma);
        }
    }

    /// Binds idesc, where it is a value, to a word of any shape.
    fn spoil_listing(&mut self, mma: &Mma) {
        if self.is_value(&mma.idesc) {
            let shape = (self.r.below(64) as u32) << 17 | (self.r.below(32) as u32) << 24 | (self.r.below(3) as u32) << 4;
            self.bind_name(&mma.idesc, Word::Narrow(mma.word & !(63 << 17 | 31 << 24 | 3 << 4) | shape));
        }
    }

    fn is_value(&self, name: &str) -> bool {
        self.word_of(name).is_some()
    }

    fn word_of(&self, name: &str) -> Option<Word> {
        self.values.iter().find(|(other, _)| other == name).map(|(_, word)| *word)
    }
}

/// What the counts call an operand of an mma.
fn operand_name(operand: Operand, mma: &Mma) -> &'static str {
    match (operand, &mma.a) {
        (Operand::Only, _) => "only operand",
        (Operand::D, _) => "mma d",
        (Operand::A, A::Address(_)) => "mma a, address",
        (Operand::A, A::Name(_)) => "mma a, descriptor",
        (Operand::B, _) => "mma b",
        (Operand::Meta, _) => "mma meta",
        (Operand::Idesc, _) if mma.sp => "mma idesc, sparse",
        (Operand::Idesc, _) => "mma idesc, dense",
    }
}

/// A word of a shared memory descriptor that does not read.
fn bad_shared(r: &mut Random) -> u64 {
    let word = shared_word(r);
    match r.below(5) {
        0 => word | 1 << r.pick(&[14, 15, 30, 31, 53, 56, 60]),
        1 => word ^ 1 << r.pick(&[46, 47, 48]),
        2 => word & !(7 << 61) | r.pick(&[3, 5, 7]) << 61,
        3 => word & !(7 << 61) & !(7 << 49) | (1 + r.below(7)) << 49,
        _ => 0,
    }
}

/// One byte exchanged, left out or put in, anywhere.
pub fn damage(r: &mut Random, bytes: &mut Vec<u8>) {
    if bytes.is_empty() {
        return;
    }
    let at = r.below(bytes.len() as u64) as usize;
    let byte = if r.below(3) == 0 { r.next() as u8 } else { r.pick(b" ;,[]{}+-*()0xbU189aZ_$%.:\t\n~") };
    match r.below(3) {
        0 => bytes[at] = byte,
        1 => {
            bytes.remove(at);
        }
        _ => bytes.insert(at, byte),
    }
}
