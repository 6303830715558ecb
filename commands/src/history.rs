//! What the accepted lines of a sheet did: allocations, values, accesses, waits. It judges nothing; each line that it is given was accepted by
//! the library, and what it makes of them is compared with the library's answer before anybody sees it.

use crate::sheet::Sheet;
use crate::statement::{self, Address, Mma, Operand, Statement, A_COLUMNS, MEMORY, METADATA_COLUMNS};

#[derive(Clone, PartialEq, Eq, Debug)]
pub struct Allocation {
    pub name: String,
    pub columns: u32,
    /// The line that took it.
    pub line: usize,
    /// The line that gave it back.
    pub end: Option<usize>,
    /// Its first column, where the library was asked for it.
    pub start: Option<u32>,
}

/// A value name with the number last moved to it.
#[derive(Clone, PartialEq, Eq, Debug)]
pub struct Value {
    pub name: String,
    pub width: u32,
    pub number: u64,
    /// The line that moved it.
    pub line: usize,
}

#[derive(Clone, Copy, PartialEq, Eq, Debug)]
pub enum Use {
    Load,
    Store,
    Mma,
}

impl Use {
    /// Its opcode in short, as a wait has it too.
    pub fn word(self) -> &'static str {
        match self {
            Use::Load => "ld",
            Use::Store => "st",
            Use::Mma => "mma",
        }
    }
}

/// Columns of an allocation that a line uses, counted from its start.
#[derive(Clone, PartialEq, Eq, Debug)]
pub struct Access {
    pub line: usize,
    pub warp: u32,
    /// Its place in `allocations`.
    pub allocation: usize,
    pub column: u32,
    pub columns: u32,
    pub kind: Use,
}

/// A line, and the warp that it is by.
#[derive(Clone, Copy, PartialEq, Eq, Debug)]
pub struct By {
    pub line: usize,
    pub warp: u32,
}

/// A wait of a warp for its loads, or for its stores.
#[derive(Clone, Copy, PartialEq, Eq, Debug)]
pub struct Wait {
    pub by: By,
    pub kind: Use,
}

#[derive(Clone, Default, Debug)]
pub struct History {
    /// In the order of their allocs, those that were given back included.
    pub allocations: Vec<Allocation>,
    pub values: Vec<Value>,
    pub accesses: Vec<Access>,
    pub waits: Vec<Wait>,
    /// The first alloc or relinquish: it fixed the warp.
    pub booker: Option<By>,
    /// The first relinquish.
    pub relinquished: Option<usize>,
    pub exit: Option<usize>,
}

impl History {
    /// What the lines from 2 up to one did.
    pub fn of(sheet: &Sheet, last: usize) -> History {
        let mut history = History::default();
        for line in 2..=last {
            if let Some(statement) = statement::read(sheet.statement(line)) {
                history.note(line, sheet.warp(line), &statement);
            }
        }
        history
    }

    fn note(&mut self, line: usize, warp: u32, statement: &Statement) {
        match statement {
            Statement::Mov { width, name, number } => {
                let value = Value { name: name.clone(), width: *width, number: *number, line };
                match self.values.iter_mut().find(|v| v.name == *name) {
                    Some(old) => *old = value,
                    None => self.values.push(value),
                }
            }
            Statement::Alloc { name, columns } => {
                self.booker.get_or_insert(By { line, warp });
                self.allocations.push(Allocation { name: name.clone(), columns: *columns, line, end: None, start: None });
            }
            Statement::Dealloc { name, .. } => {
                if let Some(i) = self.live_at(name) {
                    self.allocations[i].end = Some(line);
                }
            }
            Statement::Relinquish => {
                self.booker.get_or_insert(By { line, warp });
                self.relinquished.get_or_insert(line);
            }
            Statement::Access { store, shape, num, address, .. } => {
                self.access(By { line, warp }, address, shape.columns * num, if *store { Use::Store } else { Use::Load });
            }
            Statement::Mma(mma) => self.mma(By { line, warp }, mma),
            Statement::Wait { store } => {
                self.waits.push(Wait { by: By { line, warp }, kind: if *store { Use::Store } else { Use::Load } });
            }
            Statement::Exit => self.exit = Some(line),
            Statement::Fence => {}
        }
    }

    fn mma(&mut self, by: By, mma: &Mma) {
        for operand in 0..4 {
            if let Some((address, columns, _)) = self.cells(mma, operand) {
                self.access(by, address, columns, Use::Mma);
            }
        }
    }

    fn access(&mut self, By { line, warp }: By, address: &Address, columns: u32, kind: Use) {
        if let Some(allocation) = self.live_at(&address.name) {
            self.accesses.push(Access { line, warp, allocation, column: address.column(), columns, kind });
        }
    }

    /// The line of a warp's last wait for its loads, or for its stores; 0 where there is none.
    fn waited(&self, warp: u32, kind: Use) -> usize {
        self.waits.iter().rev().find(|wait| (wait.by.warp, wait.kind) == (warp, kind)).map_or(0, |wait| wait.by.line)
    }

    /// The loads, or the stores, by a warp from or to the live allocation of a name, after its last wait for them.
    pub fn outstanding(&self, name: &str, warp: u32, kind: Use) -> Vec<&Access> {
        let (at, after) = (self.live_at(name), self.waited(warp, kind));
        let is = |a: &&Access| Some(a.allocation) == at && (a.warp, a.kind) == (warp, kind) && a.line > after;
        self.accesses.iter().filter(is).collect()
    }

    /// The N of an mma: the library reads it from the number under idesc; 0 where it does not.
    pub fn n_of(&self, mma: &Mma) -> u32 {
        let word = self.value(&mma.idesc).and_then(|v| u32::try_from(v.number).ok());
        word.and_then(|word| mma.opcode.decode(word).ok()).map_or(0, |fields| fields.n)
    }

    /// The address that stands at an operand of an mma, counted from 0; the columns that it takes, and what it is.
    pub fn cells<'m>(&self, mma: &'m Mma, operand: usize) -> Option<(&'m Address, u32, &'static str)> {
        match (operand, &mma.a, &mma.metadata) {
            (0, ..) => Some((&mma.d, self.n_of(mma), "d")),
            (1, Operand::Address(a), _) => Some((a, A_COLUMNS, "a")),
            (3, _, Some(metadata)) => Some((metadata, METADATA_COLUMNS, "metadata")),
            _ => None,
        }
    }

    fn live_at(&self, name: &str) -> Option<usize> {
        // at most sixteen are live, and those are the last of their names
        self.allocations.iter().rposition(|a| a.name == name).filter(|&i| self.allocations[i].end.is_none())
    }

    pub fn live(&self) -> impl Iterator<Item = &Allocation> {
        self.allocations.iter().filter(|a| a.end.is_none())
    }

    /// The live allocation of a name.
    pub fn allocation(&self, name: &str) -> Option<&Allocation> {
        self.live_at(name).map(|i| &self.allocations[i])
    }

    /// The last allocation of a name that was given back.
    pub fn ended(&self, name: &str) -> Option<&Allocation> {
        self.allocations.iter().rev().find(|a| a.name == name && a.end.is_some())
    }

    pub fn value(&self, name: &str) -> Option<&Value> {
        self.values.iter().find(|v| v.name == name)
    }

    /// Columns held: the sum over the live allocations.
    pub fn held(&self) -> u32 {
        self.live().map(|a| a.columns).sum()
    }

    /// Asks the library where each allocation is placed: it judges a sheet of these allocs and deallocs alone, closed by a dealloc for
    /// each that is live. Nothing is placed, and the answer is false, if it does not pass (there may be no room for the deallocs) or its peak is
    /// not the one given.
    pub fn place(&mut self, peak: u32) -> bool {
        staplehorn::judge(&self.closed()).is_ok_and(|passed| passed.peak == peak && self.put(&passed.starts))
    }

    /// Notes the library's starts, one for each allocation; false where there are not as many.
    pub fn put(&mut self, starts: &[u16]) -> bool {
        let same = starts.len() == self.allocations.len();
        if same {
            self.allocations.iter_mut().zip(starts).for_each(|(allocation, &start)| allocation.start = Some(start.into()));
        }
        same
    }

    /// The sheet of the allocs and deallocs alone, with what is live given back.
    fn closed(&self) -> Vec<u8> {
        let mut lines: Vec<(usize, String)> = Vec::new();
        for a in &self.allocations {
            lines.push((a.line, format!("0\ttcgen05.alloc.cta_group::1.sync.aligned.b32[{}],{};\n", a.name, a.columns)));
            lines.push((
                a.end.unwrap_or(usize::MAX),
                format!("0\ttcgen05.dealloc.cta_group::1.sync.aligned.b32 {},{};\n", a.name, a.columns),
            ));
        }
        lines.sort_by_key(|line| line.0);
        let body: String = lines.into_iter().map(|line| line.1).collect();
        format!("sheet\t1\tsm_100a\n{body}0\texit;\n").into_bytes()
    }

    /// The free columns as runs, each its first column and its length; none unless every live allocation is placed.
    pub fn free_runs(&self) -> Option<Vec<(u32, u32)>> {
        let mut held: Vec<(u32, u32)> = self.live().map(|a| a.start.map(|start| (start, a.columns))).collect::<Option<_>>()?;
        held.sort_unstable();
        held.push((MEMORY, 0));
        let mut runs = Vec::new();
        let mut at = 0;
        for (start, columns) in held {
            if start > at {
                runs.push((at, start - at));
            }
            at = start + columns;
        }
        Some(runs)
    }
}

#[cfg(test)]
mod tests {
    use super::*;

    const SHEET: &[u8] = b"sheet\t1\tsm_100a\n\
        0\ttcgen05.alloc.cta_group::1.sync.aligned.b32 [t], 64;\n\
        0\ttcgen05.alloc.cta_group::1.sync.aligned.b32 [u], 32;\n\
        0\tmov.b32 i, 0x08100010;\n\
        1\ttcgen05.ld.sync.aligned.32x32b.x2.b32 {a, b}, [u+2097153];\n\
        0\tmov.b64 b, 0x0000400800100000;\n\
        0\ttcgen05.mma.cta_group::1.kind::f16 [t], [t+8], b, i, p;\n\
        0\ttcgen05.dealloc.cta_group::1.sync.aligned.b32 t, 64;\n\
        0\ttcgen05.alloc.cta_group::1.sync.aligned.b32 [t], 32;\n\
        0\ttcgen05.alloc.cta_group::1.sync.aligned.b32 [v], 128;\n\
        0\texit;\n";

    #[test]
    fn what_lines_did() {
        let answer = staplehorn::judge(SHEET).unwrap_err();
        let mut history = History::of(&Sheet::new(SHEET), answer.line as usize - 1);
        assert_eq!((history.held(), history.allocations.len()), (answer.held, 4));
        assert_eq!(history.booker, Some(By { line: 2, warp: 0 }));
        let used: Vec<_> = history.accesses.iter().map(|a| (a.line, a.allocation, a.column, a.columns, a.kind)).collect();
        assert_eq!(used, [(5, 1, 1, 2, Use::Load), (7, 0, 0, 64, Use::Mma), (7, 0, 8, 8, Use::Mma)]);
        assert!(!history.place(answer.peak + 1));
        assert!(history.place(answer.peak));
        let starts: Vec<_> = history.allocations.iter().map(|a| (a.name.as_str(), a.start, a.end)).collect();
        assert_eq!(starts, [("t", Some(0), Some(8)), ("u", Some(64), None), ("t", Some(0), None), ("v", Some(96), None)]);
        assert_eq!(history.free_runs(), Some(vec![(32, 32), (224, 288)]));
        assert_eq!(history.allocation("t").map(|a| a.line), Some(9));
        assert_eq!(history.ended("t").map(|a| a.line), Some(2));
        assert_eq!(history.value("i").map(|v| (v.number, v.line)), Some((0x0810_0010, 4)));
    }

    /// A load is outstanding until its own warp's `wait::ld`, which ends all of them; an mma never is.
    #[test]
    fn what_is_outstanding() {
        let sheet = b"sheet\t1\tsm_100a\n\
            0\ttcgen05.alloc.cta_group::1.sync.aligned.b32 [t], 64;\n\
            0\ttcgen05.alloc.cta_group::1.sync.aligned.b32 [u], 32;\n\
            *\ttcgen05.ld.sync.aligned.32x32b.x1.b32 {a}, [t];\n\
            0\ttcgen05.ld.sync.aligned.32x32b.x1.b32 {a}, [t+1];\n\
            0\ttcgen05.ld.sync.aligned.32x32b.x1.b32 {a}, [u];\n\
            1\ttcgen05.ld.sync.aligned.32x32b.x1.b32 {a}, [t+2097152];\n\
            0\ttcgen05.st.sync.aligned.32x32b.x1.b32 [t], {a};\n\
            0\ttcgen05.wait::ld.sync.aligned;\n\
            0\ttcgen05.ld.sync.aligned.32x32b.x1.b32 {a}, [t];\n\
            0\ttcgen05.dealloc.cta_group::1.sync.aligned.b32 t, 64;\n\
            0\ttcgen05.alloc.cta_group::1.sync.aligned.b32 [t], 64;\n";
        let lines = |last: usize, name: &str, warp: u32, kind: Use| {
            let history = History::of(&Sheet::new(sheet), last);
            history.outstanding(name, warp, kind).iter().map(|a| a.line).collect::<Vec<_>>()
        };
        assert_eq!((lines(8, "t", 0, Use::Load), lines(8, "u", 0, Use::Load)), (vec![4, 5], vec![6]));
        assert_eq!((lines(9, "t", 0, Use::Load), lines(9, "u", 0, Use::Load)), (vec![], vec![]));
        assert_eq!(
            (lines(10, "t", 0, Use::Load), lines(10, "t", 1, Use::Load), lines(10, "t", 0, Use::Store)),
            (vec![10], vec![7], vec![8])
        );
        // given back, and taken again
        assert_eq!((lines(11, "t", 1, Use::Load), lines(12, "t", 1, Use::Load)), (vec![], vec![]));
    }

    #[test]
    fn the_first_relinquish_and_every_address_of_an_mma() {
        let sheet = b"sheet\t1\tsm_100a\n\
            2\ttcgen05.relinquish_alloc_permit.cta_group::1.sync.aligned;\n\
            2\ttcgen05.relinquish_alloc_permit.cta_group::1.sync.aligned;\n";
        let history = History::of(&Sheet::new(sheet), 3);
        assert_eq!((history.relinquished, history.booker), (Some(2), Some(By { line: 2, warp: 2 })));
        let sheet = b"sheet\t1\tsm_100a\n\
            0\ttcgen05.alloc.cta_group::1.sync.aligned.b32 [t], 128;\n\
            0\tmov.b32 i, 0x08100014;\n\
            0\tmov.b64 b, 0x0000400800100000;\n\
            0\ttcgen05.mma.sp.cta_group::1.kind::f16 [t], [t+64], b, [t+80], i, p;\n";
        let used: Vec<_> = History::of(&Sheet::new(sheet), 5).accesses.iter().map(|a| (a.column, a.columns)).collect();
        assert_eq!(used, [(0, 64), (64, 8), (80, 2)]);
    }
}
