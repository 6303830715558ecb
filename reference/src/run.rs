//! The run of a list of statements under a list of starts.
//!
//! It knows nothing of the judge: it keeps its own holdings and numbers, looks at
//! columns one by one, and notes after each line what can be seen. What is
//! outstanding on a holding it finds by looking back, and does not stop for it.

use crate::name::Name;
use crate::sheet::Step;
use crate::statement::{columns, lanes, Address, Operand, Shape, Statement};

const COLUMNS: u32 = 512;
const LANES: u32 = 128;
/// A start is a multiple of this.
const UNIT: u32 = 32;
/// What an mma books beside d.
const A_COLUMNS: u32 = 8;
const META_COLUMNS: u32 = 2;

/// How a run came to its end.
#[derive(Clone, Copy, PartialEq, Eq, Debug)]
pub enum End {
    /// At this line, the exit.
    Exited(usize),
    /// At this line, which could not be done.
    Stopped(usize),
    /// The lines were used up, with no exit among them.
    Ended,
}

/// A load or a store of this warp that was not waited for.
#[derive(Clone, Copy, PartialEq, Eq, Debug)]
pub enum Outstanding {
    Load(u8),
    Store(u8),
}

/// What can be seen after a line that was done.
#[derive(Clone, PartialEq, Eq, Debug)]
pub struct Seen {
    pub line: usize,
    /// No column is in two holdings.
    pub disjoint: bool,
    /// Columns in a holding, counted one by one.
    pub held: u32,
    /// Columns asked for and given back so far.
    pub asked: u64,
    pub given_back: u64,
    /// The cells that the line booked, if any, were inside the holdings they name.
    pub inside: bool,
    /// What was outstanding on the holding that the line gave back, if it gave one
    /// back: the latest first.
    pub outstanding: Vec<Outstanding>,
}

impl Seen {
    /// Do the columns add up, with no overlap, nothing outside, and nothing
    /// outstanding on what was given back?
    pub fn is_good(&self) -> bool {
        self.disjoint && self.inside && self.outstanding.is_empty() && self.asked == u64::from(self.held) + self.given_back
    }
}

#[derive(Clone, PartialEq, Eq, Debug)]
pub struct Outcome {
    pub end: End,
    /// The most columns held after any line.
    pub peak: u32,
    /// One for each line that was done.
    pub seen: Vec<Seen>,
}

/// Does the statements in turn, the first of them being line 2. Each alloc takes
/// the next start; starts that are left over are not looked at.
pub fn run(steps: &[Step], starts: &[u32]) -> Outcome {
    let mut machine = Machine::new(starts);
    let mut seen = Vec::with_capacity(steps.len());
    let mut peak = 0;
    for (place, step) in steps.iter().enumerate() {
        let line = place + 2;
        let Some(done) = machine.step(step) else {
            return Outcome { end: End::Stopped(line), peak, seen };
        };
        let now = machine.look(line, done);
        peak = peak.max(now.held);
        seen.push(now);
        if step.statement == Statement::Exit {
            return Outcome { end: End::Exited(line), peak, seen };
        }
    }
    Outcome { end: End::Ended, peak, seen }
}

/// Starts that are chosen while the statements are done, each from those that may
/// be used there. The list ends where none may be used or a line cannot be done.
pub fn choose_starts(steps: &[Step], mut choose: impl FnMut(&[u32]) -> u32) -> Vec<u32> {
    let mut machine = Machine::new(&[]);
    let mut chosen = Vec::new();
    for step in steps {
        let done = match &step.statement {
            Statement::Alloc { name, columns } => {
                let usable = machine.usable(*columns);
                if usable.is_empty() {
                    return chosen;
                }
                let start = choose(&usable);
                chosen.push(start);
                machine.alloc_at(name, *columns, start)
            }
            _ => machine.step(step).map(|_| ()),
        };
        if done.is_none() {
            return chosen;
        }
    }
    chosen
}

#[derive(Clone, Copy)]
struct Holding {
    name: Name,
    start: u32,
    length: u32,
    /// How many notes there were when it was taken.
    notes_before: usize,
}

/// Cells that a line books, and the holding that it names for them.
struct Access {
    holding: Holding,
    first_lane: u32,
    lanes: u32,
    /// Counted from the first column of the memory.
    first_column: u32,
    columns: u32,
}

/// What the run remembers of a line that loaded, stored or waited.
enum Note {
    /// On the holding of this name.
    Access(Name, Outstanding),
    /// For what is outstanding so, on all holdings.
    Wait(Outstanding),
}

/// What a line did.
#[derive(Default)]
struct Done {
    accesses: Vec<Access>,
    /// On the holding that it gave back.
    outstanding: Vec<Outstanding>,
}

struct Machine<'a> {
    starts: std::slice::Iter<'a, u32>,
    live: Vec<Holding>,
    /// The number last moved to each name.
    numbers: Vec<(Name, u64)>,
    notes: Vec<Note>,
    asked: u64,
    given_back: u64,
}

impl<'a> Machine<'a> {
    fn new(starts: &'a [u32]) -> Self {
        Machine { starts: starts.iter(), live: Vec::new(), numbers: Vec::new(), notes: Vec::new(), asked: 0, given_back: 0 }
    }

    /// Does one line. `None`, and nothing changed but the place in the list of
    /// starts, when it cannot be done.
    fn step(&mut self, step: &Step) -> Option<Done> {
        let mut done = Done::default();
        match &step.statement {
            Statement::Mov { name, value, .. } => self.mov(name, *value),
            Statement::Alloc { name, columns } => {
                let start = *self.starts.next()?;
                self.alloc_at(name, *columns, start)?;
            }
            Statement::Dealloc { name, columns } => done.outstanding = self.dealloc(name, *columns)?,
            Statement::Ld { shape, num, address, .. } => {
                done.accesses.push(self.warp_access(*shape, *num, address)?);
                self.notes.push(Note::Access(address.name, Outstanding::Load(step.warp)));
            }
            Statement::St { shape, num, address, .. } => {
                done.accesses.push(self.warp_access(*shape, *num, address)?);
                self.notes.push(Note::Access(address.name, Outstanding::Store(step.warp)));
            }
            Statement::WaitLd => self.notes.push(Note::Wait(Outstanding::Load(step.warp))),
            Statement::WaitSt => self.notes.push(Note::Wait(Outstanding::Store(step.warp))),
            Statement::Mma { d, a, meta, idesc, .. } => done.accesses = self.mma(d, a, meta.as_ref(), idesc)?,
            Statement::Exit => {
                if self.held() != 0 {
                    return None;
                }
            }
            Statement::Relinquish | Statement::FenceBefore | Statement::FenceAfter => {}
        }
        Some(done)
    }

    fn mov(&mut self, name: &Name, value: u64) {
        match self.numbers.iter_mut().find(|(other, _)| other == name) {
            Some((_, number)) => *number = value,
            None => self.numbers.push((*name, value)),
        }
    }

    fn alloc_at(&mut self, name: &Name, columns: u32, start: u32) -> Option<()> {
        if self.holding(name).is_some() || !self.is_usable(start, columns) {
            return None;
        }
        self.live.push(Holding { name: *name, start, length: columns, notes_before: self.notes.len() });
        self.asked += u64::from(columns);
        Some(())
    }

    /// Answers what is outstanding on the holding.
    fn dealloc(&mut self, name: &Name, columns: u32) -> Option<Vec<Outstanding>> {
        let is_it = |holding: &Holding| holding.name == *name && holding.length == columns;
        let place = self.live.iter().position(is_it)?;
        let holding = self.live.remove(place);
        self.given_back += u64::from(columns);
        Some(self.outstanding(&holding))
    }

    /// The loads and stores on a holding that no wait of their own warp follows.
    fn outstanding(&self, holding: &Holding) -> Vec<Outstanding> {
        let (mut waited_for, mut outstanding) = (Vec::new(), Vec::new());
        for note in self.notes[holding.notes_before..].iter().rev() {
            match note {
                Note::Wait(what) => waited_for.push(what),
                Note::Access(name, what) if *name == holding.name && !waited_for.contains(&what) => outstanding.push(*what),
                Note::Access(..) => {}
            }
        }
        outstanding
    }

    fn warp_access(&self, shape: Shape, num: u32, address: &Address) -> Option<Access> {
        self.access(address, lanes(shape), columns(shape, num))
    }

    fn mma(&self, d: &Address, a: &Operand, meta: Option<&Address>, idesc: &Name) -> Option<Vec<Access>> {
        let (_, number) = self.numbers.iter().find(|(name, _)| name == idesc)?;
        let n = ((number >> 17) & 63) as u32 * 8;
        let mut accesses = vec![self.access(d, LANES, n)?];
        if let Operand::Address(a) = a {
            accesses.push(self.access(a, LANES, A_COLUMNS)?);
        }
        if let Some(meta) = meta {
            accesses.push(self.access(meta, LANES, META_COLUMNS)?);
        }
        Some(accesses)
    }

    /// The cells from an address on, if they are in the memory and in the holding.
    fn access(&self, address: &Address, lanes: u32, columns: u32) -> Option<Access> {
        let holding = *self.holding(&address.name)?;
        let first_lane = address.offset / 65_536;
        let column = address.offset % 65_536;
        if first_lane + lanes > LANES || column + columns > holding.length {
            return None;
        }
        let first_column = holding.start + column;
        Some(Access { holding, first_lane, lanes, first_column, columns })
    }

    fn holding(&self, name: &Name) -> Option<&Holding> {
        self.live.iter().find(|holding| holding.name == *name)
    }

    /// A start that may be used: each column from there on exists and is free.
    fn is_usable(&self, start: u32, columns: u32) -> bool {
        let holders = self.holders();
        let is_free = |column: u64| column < u64::from(COLUMNS) && holders[column as usize] == 0;
        let end = u64::from(start) + u64::from(columns);
        start % UNIT == 0 && (u64::from(start)..end).all(is_free)
    }

    fn usable(&self, columns: u32) -> Vec<u32> {
        let all = (0..COLUMNS).step_by(UNIT as usize);
        all.filter(|&start| self.is_usable(start, columns)).collect()
    }

    /// In how many live holdings each column is.
    fn holders(&self) -> [u32; COLUMNS as usize] {
        let mut holders = [0; COLUMNS as usize];
        for holding in &self.live {
            for column in holding.start..holding.start + holding.length {
                holders[column as usize] += 1;
            }
        }
        holders
    }

    fn held(&self) -> u32 {
        self.holders().iter().filter(|&&holders| holders > 0).count() as u32
    }

    fn look(&self, line: usize, done: Done) -> Seen {
        let disjoint = self.holders().iter().all(|&holders| holders <= 1);
        let is_live = |access: &Access| self.holding(&access.holding.name).is_some();
        Seen {
            line,
            disjoint,
            held: self.held(),
            asked: self.asked,
            given_back: self.given_back,
            inside: done.accesses.iter().all(|access| is_live(access) && access.is_inside()),
            outstanding: done.outstanding,
        }
    }
}

impl Holding {
    fn has(&self, column: u32) -> bool {
        (self.start..self.start + self.length).contains(&column)
    }
}

impl Access {
    /// Each cell by itself: below lane 128, below column 512, in the holding.
    fn is_inside(&self) -> bool {
        let good_lanes = (0..self.lanes).all(|more| self.first_lane + more < LANES);
        let good_columns = (0..self.columns).all(|more| {
            let column = self.first_column + more;
            column < COLUMNS && self.holding.has(column)
        });
        good_lanes && good_columns
    }
}
