//! The books of a sheet while it is judged: live holdings and what is outstanding
//! on them, the warp that books, the permit to allocate, and the values that were
//! moved.
//!
//! A refused booking changes nothing.

use crate::descriptor::{request, BAD_REQUEST};
use crate::name::Name;

/// A name is not bound, is bound to something else, or is taken.
pub const BAD_NAME: u32 = 6;
/// The table of values has no place left.
pub const NO_PLACE: u32 = 7;
/// Another warp books, or the lane is not one of the warp's.
pub const BAD_WARP: u32 = 8;
/// The permit to allocate was given up.
pub const NO_PERMIT: u32 = 10;
/// No free run is long enough.
pub const NO_RUN: u32 = 11;
/// A load or a store on the holding is outstanding.
pub const OUTSTANDING: u32 = 18;

/// Columns of the memory.
pub const COLUMNS: u32 = 512;
/// Holdings start at multiples of this and have at least as many columns.
const UNIT: u32 = 32;
/// No more holdings than this can be live at once.
const MOST_HOLDINGS: usize = (COLUMNS / UNIT) as usize;
/// No more values than this can be bound.
const MOST_VALUES: usize = 128;
/// Warps that load and store.
const WARPS: usize = 4;

#[derive(Clone, Copy)]
pub struct Holding {
    pub name: Name,
    pub start: u32,
    pub columns: u32,
    /// For each warp, whether a load of it is outstanding.
    loads: [bool; WARPS],
    /// The same of stores.
    stores: [bool; WARPS],
}

impl Holding {
    fn new(name: Name, start: u32, columns: u32) -> Self {
        Holding { name, start, columns, loads: [false; WARPS], stores: [false; WARPS] }
    }

    fn has_outstanding(&self) -> bool {
        self.loads.contains(&true) || self.stores.contains(&true)
    }
}

pub struct Ledger {
    /// The first `live` of these are the live holdings, in no certain order.
    holdings: [Holding; MOST_HOLDINGS],
    live: usize,
    /// One bit for each unit of columns that is held, the lowest first.
    taken: u32,
    /// Columns asked for less columns given back.
    held: u32,
    /// The warp that books, once one has.
    warp: Option<u8>,
    relinquished: bool,
}

impl Ledger {
    pub fn new() -> Self {
        let none = Holding::new(Name::EMPTY, 0, 0);
        Ledger { holdings: [none; MOST_HOLDINGS], live: 0, taken: 0, held: 0, warp: None, relinquished: false }
    }

    pub fn held(&self) -> u32 {
        self.held
    }

    /// The live holding of this name.
    pub fn holding(&self, name: &Name) -> Option<&Holding> {
        self.holdings[..self.live].iter().find(|holding| holding.name == *name)
    }

    fn holding_mut(&mut self, name: &Name) -> Option<&mut Holding> {
        self.holdings[..self.live].iter_mut().find(|holding| holding.name == *name)
    }

    /// Books columns and answers their start. The caller has seen to it that the
    /// name is not taken.
    pub fn alloc(&mut self, warp: u8, name: Name, columns: u32) -> Result<u32, u32> {
        self.check_warp(warp)?;
        if request(columns) != 0 {
            return Err(BAD_REQUEST);
        }
        if self.relinquished {
            return Err(NO_PERMIT);
        }
        let start = self.lowest_start(columns).ok_or(NO_RUN)?;
        self.holdings[self.live] = Holding::new(name, start, columns);
        self.live += 1;
        self.taken |= units(start, columns);
        self.held += columns;
        self.warp = Some(warp);
        Ok(start)
    }

    /// Gives a whole holding back, if no load or store on it is outstanding.
    pub fn dealloc(&mut self, warp: u8, name: &Name, columns: u32) -> Result<(), u32> {
        let live = &self.holdings[..self.live];
        let place = live.iter().position(|holding| holding.name == *name).ok_or(BAD_NAME)?;
        self.check_warp(warp)?;
        let holding = self.holdings[place];
        if holding.columns != columns {
            return Err(BAD_REQUEST);
        }
        if holding.has_outstanding() {
            return Err(OUTSTANDING);
        }
        self.live -= 1;
        self.holdings[place] = self.holdings[self.live];
        self.taken &= !units(holding.start, holding.columns);
        self.held -= columns;
        Ok(())
    }

    pub fn relinquish(&mut self, warp: u8) -> Result<(), u32> {
        self.check_warp(warp)?;
        self.warp = Some(warp);
        self.relinquished = true;
        Ok(())
    }

    /// From now on a load of the warp is outstanding on the holding of this name.
    pub fn load(&mut self, warp: u8, name: &Name) {
        if let Some(holding) = self.holding_mut(name) {
            holding.loads[usize::from(warp)] = true;
        }
    }

    /// The same of a store.
    pub fn store(&mut self, warp: u8, name: &Name) {
        if let Some(holding) = self.holding_mut(name) {
            holding.stores[usize::from(warp)] = true;
        }
    }

    /// Of this warp no load is outstanding any more, on any holding.
    pub fn wait_for_loads(&mut self, warp: u8) {
        for holding in &mut self.holdings[..self.live] {
            holding.loads[usize::from(warp)] = false;
        }
    }

    /// The same of stores.
    pub fn wait_for_stores(&mut self, warp: u8) {
        for holding in &mut self.holdings[..self.live] {
            holding.stores[usize::from(warp)] = false;
        }
    }

    fn check_warp(&self, warp: u8) -> Result<(), u32> {
        match self.warp {
            Some(fixed) if fixed != warp => Err(BAD_WARP),
            _ => Ok(()),
        }
    }

    /// The lowest multiple of 32 from which so many columns are free.
    fn lowest_start(&self, columns: u32) -> Option<u32> {
        (0..=COLUMNS - columns).step_by(UNIT as usize).find(|&start| self.taken & units(start, columns) == 0)
    }
}

/// The bits of a run of columns, both ends multiples of 32.
fn units(start: u32, columns: u32) -> u32 {
    ((1 << (columns / UNIT)) - 1) << (start / UNIT)
}

/// What was moved to a name.
#[derive(Clone, Copy)]
pub enum Value {
    Narrow(u32),
    Wide(u64),
}

pub struct Values {
    bound: Vec<(Name, Value)>,
}

impl Values {
    pub fn new() -> Self {
        Values { bound: Vec::new() }
    }

    pub fn get(&self, name: &Name) -> Option<Value> {
        let found = self.bound.iter().find(|(other, _)| other == name);
        found.map(|(_, value)| *value)
    }

    /// Binds the name, or binds it again.
    pub fn bind(&mut self, name: Name, value: Value) -> Result<(), u32> {
        if let Some((_, old)) = self.bound.iter_mut().find(|(other, _)| *other == name) {
            *old = value;
            return Ok(());
        }
        if self.bound.len() == MOST_VALUES {
            return Err(NO_PLACE);
        }
        self.bound.push((name, value));
        Ok(())
    }
}
