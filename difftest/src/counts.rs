//! Outcomes counted for each function, so that a comparison that only ever refuses is seen and fails.

use std::collections::BTreeMap;

#[derive(Default)]
pub struct Counts {
    outcomes: BTreeMap<(&'static str, u32), u64>,
    /// How often a refusal stood at a place of its sort.
    places: BTreeMap<(u32, &'static str), u64>,
    compared: u64,
    differences: u64,
}

impl Counts {
    pub fn new() -> Self {
        Counts::default()
    }

    /// Counts one comparison under its outcome; `what` is shown for the first differences.
    pub fn compare<T: PartialEq + std::fmt::Debug>(
        &mut self,
        function: &'static str,
        outcome: u32,
        ours: T,
        theirs: T,
        what: impl Fn() -> String,
    ) {
        self.compared += 1;
        *self.outcomes.entry((function, outcome)).or_insert(0) += 1;
        if ours != theirs {
            self.differences += 1;
            if self.differences <= 20 {
                println!("DIFFERENT {function} {}: proved {ours:?}, reference {theirs:?}", what());
            }
        }
    }

    /// Counts an outcome that is no comparison by itself.
    pub fn seen(&mut self, function: &'static str, outcome: u32) {
        self.seen_often(function, outcome, 1);
    }

    /// Counts it so many times.
    pub fn seen_often(&mut self, function: &'static str, outcome: u32, times: u64) {
        *self.outcomes.entry((function, outcome)).or_insert(0) += times;
    }

    /// Counts a refusal by what its column names.
    pub fn place(&mut self, reason: u32, what: &'static str) {
        *self.places.entry((reason, what)).or_insert(0) += 1;
    }

    /// Prints the places of the refusals and says whether each that is wanted was seen often enough, and no other.
    pub fn enough_places(&self, wanted: &[(u32, &'static str)], least: u64) -> bool {
        let mut good = true;
        for ((reason, what), n) in &self.places {
            println!("  reason {reason:>2}, {what:<32}: {n:>7}");
            if !wanted.contains(&(*reason, what)) {
                println!("UNKNOWN reason {reason}, {what}: not in the list of places");
                good = false;
            }
        }
        for place in wanted {
            let seen = self.places.get(place).copied().unwrap_or(0);
            if seen < least {
                println!("HOLLOW reason {}, {}: seen {seen} times, wanted {least}", place.0, place.1);
                good = false;
            }
        }
        good
    }

    pub fn differences(&self) -> u64 {
        self.differences
    }

    /// Prints the table and says whether all agreed and each wanted outcome was seen often enough.
    pub fn finish(&self, title: &str, wanted: &[(&'static str, u32, u64)]) -> bool {
        for ((function, outcome), n) in &self.outcomes {
            println!("  {function:<22} answer {outcome:>2}: {n:>9}");
        }
        let mut good = self.differences == 0;
        for &(function, outcome, least) in wanted {
            let seen = self.outcomes.get(&(function, outcome)).copied().unwrap_or(0);
            if seen < least {
                println!("HOLLOW {function}: answer {outcome} seen {seen} times, wanted {least}");
                good = false;
            }
        }
        println!("{title}: {} compared, {} different", self.compared, self.differences);
        good
    }
}
