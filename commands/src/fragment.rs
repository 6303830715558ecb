//! Fragments in words: a matrix drawn, where an element stands, and who holds a place. The library answers, and says how large a matrix is
//! by what it refuses; only a number that it cannot be handed, for it has over 32 bits, is called outside here.

use crate::number::{self, Fault};
use staplehorn::{Holder, Matrix, Place, Reason};
use std::fmt;

/// A matrix under the name that it was asked for by.
#[derive(Clone, Copy, Debug)]
pub struct Named {
    pub name: char,
    pub matrix: Matrix,
}

impl Named {
    /// The matrix of a letter, large or small. D lies as C.
    pub fn parse(text: &str) -> Option<Named> {
        let (name, matrix) = match text {
            "A" | "a" => ('A', Matrix::A),
            "B" | "b" => ('B', Matrix::B),
            "C" | "c" => ('C', Matrix::C),
            "D" | "d" => ('D', Matrix::C),
            _ => return None,
        };
        Some(Named { name, matrix })
    }

    /// How many rows, columns, threads and elements in each there are: the library is asked for one after the other until it refuses.
    fn sizes(self) -> [u32; 4] {
        let m = self.matrix;
        let until = |good: &dyn Fn(u32) -> bool| (0..).find(|&i| !good(i)).unwrap_or(u32::MAX);
        [
            until(&|i| m.holder(i, 0).is_ok()),
            until(&|i| m.holder(0, i).is_ok()),
            until(&|i| m.place(i, 0).is_ok()),
            until(&|i| m.place(0, i).is_ok()),
        ]
    }

    /// The whole matrix: in each place thread:element, under the numbers of the columns and behind those of the rows.
    pub fn drawn(self) -> String {
        let held = |row, column| self.matrix.holder(row, column).ok().map(|h: Holder| format!("{}:{}", h.thread, h.element));
        let rows = (0..).map_while(|row| {
            let cells: Vec<String> = (0..).map_while(|column| held(row, column)).collect();
            (!cells.is_empty()).then(|| (row.to_string(), cells))
        });
        let mut table: Vec<(String, Vec<String>)> = rows.collect();
        let columns = table.first().map_or(0, |(_, cells)| cells.len());
        table.insert(0, (String::new(), (0..columns).map(|column| column.to_string()).collect()));
        let width = table.iter().flat_map(|(_, cells)| cells).map(String::len).max().unwrap_or(0);
        let before = table.iter().map(|(name, _)| name.len()).max().unwrap_or(0);
        let line = |(name, cells): &(String, Vec<String>)| {
            let cells: Vec<String> = cells.iter().map(|cell| format!("{cell:>width$}")).collect();
            format!("{name:>before$}  {}\n", cells.join(" "))
        };
        table.iter().map(line).collect()
    }

    /// All elements of a thread, a line for each; and whether the thread is inside.
    pub fn thread(self, thread: &Number) -> (String, bool) {
        let lines: String =
            (0..).map(|i| self.place(thread, &Number::Small(i))).map_while(|(line, inside)| inside.then_some(line)).collect();
        if lines.is_empty() {
            let [.., threads, _] = self.sizes();
            return self.line(format!("thread {thread}"), Err(Reason::Fragment), &format!("threads {}", range(threads)));
        }
        (lines, true)
    }

    /// Where a thread's element stands, in a line; and whether it is inside.
    pub fn place(self, thread: &Number, element: &Number) -> (String, bool) {
        let found = asked(thread, element, |t, e| self.matrix.place(t, e));
        let said = found.map(|Place { row, column }| format!("row {row}, column {column}"));
        let [.., threads, elements] = self.sizes();
        let allowed = format!("elements {} in threads {}", range(elements), range(threads));
        self.line(format!("thread {thread}, element {element}"), said, &allowed)
    }

    /// Who holds a row and a column, in a line; and whether it is inside.
    pub fn holder(self, row: &Number, column: &Number) -> (String, bool) {
        let found = asked(row, column, |r, c| self.matrix.holder(r, c));
        let said = found.map(|Holder { thread, element }| format!("thread {thread}, element {element}"));
        let [rows, columns, ..] = self.sizes();
        let allowed = format!("rows {} and columns {}", range(rows), range(columns));
        self.line(format!("row {row}, column {column}"), said, &allowed)
    }

    fn line(self, what: String, said: Result<String, Reason>, allowed: &str) -> (String, bool) {
        match said {
            Ok(said) => (format!("{what}: {said}\n"), true),
            Err(reason) => (format!("{what}: outside, reason {}: {} has {allowed}\n", reason.number(), self.name), false),
        }
    }
}

/// The numbers below a count.
fn range(count: u32) -> String {
    format!("0 to {}", count.saturating_sub(1))
}

/// What the library says of two numbers. One of over 32 bits is outside as those are that it refuses.
fn asked<T>(first: &Number, second: &Number, ask: impl Fn(u32, u32) -> Result<T, Reason>) -> Result<T, Reason> {
    match (first, second) {
        (Number::Small(first), Number::Small(second)) => ask(*first, *second),
        _ => Err(Reason::Fragment),
    }
}

/// A number that was given.
#[derive(Clone, PartialEq, Eq, Debug)]
pub enum Number {
    /// Of at most 32 bits.
    Small(u32),
    /// Of more, as it is spelled.
    Large(String),
}

impl Number {
    /// The number that a text spells as in a sheet; one over 32 bits is taken as it is spelled.
    pub fn parse(text: &str) -> Result<Number, Fault> {
        match number::plain32(text) {
            Err(Fault::Large(_)) => Ok(Number::Large(text.into())),
            read => read.map(Number::Small),
        }
    }
}

impl fmt::Display for Number {
    fn fmt(&self, f: &mut fmt::Formatter<'_>) -> fmt::Result {
        match self {
            Number::Small(value) => write!(f, "{value}"),
            Number::Large(text) => f.write_str(text),
        }
    }
}
