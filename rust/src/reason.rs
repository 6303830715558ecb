//! The reasons for which something is refused.

use std::fmt;

/// Why something is refused. `docs/FORMAT.md` has an example of each; `number` is what the report prints.
#[derive(Clone, Copy, PartialEq, Eq, Hash, Debug)]
#[non_exhaustive]
pub enum Reason {
    /// 1
    Size,
    /// 2
    Layout,
    /// 3
    Form,
    /// 4
    Number,
    /// 5
    Registers,
    /// 6
    Name,
    /// 7
    Values,
    /// 8
    Warp,
    /// 9
    Columns,
    /// 10
    Relinquished,
    /// 11
    Space,
    /// 12
    Descriptor,
    /// 13
    ShapeM,
    /// 14
    Cells,
    /// 15
    Exit,
    /// 16
    Starts,
    /// 18, asked directly after 15
    Outstanding,
    /// 19
    Room,
    /// 20
    ShapeN,
    /// 21
    Types,
    /// 22
    Fragment,
    /// A number that this version of the crate does not know.
    Other(u32),
}

/// Each reason with its number and a sentence.
const TABLE: [(Reason, u32, &str); 21] = [
    (Reason::Size, 1, "the sheet has over 65,536 bytes or 4,096 lines"),
    (Reason::Layout, 2, "line 1 is not the header, or a line's layout is wrong"),
    (Reason::Form, 3, "the statement matches no form"),
    (Reason::Number, 4, "a number is out of range"),
    (Reason::Registers, 5, "N is over the largest of its shape, or the count of registers differs"),
    (Reason::Name, 6, "a name is unbound, of the wrong sort or width, or taken"),
    (Reason::Values, 7, "a 129th value name is bound"),
    (Reason::Warp, 8, "the warp is wrong, or the lane is not the warp's"),
    (Reason::Columns, 9, "the request is illegal, or the size of a dealloc differs"),
    (Reason::Relinquished, 10, "an alloc follows relinquish"),
    (Reason::Space, 11, "no free run of that length starts at a multiple of 32"),
    (Reason::Descriptor, 12, "a descriptor has no reading under the opcode"),
    (Reason::ShapeM, 13, "the descriptor's M is not listed"),
    (Reason::Cells, 14, "the lane of an mma is not 0, or columns go past the end of the allocation"),
    (Reason::Exit, 15, "exit while columns are held, a line after exit, or no exit"),
    (Reason::Starts, 16, "the lent list has fewer places than there are allocs"),
    (Reason::Outstanding, 18, "dealloc while a load or store of any warp is outstanding on its allocation"),
    (Reason::Room, 19, "the lent room is too short"),
    (Reason::ShapeN, 20, "the descriptor's N is not listed"),
    (Reason::Types, 21, "the descriptor's types are not listed"),
    (Reason::Fragment, 22, "the matrix, thread, element, row or column is outside the fragment"),
];

impl Reason {
    /// The reason of a number: none for 0.
    pub fn from_number(number: u32) -> Option<Reason> {
        let known = TABLE.iter().find(|row| row.1 == number);
        match number {
            0 => None,
            _ => Some(known.map_or(Reason::Other(number), |row| row.0)),
        }
    }

    /// The published number.
    pub fn number(self) -> u32 {
        match self {
            Reason::Other(number) => number,
            known => TABLE.iter().find(|row| row.0 == known).map_or(0, |row| row.1),
        }
    }

    /// `Ok` for 0, else the reason.
    pub fn check(number: u32) -> Result<(), Reason> {
        Reason::from_number(number).map_or(Ok(()), Err)
    }
}

impl fmt::Display for Reason {
    fn fmt(&self, f: &mut fmt::Formatter<'_>) -> fmt::Result {
        match TABLE.iter().find(|row| row.0 == *self) {
            Some(row) => f.write_str(row.2),
            None => write!(f, "reason {}", self.number()),
        }
    }
}

impl std::error::Error for Reason {}
