//! Fragments: which thread of a warp holds which element of a matrix of `mma.m16n8k16`. A and B are f16, C and D f16 or f32.

use crate::c;
use crate::Reason;

/// The matrices of the mma. D has the layout of C: ask for C.
#[derive(Clone, Copy, PartialEq, Eq, Hash, Debug)]
pub enum Matrix {
    /// 16 rows, 16 columns; 8 elements in each of the 32 threads.
    A,
    /// 16 rows, which go along K, and 8 columns; 4 elements in each.
    B,
    /// 16 rows, 8 columns; 4 elements in each.
    C,
}

/// Where an element stands, from 0.
#[derive(Clone, Copy, PartialEq, Eq, Hash, Debug)]
pub struct Place {
    pub row: u32,
    pub column: u32,
}

/// Who holds an element: the thread in its warp (`%laneid`), and which of its elements, as the PTX ISA numbers them (a0, a1, ..).
/// Two elements of f16 share a register: element i is in register i / 2, the even one in the lower half.
#[derive(Clone, Copy, PartialEq, Eq, Hash, Debug)]
pub struct Holder {
    pub thread: u32,
    pub element: u32,
}

impl Matrix {
    /// Where a thread's element stands, or `Fragment`: a thread over 31, or an element past the thread's last.
    ///
    /// ```
    /// use staplehorn::{Holder, Matrix, Place, Reason};
    /// assert_eq!(Matrix::A.place(5, 3), Ok(Place { row: 9, column: 3 }));
    /// assert_eq!(Matrix::A.holder(9, 3), Ok(Holder { thread: 5, element: 3 }));
    /// assert_eq!(Matrix::C.place(5, 4), Err(Reason::Fragment));
    /// ```
    pub fn place(self, thread: u32, element: u32) -> Result<Place, Reason> {
        let mut place = [0; c::PLACE_FIELDS];
        // SAFETY: the pointer is that of an array of the header's size.
        Reason::check(unsafe { c::staplehorn_fragment_place(self as u32, thread, element, &mut place) })?;
        let [row, column] = place;
        Ok(Place { row, column })
    }

    /// Who holds the element of a row and a column, or `Fragment`: a row or a column outside the matrix.
    pub fn holder(self, row: u32, column: u32) -> Result<Holder, Reason> {
        let mut holder = [0; c::HOLDER_FIELDS];
        // SAFETY: the pointer is that of an array of the header's size.
        Reason::check(unsafe { c::staplehorn_fragment_holder(self as u32, row, column, &mut holder) })?;
        let [thread, element] = holder;
        Ok(Holder { thread, element })
    }
}
