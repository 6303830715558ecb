//! Which thread of a warp holds which element of the three matrices of an mma of
//! 16 by 8 by 16 on f16.
//!
//! `place` and `holder` are worked out apart from each other: neither calls the
//! other, and they share only the numbers of the matrices and the refusal.

/// No such matrix, thread, element, row or column.
pub const OUTSIDE: u32 = 22;

// The matrices by number.
pub const A: u32 = 0;
pub const B: u32 = 1;
pub const C: u32 = 2;

const THREADS: u32 = 32;

// Both figures are 0 beside a refusal.
const REFUSED: (u32, u32, u32) = (OUTSIDE, 0, 0);

/// How many elements of the matrix each thread holds.
fn elements(matrix: u32) -> Option<u32> {
    match matrix {
        A => Some(8),
        B | C => Some(4),
        _ => None,
    }
}

/// Rows and columns: A is m by k, B is k by n, C is m by n.
fn size(matrix: u32) -> Option<(u32, u32)> {
    let (m, n, k) = (16, 8, 16);
    match matrix {
        A => Some((m, k)),
        B => Some((k, n)),
        C => Some((m, n)),
        _ => None,
    }
}

/// Reason, row and column of an element of a thread.
pub fn place(matrix: u32, thread: u32, element: u32) -> (u32, u32, u32) {
    let Some(elements) = elements(matrix) else {
        return REFUSED;
    };
    if thread >= THREADS || element >= elements {
        return REFUSED;
    }
    // eight groups of four threads
    let group = thread >> 2;
    let in_group = thread % 4;
    // elements come in neighbouring pairs; this is the way along the pairs
    let along = in_group * 2 + (element & 1);
    let (row, column) = match matrix {
        A => {
            let row = if element < 2 || (4..6).contains(&element) { group } else { group + 8 };
            let column = if element < 4 { along } else { along + 8 };
            (row, column)
        }
        B => {
            let row = if element < 2 { along } else { along + 8 };
            (row, group)
        }
        _ => {
            let row = if element < 2 { group } else { group + 8 };
            (row, along)
        }
    };
    (0, row, column)
}

/// Reason, thread and element that hold a row and column.
///
/// A matrix is cut into blocks of 8 by 8, and each thread has two neighbours of
/// every block. So the place in the block tells the thread and which of the two,
/// and the block tells how many pairs the thread has before it.
pub fn holder(matrix: u32, row: u32, column: u32) -> (u32, u32, u32) {
    let Some((rows, columns)) = size(matrix) else {
        return REFUSED;
    };
    if row >= rows || column >= columns {
        return REFUSED;
    }
    // the block: upper or lower, left or right
    let (lower, right) = (row / 8, column / 8);
    // the place in the block
    let (y, x) = (row % 8, column % 8);
    let (thread, pair, second) = match matrix {
        // pairs lie in a row; blocks go down first, then right
        A => (4 * y + x / 2, lower + 2 * right, x % 2),
        // pairs lie in a column; blocks go down
        B => (4 * x + y / 2, lower, y % 2),
        // pairs lie in a row; blocks go down
        _ => (4 * y + x / 2, lower, x % 2),
    };
    (0, thread, 2 * pair + second)
}

/// The matrix as text: a line for each row, in it `thread:element` for each
/// column, four wide, with a space between. `None` when there is no such matrix.
pub fn drawing(matrix: u32) -> Option<String> {
    let (rows, columns) = size(matrix)?;
    let mut text = String::new();
    for row in 0..rows {
        for column in 0..columns {
            if column != 0 {
                text.push(' ');
            }
            let (_, thread, element) = holder(matrix, row, column);
            let cell = format!("{thread}:{element}");
            text.push_str(&format!("{cell:>4}"));
        }
        text.push('\n');
    }
    Some(text)
}
