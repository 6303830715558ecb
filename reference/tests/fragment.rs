//! Both directions of the fragment maps, and the drawings.

use staplehorn_reference::fragment::*;

const REFUSED: (u32, u32, u32) = (22, 0, 0);

/// Number, elements of a thread, rows, columns.
const MATRICES: [(u32, u32, u32, u32); 3] = [(0, 8, 16, 16), (1, 4, 16, 8), (2, 4, 16, 8)];

/// 0 to 40, then numbers that would look small if bits were lost.
fn numbers() -> Vec<u32> {
    let mut all: Vec<u32> = (0..=40).collect();
    for power in [1 << 8, 1 << 16, 1 << 30, 1 << 31] {
        all.extend(power - 3..=power + 3);
    }
    all.extend(u32::MAX - 40..=u32::MAX);
    all
}

/// 0 to 4, then numbers far off.
fn matrices() -> Vec<u32> {
    let mut all: Vec<u32> = (0..=4).collect();
    all.extend([256, 257, 258, 1 << 16, (1 << 31) - 1, 1 << 31, (1 << 31) + 1, (1 << 31) + 2]);
    all.extend([u32::MAX - 2, u32::MAX - 1, u32::MAX]);
    all
}

/// Each list has thread, element, row, column.
fn check_by_hand(matrix: u32, list: &[[u32; 4]]) {
    for &[thread, element, row, column] in list {
        assert_eq!(place(matrix, thread, element), (0, row, column), "thread {thread}, element {element}");
        assert_eq!(holder(matrix, row, column), (0, thread, element), "row {row}, column {column}");
    }
}

// Worked out by hand.

#[test]
fn a_by_hand() {
    check_by_hand(
        0,
        &[
            [0, 0, 0, 0],
            [0, 1, 0, 1],
            [0, 2, 8, 0],
            [0, 3, 8, 1],
            [0, 4, 0, 8],
            [0, 5, 0, 9],
            [0, 6, 8, 8],
            [0, 7, 8, 9],
            [3, 0, 0, 6],
            [3, 7, 8, 15],
            [4, 0, 1, 0],
            [4, 7, 9, 9],
            [17, 0, 4, 2],
            [17, 3, 12, 3],
            [17, 5, 4, 11],
            [17, 6, 12, 10],
            [28, 0, 7, 0],
            [28, 7, 15, 9],
            [31, 0, 7, 6],
            [31, 1, 7, 7],
            [31, 2, 15, 6],
            [31, 3, 15, 7],
            [31, 4, 7, 14],
            [31, 5, 7, 15],
            [31, 6, 15, 14],
            [31, 7, 15, 15],
        ],
    );
}

#[test]
fn b_by_hand() {
    check_by_hand(
        1,
        &[
            [0, 0, 0, 0],
            [0, 1, 1, 0],
            [0, 2, 8, 0],
            [0, 3, 9, 0],
            [3, 0, 6, 0],
            [3, 3, 15, 0],
            [4, 0, 0, 1],
            [4, 3, 9, 1],
            [17, 1, 3, 4],
            [17, 2, 10, 4],
            [28, 0, 0, 7],
            [28, 3, 9, 7],
            [31, 0, 6, 7],
            [31, 1, 7, 7],
            [31, 2, 14, 7],
            [31, 3, 15, 7],
        ],
    );
}

#[test]
fn c_by_hand() {
    check_by_hand(
        2,
        &[
            [0, 0, 0, 0],
            [0, 1, 0, 1],
            [0, 2, 8, 0],
            [0, 3, 8, 1],
            [3, 0, 0, 6],
            [3, 3, 8, 7],
            [4, 0, 1, 0],
            [4, 3, 9, 1],
            [17, 1, 4, 3],
            [17, 2, 12, 2],
            [28, 0, 7, 0],
            [28, 3, 15, 1],
            [31, 0, 7, 6],
            [31, 1, 7, 7],
            [31, 2, 15, 6],
            [31, 3, 15, 7],
        ],
    );
}

// The limits on both sides.

#[test]
fn limits_of_thread() {
    assert_eq!(place(0, 31, 0), (0, 7, 6));
    assert_eq!(place(1, 31, 0), (0, 6, 7));
    assert_eq!(place(2, 31, 0), (0, 7, 6));
    for matrix in 0..3 {
        assert_eq!(place(matrix, 32, 0), REFUSED);
        assert_eq!(place(matrix, u32::MAX, 0), REFUSED);
    }
}

#[test]
fn limits_of_element() {
    assert_eq!(place(0, 0, 7), (0, 8, 9));
    assert_eq!(place(0, 0, 8), REFUSED);
    assert_eq!(place(1, 0, 3), (0, 9, 0));
    assert_eq!(place(1, 0, 4), REFUSED);
    assert_eq!(place(2, 0, 3), (0, 8, 1));
    assert_eq!(place(2, 0, 4), REFUSED);
    // in the corner of the last thread too
    assert_eq!(place(0, 31, 7), (0, 15, 15));
    assert_eq!(place(0, 31, 8), REFUSED);
    assert_eq!(place(0, 32, 7), REFUSED);
    assert_eq!(place(1, 31, 3), (0, 15, 7));
    assert_eq!(place(1, 31, 4), REFUSED);
    assert_eq!(place(1, 32, 3), REFUSED);
    assert_eq!(place(2, 31, 3), (0, 15, 7));
    assert_eq!(place(2, 31, 4), REFUSED);
    assert_eq!(place(2, 32, 3), REFUSED);
}

#[test]
fn limits_of_row() {
    assert_eq!(holder(0, 15, 0), (0, 28, 2));
    assert_eq!(holder(1, 15, 0), (0, 3, 3));
    assert_eq!(holder(2, 15, 0), (0, 28, 2));
    for matrix in 0..3 {
        assert_eq!(holder(matrix, 16, 0), REFUSED);
        assert_eq!(holder(matrix, u32::MAX, 0), REFUSED);
    }
}

#[test]
fn limits_of_column() {
    assert_eq!(holder(0, 0, 15), (0, 3, 5));
    assert_eq!(holder(0, 0, 16), REFUSED);
    assert_eq!(holder(1, 0, 7), (0, 28, 0));
    assert_eq!(holder(1, 0, 8), REFUSED);
    assert_eq!(holder(2, 0, 7), (0, 3, 1));
    assert_eq!(holder(2, 0, 8), REFUSED);
    // A is wider than the others
    assert_eq!(holder(0, 0, 7), (0, 3, 1));
    assert_eq!(holder(0, 0, 8), (0, 0, 4));
    // in the last corner too
    assert_eq!(holder(0, 15, 15), (0, 31, 7));
    assert_eq!(holder(0, 15, 16), REFUSED);
    assert_eq!(holder(0, 16, 15), REFUSED);
    assert_eq!(holder(1, 15, 7), (0, 31, 3));
    assert_eq!(holder(1, 15, 8), REFUSED);
    assert_eq!(holder(1, 16, 7), REFUSED);
    assert_eq!(holder(2, 15, 7), (0, 31, 3));
    assert_eq!(holder(2, 15, 8), REFUSED);
    assert_eq!(holder(2, 16, 7), REFUSED);
}

#[test]
fn limits_of_matrix() {
    assert_eq!((A, B, C), (0, 1, 2));
    for matrix in matrices() {
        let known = matrix <= 2;
        let want = if known { (0, 0, 0) } else { REFUSED };
        assert_eq!(place(matrix, 0, 0), want, "matrix {matrix}");
        assert_eq!(holder(matrix, 0, 0), want, "matrix {matrix}");
        assert_eq!(drawing(matrix).is_some(), known, "matrix {matrix}");
    }
}

// All inputs.

#[test]
fn holder_undoes_place() {
    let numbers = numbers();
    for matrix in matrices() {
        let known = MATRICES.iter().find(|known| known.0 == matrix);
        let mut good = 0;
        for &thread in &numbers {
            for &element in &numbers {
                let (reason, row, column) = place(matrix, thread, element);
                let inside = known.is_some_and(|&(_, elements, _, _)| thread <= 31 && element < elements);
                if inside {
                    assert_eq!(reason, 0, "{matrix} {thread} {element}");
                    assert_eq!(holder(matrix, row, column), (0, thread, element), "{matrix} {thread} {element}");
                    good += 1;
                } else {
                    assert_eq!((reason, row, column), REFUSED, "{matrix} {thread} {element}");
                }
            }
        }
        assert_eq!(good, [256, 128, 128].get(matrix as usize).copied().unwrap_or(0));
    }
}

#[test]
fn place_undoes_holder() {
    let numbers = numbers();
    for matrix in matrices() {
        let known = MATRICES.iter().find(|known| known.0 == matrix);
        let mut good = 0;
        for &row in &numbers {
            for &column in &numbers {
                let (reason, thread, element) = holder(matrix, row, column);
                let inside = known.is_some_and(|&(_, _, rows, columns)| row < rows && column < columns);
                if inside {
                    assert_eq!(reason, 0, "{matrix} {row} {column}");
                    assert_eq!(place(matrix, thread, element), (0, row, column), "{matrix} {row} {column}");
                    good += 1;
                } else {
                    assert_eq!((reason, thread, element), REFUSED, "{matrix} {row} {column}");
                }
            }
        }
        assert_eq!(good, [256, 128, 128].get(matrix as usize).copied().unwrap_or(0));
    }
}

/// Counts only what `place` gives.
#[test]
fn every_place_is_met_once() {
    for (matrix, elements, rows, columns) in MATRICES {
        let mut met = vec![0; (rows * columns) as usize];
        for thread in 0..32 {
            for element in 0..elements {
                let (reason, row, column) = place(matrix, thread, element);
                assert!(reason == 0 && row < rows && column < columns, "{matrix} {thread} {element}");
                met[(row * columns + column) as usize] += 1;
            }
        }
        assert!(met.iter().all(|&times| times == 1), "{matrix} {met:?}");
    }
}

/// Counts only what `holder` gives.
#[test]
fn every_element_is_met_once() {
    for (matrix, elements, rows, columns) in MATRICES {
        let mut met = vec![0; (32 * elements) as usize];
        for row in 0..rows {
            for column in 0..columns {
                let (reason, thread, element) = holder(matrix, row, column);
                assert!(reason == 0 && thread < 32 && element < elements, "{matrix} {row} {column}");
                met[(thread * elements + element) as usize] += 1;
            }
        }
        assert!(met.iter().all(|&times| times == 1), "{matrix} {met:?}");
    }
}

// The rule has two wordings. `place` follows one; this is the other.

fn other_wording(matrix: u32, t: u32, i: u32) -> (u32, u32) {
    let g = t / 4;
    let p = t - 4 * g;
    let mut row;
    let mut column;
    match matrix {
        0 => {
            row = if [0, 1, 4, 5].contains(&i) { g } else { g + 8 };
            column = 2 * p + i % 2;
            if i >= 4 {
                column += 8;
            }
        }
        1 => {
            row = 2 * p + i % 2;
            if i >= 2 {
                row += 8;
            }
            column = g;
        }
        _ => {
            row = match i {
                0 | 1 => g,
                2 | 3 => g + 8,
                _ => unreachable!(),
            };
            column = 2 * p + i % 2;
        }
    }
    (row, column)
}

#[test]
fn both_wordings_agree() {
    let mut entries = 0;
    for (matrix, elements, _, _) in MATRICES {
        for thread in 0..32 {
            for element in 0..elements {
                let (row, column) = other_wording(matrix, thread, element);
                assert_eq!(place(matrix, thread, element), (0, row, column), "{matrix} {thread} {element}");
                entries += 1;
            }
        }
    }
    assert_eq!(entries, 512);
}

// The drawings; lines are written by hand.

fn first_and_last_line(matrix: u32) -> (String, String) {
    let text = drawing(matrix).unwrap();
    let first = text.lines().next().unwrap();
    let last = text.lines().last().unwrap();
    (first.to_string(), last.to_string())
}

#[test]
fn drawing_of_a() {
    let (first, last) = first_and_last_line(0);
    assert_eq!(first, " 0:0  0:1  1:0  1:1  2:0  2:1  3:0  3:1  0:4  0:5  1:4  1:5  2:4  2:5  3:4  3:5");
    assert_eq!(last, "28:2 28:3 29:2 29:3 30:2 30:3 31:2 31:3 28:6 28:7 29:6 29:7 30:6 30:7 31:6 31:7");
}

#[test]
fn drawing_of_b() {
    let (first, last) = first_and_last_line(1);
    assert_eq!(first, " 0:0  4:0  8:0 12:0 16:0 20:0 24:0 28:0");
    assert_eq!(last, " 3:3  7:3 11:3 15:3 19:3 23:3 27:3 31:3");
}

#[test]
fn drawing_of_c() {
    let (first, last) = first_and_last_line(2);
    assert_eq!(first, " 0:0  0:1  1:0  1:1  2:0  2:1  3:0  3:1");
    assert_eq!(last, "28:2 28:3 29:2 29:3 30:2 30:3 31:2 31:3");
}

/// Every cell is read back and asked of `place`; drawing goes by `holder`.
#[test]
fn drawings_show_every_place() {
    for (matrix, _, rows, columns) in MATRICES {
        let text = drawing(matrix).unwrap();
        assert!(text.ends_with('\n'));
        let lines: Vec<&str> = text.lines().collect();
        assert_eq!(lines.len() as u32, rows);
        for (row, line) in lines.iter().enumerate() {
            // four wide, with one space between
            assert_eq!(line.len() as u32, 5 * columns - 1, "{line}");
            for column in 0..columns as usize {
                let cell = &line[5 * column..5 * column + 4];
                let (thread, element) = cell.trim_start().split_once(':').unwrap();
                let found = place(matrix, thread.parse().unwrap(), element.parse().unwrap());
                assert_eq!(found, (0, row as u32, column as u32), "{line}");
                if column != 0 {
                    assert_eq!(line.as_bytes()[5 * column - 1], b' ', "{line}");
                }
            }
        }
    }
}
