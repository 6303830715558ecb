//! Fragments: each matrix with every thread and element, and every row and column, up to 40, and with numbers far outside; and what the
//! command draws.

use staplehorn_difftest::counts::Counts;
use staplehorn_difftest::proved;
use staplehorn_reference::fragment as reference;
use std::process::Command;

/// A way of asking: a matrix and two numbers; the reason and two numbers.
type Way = fn(u32, u32, u32) -> (u32, [u32; 2]);

fn reference_place(matrix: u32, thread: u32, element: u32) -> (u32, [u32; 2]) {
    let (reason, row, column) = reference::place(matrix, thread, element);
    (reason, [row, column])
}

fn reference_holder(matrix: u32, row: u32, column: u32) -> (u32, [u32; 2]) {
    let (reason, thread, element) = reference::holder(matrix, row, column);
    (reason, [thread, element])
}

/// 0 to 40; and numbers that a product or a remainder would bring back among them.
fn numbers() -> Vec<u32> {
    let far = (6..32).flat_map(|bit| [(1 << bit) - 1, 1 << bit, (1 << bit) + 5]);
    (0..=40).chain(far).chain([u32::MAX - 1, u32::MAX]).collect()
}

/// Both ways at all of them.
fn compare(counts: &mut Counts, place: Way, holder: Way) {
    for matrix in numbers() {
        for first in numbers() {
            for second in numbers() {
                let what = || format!("matrix {matrix}, {first} {second}");
                let theirs = reference_place(matrix, first, second);
                counts.compare("fragment place", theirs.0, place(matrix, first, second), theirs, what);
                let theirs = reference_holder(matrix, first, second);
                counts.compare("fragment holder", theirs.0, holder(matrix, first, second), theirs, what);
            }
        }
    }
}

/// Matrix, thread, element, row and column, worked out by hand from the way that the PTX ISA numbers groups and elements.
const KNOWN: [[u32; 5]; 18] = [
    [0, 0, 0, 0, 0],
    [0, 0, 1, 0, 1],
    [0, 0, 2, 8, 0],
    [0, 0, 4, 0, 8],
    [0, 0, 6, 8, 8],
    [0, 13, 5, 3, 11],
    [0, 22, 3, 13, 5],
    [0, 31, 7, 15, 15],
    [1, 0, 1, 1, 0],
    [1, 0, 2, 8, 0],
    [1, 4, 0, 0, 1],
    [1, 13, 3, 11, 3],
    [1, 31, 3, 15, 7],
    [2, 0, 1, 0, 1],
    [2, 0, 2, 8, 0],
    [2, 13, 1, 3, 3],
    [2, 22, 2, 13, 4],
    [2, 31, 3, 15, 7],
];

/// Numbers of which one is outside. Column 8 is inside A, and outside B and C.
const NO_PLACE: [[u32; 3]; 7] = [[0, 32, 0], [0, 0, 8], [1, 32, 0], [1, 0, 4], [2, 32, 0], [2, 0, 4], [3, 0, 0]];
const NO_HOLDER: [[u32; 3]; 7] = [[0, 16, 0], [0, 0, 16], [1, 16, 0], [1, 0, 8], [2, 16, 0], [2, 0, 8], [3, 0, 0]];

fn known(counts: &mut Counts, place: Way, holder: Way) {
    for [matrix, thread, element, row, column] in KNOWN {
        let what = || format!("matrix {matrix}, thread {thread}, element {element}");
        counts.compare("known place", 0, place(matrix, thread, element), (0, [row, column]), what);
        counts.compare("known holder", 0, holder(matrix, row, column), (0, [thread, element]), what);
    }
    for (rows, name, way) in [(NO_PLACE, "known place", place), (NO_HOLDER, "known holder", holder)] {
        for [matrix, first, second] in rows {
            counts.compare(name, 22, way(matrix, first, second), (22, [0, 0]), || format!("matrix {matrix}, {first} {second}"));
        }
    }
}

/// What the command draws: a line of column numbers, then for each row its number and the reference's line.
fn drawings(counts: &mut Counts, command: &str) {
    for (matrix, name) in [(reference::A, "A"), (reference::B, "B"), (reference::C, "C"), (reference::C, "D")] {
        let drawn = Command::new(command).arg(name).output().expect("the command runs");
        let drawn = String::from_utf8(drawn.stdout).expect("a drawing is text");
        let theirs = reference::drawing(matrix).expect("a matrix is drawn");
        let columns = theirs.lines().next().map_or(0, |line| line.split_whitespace().count());
        let mut wanted: String = "   ".into();
        wanted.extend((0..columns).map(|column| format!(" {column:>4}")));
        wanted.extend(theirs.lines().enumerate().map(|(row, cells)| format!("\n{row:>2}  {cells}")));
        counts.compare("drawing", 0, drawn, wanted + "\n", || name.into());
    }
}

/// `command` is the built command `fragment`.
pub fn run(command: &str) -> bool {
    let mut counts = Counts::new();
    drawings(&mut counts, command);
    known(&mut counts, reference_place, reference_holder);
    known(&mut counts, proved::fragment_place, proved::fragment_holder);
    compare(&mut counts, proved::fragment_place, proved::fragment_holder);
    // 256, 128 and 128 elements, and as many places
    let wanted = [
        ("drawing", 0, 4),
        ("known place", 0, 36),
        ("known place", 22, 14),
        ("known holder", 0, 36),
        ("known holder", 22, 14),
        ("fragment place", 0, 512),
        ("fragment place", 22, 1_000_000),
        ("fragment holder", 0, 512),
        ("fragment holder", 22, 1_000_000),
    ];
    counts.finish("fragments", &wanted)
}

#[cfg(test)]
mod tests {
    use super::*;

    fn differences(place: Way, holder: Way) -> u64 {
        let mut counts = Counts::new();
        known(&mut counts, place, holder);
        compare(&mut counts, place, holder);
        counts.differences()
    }

    #[test]
    fn the_library_agrees() {
        assert_eq!(differences(proved::fragment_place, proved::fragment_holder), 0);
    }

    /// A place that is exchanged with another, a holder that is one element off, a refusal that is not one, and figures beside a
    /// refusal are found.
    #[test]
    fn faults_are_found() {
        let places: [Way; 4] = [
            |m, t, i| proved::fragment_place(m, t, if (m, t) == (0, 9) && matches!(i / 2, 1 | 2) { i ^ 6 } else { i }),
            |m, t, i| proved::fragment_place(m, if t == 32 { 0 } else { t }, i),
            |m, t, i| proved::fragment_place(m, t, if m == 1 && i == 4 { 3 } else { i }),
            |m, t, i| {
                (proved::fragment_place(m, t, i).0, [proved::fragment_place(m, t % 32, i % 4).1[0], proved::fragment_place(m, t, i).1[1]])
            },
        ];
        for place in places {
            assert_ne!(differences(place, proved::fragment_holder), 0);
        }
        let holders: [Way; 3] = [
            |m, r, c| match proved::fragment_holder(m, r, c) {
                (0, [t, i]) if (m, r, c) == (2, 9, 3) => (0, [t, i - 1]),
                answer => answer,
            },
            |m, r, c| proved::fragment_holder(m, r, if m == 2 && c == 8 { 0 } else { c }),
            |m, r, c| proved::fragment_holder(if m == 3 { 2 } else { m }, r, c),
        ];
        for holder in holders {
            assert_ne!(differences(proved::fragment_place, holder), 0);
        }
    }
}
