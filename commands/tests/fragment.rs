//! `fragment` draws what the library answers, and says what is allowed where it refuses.

use commands::fragment::{Named, Number};
use commands::number::{Fault, MOST};
use staplehorn::{Holder, Matrix};

fn named(name: &str) -> Named {
    Named::parse(name).unwrap_or_else(|| panic!("{name}"))
}

fn number(text: &str) -> Number {
    Number::parse(text).unwrap_or_else(|fault| panic!("{text}: {fault}"))
}

#[test]
fn the_names_of_matrices() {
    for (text, name, matrix) in [("A", 'A', Matrix::A), ("B", 'B', Matrix::B), ("C", 'C', Matrix::C), ("D", 'D', Matrix::C)] {
        for text in [text.to_string(), text.to_lowercase()] {
            assert_eq!((named(&text).name, named(&text).matrix), (name, matrix), "{text}");
        }
    }
    for text in ["", "E", "e", "0", "AA", "A ", " A", "\u{391}"] {
        assert!(Named::parse(text).is_none(), "{text:?}");
    }
}

/// Each cell is what the library says of its place, each line ends in its last cell, and nothing is left out.
#[test]
fn a_drawing_has_every_place() {
    for (name, matrix, columns) in [("A", Matrix::A, 16), ("B", Matrix::B, 8), ("C", Matrix::C, 8), ("d", Matrix::C, 8)] {
        let drawn = named(name).drawn();
        let lines: Vec<&str> = drawn.lines().collect();
        assert_eq!((lines.len(), drawn.ends_with('\n')), (17, true), "{name}");
        let wide = |cells: Vec<String>| cells.iter().map(|cell| format!("{cell:>4}")).collect::<Vec<_>>().join(" ");
        assert_eq!(lines[0], format!("    {}", wide((0..columns).map(|c| c.to_string()).collect())), "{name}");
        for row in 0..16 {
            let holder = |column| matrix.holder(row, column).unwrap_or_else(|reason| panic!("{name} {row} {column}: {reason}"));
            let cell = |column| {
                let Holder { thread, element } = holder(column);
                format!("{thread}:{element}")
            };
            assert_eq!(lines[row as usize + 1], format!("{row:>2}  {}", wide((0..columns).map(cell).collect())), "{name}");
        }
    }
}

/// A line says what the library says, on both sides of each limit.
#[test]
fn lines_agree_with_the_library() {
    let (mut found, mut refused) = (0, 0);
    for (name, elements, columns) in [("A", 7, 15), ("B", 3, 7), ("C", 3, 7), ("D", 3, 7)] {
        let m = named(name);
        let numbers = || (0..40).chain([u32::MAX]);
        for (first, second) in numbers().flat_map(|a| numbers().map(move |b| (a, b))) {
            let [a, b] = [first, second].map(Number::Small);
            let place = match m.matrix.place(first, second) {
                Ok(place) => format!("row {}, column {}", place.row, place.column),
                Err(reason) => format!("outside, reason {}: {name} has elements 0 to {elements} in threads 0 to 31", reason.number()),
            };
            let inside = m.matrix.place(first, second).is_ok();
            assert_eq!(m.place(&a, &b), (format!("thread {first}, element {second}: {place}\n"), inside));
            let holder = match m.matrix.holder(first, second) {
                Ok(holder) => format!("thread {}, element {}", holder.thread, holder.element),
                Err(reason) => format!("outside, reason {}: {name} has rows 0 to 15 and columns 0 to {columns}", reason.number()),
            };
            let held = m.matrix.holder(first, second).is_ok();
            assert_eq!(m.holder(&a, &b), (format!("row {first}, column {second}: {holder}\n"), held));
            found += u32::from(inside) + u32::from(held);
            refused += u32::from(!inside) + u32::from(!held);
        }
    }
    // A has 256 places and 256 elements, the others 128 of each
    assert_eq!((found, refused), (1_280, 4 * 2 * 41 * 41 - 1_280));
}

/// A thread is its elements, one line each; or it is outside.
#[test]
fn a_thread_is_its_elements() {
    for (name, elements) in [("A", 8), ("B", 4), ("C", 4), ("D", 4)] {
        for thread in 0..32 {
            let thread = Number::Small(thread);
            let each: String = (0..elements).map(|i| named(name).place(&thread, &Number::Small(i)).0).collect();
            assert_eq!(named(name).thread(&thread), (each, true), "{name} {thread}");
        }
        for outside in ["32", "4294967295", "4294967296"] {
            let line = format!("thread {outside}: outside, reason 22: {name} has threads 0 to 31\n");
            assert_eq!(named(name).thread(&number(outside)), (line, false));
        }
    }
}

/// A number is read as in a sheet; one of over 32 bits is outside, and is said as it is spelled.
#[test]
fn numbers_of_any_size() {
    for (text, value) in [("0", 0), ("05", 5), ("0x1f", 31), ("0b101U", 5), ("4294967295", u32::MAX)] {
        assert_eq!(number(text), Number::Small(value));
    }
    let large = "0x100000000";
    for text in ["4294967296", large, "040000000000U", "18446744073709551616", &"9".repeat(MOST)] {
        assert_eq!(number(text), Number::Large(text.into()));
    }
    let (zero, large) = (number("0"), number(large));
    let place = "outside, reason 22: B has elements 0 to 3 in threads 0 to 31\n";
    let holder = "outside, reason 22: B has rows 0 to 15 and columns 0 to 7\n";
    let b = named("B");
    assert_eq!(b.place(&large, &zero), (format!("thread 0x100000000, element 0: {place}"), false));
    assert_eq!(b.place(&zero, &large), (format!("thread 0, element 0x100000000: {place}"), false));
    assert_eq!(b.holder(&large, &zero), (format!("row 0x100000000, column 0: {holder}"), false));
    assert_eq!(b.holder(&zero, &large), (format!("row 0, column 0x100000000: {holder}"), false));
    for (text, fault) in [("", Fault::Spelling), ("-1", Fault::Spelling), ("08", Fault::Octal), (&"0".repeat(MOST + 1), Fault::Long)] {
        assert_eq!(Number::parse(text), Err(fault), "{text}");
    }
}
