//! The program: what it prints and its exit status.

use std::io::Write;
use std::process::{Command, Stdio};

use staplehorn_reference::entries::{all, sheet};

/// What is printed for a sheet, and the exit status.
fn foot(sheet: &[u8]) -> (String, Option<i32>) {
    let mut child = Command::new(env!("CARGO_BIN_EXE_reference-foot")).stdin(Stdio::piped()).stdout(Stdio::piped()).spawn().unwrap();
    child.stdin.take().unwrap().write_all(sheet).unwrap();
    let done = child.wait_with_output().unwrap();
    (String::from_utf8(done.stdout).unwrap(), done.status.code())
}

#[test]
fn a_pass_prints_every_holding() {
    let entries = all();
    let whole = entries.iter().find(|entry| entry.name == "given-whole").unwrap();
    let want = "0\t10\t0\t0\t96\nt0\t0\t64\nt1\t64\t32\nt2\t0\t32\n";
    assert_eq!(foot(&whole.sheet), (want.into(), Some(0)));
}

#[test]
fn a_name_is_printed_for_each_of_its_allocs() {
    let twice = sheet(&[
        "0|@alloc [t], 32;",
        "0|@alloc [u], 32;",
        "0|@dealloc t, 32;",
        "0|@alloc [t], 0x40;",
        "0|@dealloc u, 32;",
        "0|@dealloc t, 64;",
        "0|exit;",
    ]);
    assert_eq!(foot(&twice), ("0\t8\t0\t0\t96\nt\t0\t32\nu\t32\t32\nt\t64\t64\n".into(), Some(0)));
}

#[test]
fn columns_are_printed_in_decimal() {
    let spelled = sheet(&[
        "0|@alloc [t], 0b100000;",
        "0|@alloc [u], 0100U;",
        "0|@dealloc t, 040;",
        "0|@alloc [v], 0X20U;",
        "0|@dealloc u, 64U;",
        "0|@dealloc v, 0B100000U;",
        "0|exit;",
    ]);
    assert_eq!(foot(&spelled), ("0\t8\t0\t0\t96\nt\t0\t32\nu\t32\t64\nv\t0\t32\n".into(), Some(0)));
    let octal = sheet(&["0|@alloc [t], 064;"]);
    assert_eq!(foot(&octal), ("9\t2\t52\t0\t0\n".into(), Some(1)));
}

#[test]
fn a_pass_without_allocs_prints_one_line() {
    assert_eq!(foot(&sheet(&["0|exit;"])), ("0\t2\t0\t0\t0\n".into(), Some(0)));
}

#[test]
fn a_refusal_prints_one_line() {
    let held = sheet(&["0|@alloc [t], 32;", "0|exit;"]);
    assert_eq!(foot(&held), ("15\t3\t1\t32\t32\n".into(), Some(1)));
    let outstanding = all().into_iter().find(|entry| entry.name == "given-whole-without-wait").unwrap();
    assert_eq!(foot(&outstanding.sheet), ("18\t7\t3\t64\t96\n".into(), Some(1)));
    assert_eq!(foot(b""), ("2\t1\t1\t0\t0\n".into(), Some(1)));
}

#[test]
fn too_many_bytes_are_seen() {
    assert_eq!(foot(&vec![b'\n'; 70_000]), ("1\t0\t0\t0\t0\n".into(), Some(1)));
    assert_eq!(foot(&vec![b'x'; 65_537]), ("1\t0\t0\t0\t0\n".into(), Some(1)));
    assert_eq!(foot(&vec![b'x'; 65_536]), ("2\t1\t1\t0\t0\n".into(), Some(1)));
}

#[test]
fn the_list_is_always_long_enough() {
    let mut lines = Vec::new();
    for _ in 0..600 {
        lines.extend(["0|@alloc[t],32;", "0|@dealloc t,32;"]);
    }
    lines.push("0|exit;");
    let (text, status) = foot(&sheet(&lines));
    assert_eq!(status, Some(0));
    assert_eq!(text.lines().count(), 601);
    assert!(text.starts_with("0\t1202\t0\t0\t32\nt\t0\t32\n"));
}
