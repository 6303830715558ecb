//! fragment: which thread of a warp holds which element of a matrix. The library answers; this is the command line.
#![deny(clippy::undocumented_unsafe_blocks)]
#![no_main]

use commands::command::{self, complain, print, FAILED, PASSED, REFUSED};
use commands::fragment::{Named, Number};
use std::ffi::c_int;

const HELP: &str = "\
usage: fragment MATRIX
       fragment MATRIX THREAD
       fragment MATRIX THREAD:ELEMENT
       fragment MATRIX ROW,COLUMN
       fragment MATRIX NUMBER NUMBER

Says which thread of a warp holds which element of a matrix of mma.m16n8k16. A and B are f16; C and D are f16 or f32.
A matrix alone is printed whole, a line for each row, with thread:element in each place. A thread: where each of its elements
stands. THREAD:ELEMENT: where it stands. ROW,COLUMN: who holds it. Two numbers are read both ways, and both lines are printed.

MATRIX  A, B, C or D, in either case; D has the layout of C
THREAD  %laneid, 0 to 31
ELEMENT its number in the PTX ISA, from 0: 3 is a3, b3, c3 or d3. Two elements of f16 share a register: i is in register i / 2
NUMBER  as in a sheet: decimal, 0x and hex digits, 0b and binary digits, or 0 and octal digits; a U may follow; no expression

  fragment C
  fragment B 7
  fragment A 5:3
  fragment A 9,3

Exit status: 0 answered, 1 nothing that was asked for is inside the matrix, 2 the command line is wrong, or the answer could
not be written.
";

/// An answer: what is printed, and whether something was found.
struct Said {
    text: String,
    good: bool,
}

impl From<(String, bool)> for Said {
    fn from((text, good): (String, bool)) -> Said {
        Said { text, good }
    }
}

fn number(text: &str) -> Result<Number, String> {
    Number::parse(text).map_err(|fault| format!("{fault}: '{text}'"))
}

fn both(matrix: Named, first: &Number, second: &Number) -> Said {
    let (place, stands) = matrix.place(first, second);
    let (holder, held) = matrix.holder(first, second);
    Said { text: place + &holder, good: stands || held }
}

/// Of a matrix one thing: an element, a place, or a thread.
fn one(matrix: Named, text: &str) -> Result<Said, String> {
    if let Some((thread, element)) = text.split_once(':') {
        return Ok(matrix.place(&number(thread)?, &number(element)?).into());
    }
    if let Some((row, column)) = text.split_once(',') {
        return Ok(matrix.holder(&number(row)?, &number(column)?).into());
    }
    Ok(matrix.thread(&number(text)?).into())
}

fn answer(args: &[&str]) -> Result<Said, String> {
    let matrix = |text: &str| Named::parse(text).ok_or_else(|| format!("no matrix: '{text}'"));
    match args {
        ["--help" | "-h"] => Ok(Said { text: HELP.into(), good: true }),
        ["--version"] => Ok(Said { text: command::version("fragment"), good: true }),
        [name] => Ok(Said { text: matrix(name)?.drawn(), good: true }),
        [name, text] => one(matrix(name)?, text),
        [name, first, second] => Ok(both(matrix(name)?, &number(first)?, &number(second)?)),
        _ => Err("a matrix, and what is asked of it".into()),
    }
}

#[no_mangle]
pub extern "C" fn main() -> c_int {
    command::ignore_sigpipe();
    let args: Vec<String> = std::env::args_os().skip(1).map(|a| a.to_string_lossy().into_owned()).collect();
    let args: Vec<&str> = args.iter().map(String::as_str).collect();
    match answer(&args) {
        Ok(said) => print("fragment", said.text.as_bytes()).max(if said.good { PASSED } else { REFUSED }),
        Err(fault) => {
            complain("fragment", &format!("{fault}; fragment --help shows the usage"));
            FAILED
        }
    }
}
