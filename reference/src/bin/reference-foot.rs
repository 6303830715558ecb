//! Reads a sheet from standard input and prints its report. The exit status is 0
//! when the sheet passed, 1 when it was refused, 2 when it could not be read.

use std::io::{self, Read, Write};
use std::process::ExitCode;

use staplehorn_reference::report::report;

fn main() -> ExitCode {
    match foot() {
        Ok(true) => ExitCode::SUCCESS,
        Ok(false) => ExitCode::from(1),
        Err(error) => {
            eprintln!("reference-foot: {error}");
            ExitCode::from(2)
        }
    }
}

/// Did the sheet pass?
fn foot() -> io::Result<bool> {
    let mut sheet = Vec::new();
    io::stdin().read_to_end(&mut sheet)?;
    let text = report(&sheet);
    io::stdout().write_all(&text)?;
    Ok(text.starts_with(b"0\t"))
}
