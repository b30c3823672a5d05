//! The stored images and calls of crate `cases`, made by the reference: its standard input, or what
//! it must print.

use caisson_tests::stored;
use std::io::{self, Write};
use std::process::ExitCode;

fn main() -> io::Result<ExitCode> {
    let bytes = match std::env::args().nth(1).as_deref() {
        Some("input") => stored::input(),
        Some("output") => stored::output().into_bytes(),
        _ => {
            eprintln!("usage: stored_cases input|output");
            return Ok(ExitCode::from(2));
        }
    };
    io::stdout().write_all(&bytes)?;
    Ok(ExitCode::SUCCESS)
}
