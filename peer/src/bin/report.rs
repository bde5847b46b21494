//! This program prints the peer's report of a night's file, named as its argument or given on standard input.

use peer::report::{report, ReportOf02};
use std::io::{self, Read, Write};
use std::process::ExitCode;

fn main() -> ExitCode {
    match file() {
        Ok(bytes) if io::stdout().write_all(&report(&ReportOf02, &bytes)).is_ok() => ExitCode::SUCCESS,
        Ok(_) => ExitCode::from(2),
        Err(error) => {
            eprintln!("report: {error}");
            ExitCode::from(2)
        }
    }
}

fn file() -> io::Result<Vec<u8>> {
    if let Some(name) = std::env::args_os().nth(1) {
        return std::fs::read(name);
    }
    let mut bytes = Vec::new();
    io::stdin().read_to_end(&mut bytes)?;
    Ok(bytes)
}
