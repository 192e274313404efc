//! The yearly sheet by the plain functions: `plain-figures <stream`.

use std::io::{self, BufReader};
use std::process::ExitCode;

use plain_card::figures::sheet;

/// How much is read at once.
const CHUNK: usize = 1 << 20;

fn main() -> ExitCode {
    match sheet(&mut BufReader::with_capacity(CHUNK, io::stdin().lock())) {
        Ok(sheet) => {
            print!("{sheet}");
            ExitCode::SUCCESS
        }
        Err(error) => {
            eprintln!("plain-figures: {error}");
            ExitCode::FAILURE
        }
    }
}
