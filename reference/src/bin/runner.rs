//! Prints what the program `runner` must print for its input, and behaves as it
//! does where reading or writing fails. `tests/replay` and `streams` can be tried
//! with it.

// Rust's own entry puts /dev/null in the place of a closed standard input or output,
// so that neither would be noticed.
#![no_main]

use std::fs::File;
use std::io::{self, Read, Write};
use std::os::fd::AsFd;

use reference::runner::{run, MOST_BYTES};

#[no_mangle]
extern "C" fn main() -> i32 {
    let failed = match read() {
        Err(error) => Some(("input", error)),
        Ok(input) => write(&run(&input)).err().map(|error| ("output", error)),
    };
    if let Some((stream, error)) = failed {
        eprintln!("runner: standard {stream}: {error}");
    }
    0
}

/// The bytes that are looked at. Standard input is read as a file, since its own
/// handle reads ahead.
fn read() -> io::Result<Vec<u8>> {
    let file = File::from(io::stdin().as_fd().try_clone_to_owned()?);
    let mut input = Vec::new();
    file.take(MOST_BYTES as u64).read_to_end(&mut input)?;
    Ok(input)
}

/// Standard output is written as a file too, so that no failure is kept back.
fn write(lines: &[u8]) -> io::Result<()> {
    let mut file = File::from(io::stdout().as_fd().try_clone_to_owned()?);
    file.write_all(lines)
}
