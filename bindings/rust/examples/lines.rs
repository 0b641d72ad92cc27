//! Does the lines of the standard input, and prints what they print, as `kaltewi script` does.

use std::io::{stdin, BufRead};

fn main() -> Result<(), Box<dyn std::error::Error>> {
    let mut core = kaltewi::Core::open()?;
    for line in stdin().lock().lines() {
        match core.line(line?) {
            Ok(printed) | Err(kaltewi::Error::BadLine(printed)) => print!("{printed}"),
            Err(error) => return Err(error.into()),
        }
    }
    Ok(())
}
