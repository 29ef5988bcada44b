//! Reports on the pool's image on standard input.

use std::io::{self, Read, Write};

use reference::report;

fn main() -> io::Result<()> {
    let mut image = Vec::new();
    io::stdin().read_to_end(&mut image)?;
    io::stdout().write_all(&report(&image))
}
