//! Serves the script on standard input and prints its printout.

use std::io::{self, Read, Write};

use reference::run_script;

fn main() -> io::Result<()> {
    let mut input = Vec::new();
    io::stdin().read_to_end(&mut input)?;
    io::stdout().write_all(&run_script(&input))
}
