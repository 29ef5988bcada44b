//! Standard output.

use std::io::{self, Write};

use crate::failure::{reason, Failure};

/// Prints a text whole. A reader that has had enough, as `head` has, is no
/// failure.
pub fn print(text: &str) -> Result<(), Failure> {
    match write(text) {
        Err(error) if error.kind() == io::ErrorKind::BrokenPipe => Ok(()),
        Err(error) => Err(Failure::io("standard output", &error)),
        Ok(()) => Ok(()),
    }
}

/// Prints what was done to a file. Where this fails it is the more important to
/// tell: the file is changed.
pub fn print_done(text: &str) -> Result<(), Failure> {
    write(text).map_err(|error| {
        let told = text.trim_end().replace('\n', ", ");
        Failure::file(
            format!("standard output: {}", reason(&error)),
            format!("the file was changed nevertheless, and the answer is: {told}"),
        )
    })
}

fn write(text: &str) -> io::Result<()> {
    let mut out = io::stdout().lock();
    out.write_all(text.as_bytes())?;
    out.flush()
}
