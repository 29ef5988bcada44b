//! The program `danumrikal`: see the library.

use std::process::ExitCode;

fn main() -> ExitCode {
    ExitCode::from(command::run(std::env::args_os().skip(1)))
}
