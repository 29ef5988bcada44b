//! Whether there is a terminal, how wide it is, and whether it has colours.

use std::env;
use std::ffi::{c_int, c_ulong};
use std::io::{stdout, IsTerminal};
use std::os::fd::AsRawFd;

use crate::args::Args;
use crate::failure::Failure;

/// Where nothing tells how wide the terminal is.
const USUAL: usize = 80;

/// Whether to colour: as `--color` says, else where there is a terminal that has
/// colours and nobody set NO_COLOR.
pub fn wants_color(args: &Args) -> Result<bool, Failure> {
    let said = args.value("--color").map(|value| value.to_string_lossy());
    match said.as_deref() {
        Some("always") => Ok(true),
        Some("never") => Ok(false),
        Some("auto") | None => {
            let set = |name| env::var_os(name).is_some_and(|value| !value.is_empty());
            let dumb = env::var_os("TERM").is_none_or(|term| term == "dumb");
            Ok(stdout().is_terminal() && !set("NO_COLOR") && !dumb)
        }
        Some(_) => Err(args.usage("--color is none of auto, always, never")),
    }
}

/// How many characters a line of the terminal has.
pub fn width() -> usize {
    let told = env::var("COLUMNS").ok().and_then(|text| text.parse().ok());
    told.or_else(window)
        .filter(|&width| width > 0)
        .unwrap_or(USUAL)
}

/// `struct winsize` of `<sys/ioctl.h>`.
#[repr(C)]
#[derive(Default)]
struct Window {
    rows: u16,
    columns: u16,
    pixels: [u16; 2],
}

extern "C" {
    fn ioctl(file: c_int, request: c_ulong, ...) -> c_int;
}

const TIOCGWINSZ: c_ulong = 0x5413;

/// The columns of the window that standard output is.
fn window() -> Option<usize> {
    let mut window = Window::default();
    // SAFETY: this request writes a `struct winsize`, which lives during the call.
    let failed = unsafe { ioctl(stdout().as_raw_fd(), TIOCGWINSZ, &mut window) };
    (failed == 0).then_some(usize::from(window.columns))
}
