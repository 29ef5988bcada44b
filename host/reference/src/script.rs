//! The script program: lines of takes and gives, served by a fresh pool.

use crate::layout::{Header, Layout, PageNo, PageRecord, FREE_FIRST};
use crate::pool::{alloc, format, free};
use crate::refusal::Refusal;
use crate::view::Call;

/// The longest script that is served, in bytes.
const MAX_SCRIPT: usize = 12_288;

/// Length of the script's pool: twelve pages of edition 1.
const POOL_BYTES: usize = 49_496;

/// Serves a script and answers its whole printout.
pub fn run_script(input: &[u8]) -> Vec<u8> {
    let printout = match serve(input) {
        Ok(printout) => printout,
        Err(refusal) => refused(refusal),
    };
    printout.into_bytes()
}

fn serve(input: &[u8]) -> Result<String, Refusal> {
    if input.len() > MAX_SCRIPT {
        return Err(Refusal::ScriptTooLong);
    }
    let mut pool = vec![0; POOL_BYTES];
    let pages = format(&mut pool, 1)?;
    let mut printout = format!("pool {pages}\n");
    for line in input.split_inclusive(|&byte| byte == b'\n') {
        let line = line.strip_suffix(b"\n").unwrap_or(line);
        let answer = match read_line(line) {
            Some(Call::Alloc(size)) => {
                alloc(&mut pool, size).map(|offset| format!("at {offset}\n"))
            }
            Some(Call::Free(offset)) => {
                free(&mut pool, offset).map(|bytes| format!("back {bytes}\n"))
            }
            None => Err(Refusal::Unreadable),
        };
        printout += &answer.unwrap_or_else(refused);
    }
    let free_pages = Header::read(&pool).free;
    let layout = Layout::of(&pool)?;
    let runs = (0..pages)
        .filter(|&page| PageRecord::read(&pool, layout, PageNo(page)).kind == FREE_FIRST)
        .count();
    printout += &format!("free {free_pages} runs {runs}\n");
    Ok(printout)
}

fn refused(refusal: Refusal) -> String {
    format!("no {}\n", refusal.number())
}

/// The call that a line, without its newline, asks for.
fn read_line(line: &[u8]) -> Option<Call> {
    if let Some(number) = line.strip_prefix(b"take ") {
        read_number(number).map(Call::Alloc)
    } else if let Some(number) = line.strip_prefix(b"give ") {
        read_number(number).map(Call::Free)
    } else {
        None
    }
}

/// A decimal number without sign or needless leading zeros.
fn read_number(digits: &[u8]) -> Option<u32> {
    if digits.len() > 1 && digits[0] == b'0' || !digits.iter().all(u8::is_ascii_digit) {
        return None;
    }
    std::str::from_utf8(digits).ok()?.parse().ok()
}
