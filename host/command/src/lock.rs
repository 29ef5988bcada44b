//! The advisory lock of a file that is changed.

use std::fs::{self, File, OpenOptions, TryLockError};
use std::io;
use std::os::unix::fs::MetadataExt;
use std::path::{Path, PathBuf};
use std::thread::sleep;
use std::time::{Duration, Instant};

/// Waiting for longer is told.
const PATIENCE: Duration = Duration::from_secs(1);
const PAUSE: Duration = Duration::from_millis(20);

/// A file that nobody else changes as long as this lives, if all ask for the
/// lock.
pub struct Locked {
    /// The file itself, where `path` was a link to it.
    pub path: PathBuf,
    /// The file, open and locked.
    pub file: File,
}

impl Locked {
    /// Waits for the lock of a file that may be written. `waiting` is told who
    /// holds it, where that takes longer than a second.
    pub fn wait(path: &Path, waiting: impl Fn(&str)) -> io::Result<Locked> {
        loop {
            let path = fs::canonicalize(path)?;
            let kind = fs::metadata(&path)?;
            if kind.is_dir() {
                return Err(io::ErrorKind::IsADirectory.into());
            }
            if !kind.is_file() {
                return Err(io::Error::other("it is a device or a pipe"));
            }
            let file = OpenOptions::new().read(true).write(true).open(&path)?;
            lock(&file, &waiting)?;
            // whoever held the lock may have put another file in its place
            let (mine, named) = (file.metadata()?, fs::metadata(&path));
            let same = |named: &fs::Metadata| id(named) == id(&mine);
            if named.as_ref().is_ok_and(same) {
                return Ok(Locked { path, file });
            }
        }
    }
}

fn id(file: &fs::Metadata) -> (u64, u64) {
    (file.dev(), file.ino())
}

fn lock(file: &File, waiting: &impl Fn(&str)) -> io::Result<()> {
    let start = Instant::now();
    while start.elapsed() < PATIENCE {
        match file.try_lock() {
            Err(TryLockError::WouldBlock) => sleep(PAUSE),
            Err(TryLockError::Error(error)) => return Err(error),
            Ok(()) => return Ok(()),
        }
    }
    waiting(&holder(file));
    file.lock()
}

/// Who holds the lock of a file, as the system's table tells.
fn holder(file: &File) -> String {
    let table = fs::read_to_string("/proc/locks").unwrap_or_default();
    let process = file.metadata().ok().and_then(|file| {
        let id = format!(
            "{:02x}:{:02x}:{}",
            major(file.dev()),
            minor(file.dev()),
            file.ino()
        );
        table.lines().find_map(|line| process_in(line, &id))
    });
    match process {
        Some(number) => format!("process {number}{}", command_of(number)),
        None => "another process".to_owned(),
    }
}

/// The process of a line as `1: FLOCK  ADVISORY  WRITE 712 fe:00:1835 0 EOF`, if
/// it holds the lock of this file; who waits has an arrow behind the number.
fn process_in(line: &str, id: &str) -> Option<u32> {
    let words: Vec<&str> = line.split_whitespace().collect();
    match words.as_slice() {
        [_, "FLOCK", _, _, process, file, ..] if *file == id => {
            // one that is out of sight, as from a container, has 0 or less
            process.parse().ok().filter(|&process| process > 0)
        }
        _ => None,
    }
}

/// The words that started a process, where they can be read.
fn command_of(process: u32) -> String {
    let words = fs::read(format!("/proc/{process}/cmdline")).unwrap_or_default();
    let words: Vec<_> = words
        .split(|&byte| byte == 0)
        .map(String::from_utf8_lossy)
        .collect();
    match words.join(" ").trim() {
        "" => String::new(),
        words => format!(" ({words})"),
    }
}

fn major(device: u64) -> u64 {
    device >> 8 & 0xfff | device >> 32 & !0xfff
}

fn minor(device: u64) -> u64 {
    device & 0xff | device >> 12 & !0xff
}
