//! Running the command as a person does, in a folder of the test's own.

#![allow(dead_code)] // each test uses a part

use std::ffi::OsStr;
use std::os::unix::fs::symlink;
use std::path::{Path, PathBuf};
use std::process::{self, Command, Output};
use std::{env, fs, thread};

use danumrikal::{Edition, Offset, Pool};
use support::{offset, Habit, Rng};

/// The program.
pub const PROGRAM: &str = env!("CARGO_BIN_EXE_danumrikal");

/// The repository.
pub fn root() -> PathBuf {
    Path::new(env!("CARGO_MANIFEST_DIR")).join("../..")
}

/// What a command did.
#[derive(Debug)]
pub struct Ran {
    /// Its exit status; `None` where it was killed.
    pub status: Option<i32>,
    pub out: String,
    pub err: String,
}

impl Ran {
    /// Of what it left.
    pub fn of(output: Output) -> Ran {
        let text = |bytes| String::from_utf8(bytes).expect("plain text");
        Ran {
            status: output.status.code(),
            out: text(output.stdout),
            err: text(output.stderr),
        }
    }

    /// Done, with this printed and nothing else.
    #[track_caller]
    pub fn done(&self, out: &str) {
        assert_eq!((self.status, self.err.as_str()), (Some(0), ""), "{self:?}");
        assert_eq!(self.out, out);
    }

    /// Ended with this status, nothing printed, and this told on standard error.
    #[track_caller]
    pub fn failed(&self, status: i32, first: &str, advice: &str) {
        assert_eq!(
            (self.status, self.out.as_str()),
            (Some(status), ""),
            "{self:?}"
        );
        assert_eq!(self.err, format!("danumrikal: {first}\n  {advice}\n"));
    }
}

/// A folder for a test. It lies outside the repository, where `rt` takes no
/// links, and goes when the test has passed.
pub struct Folder(pub PathBuf);

impl Folder {
    /// An empty one with this name.
    pub fn new(name: &str) -> Folder {
        let path = env::temp_dir().join(format!("command-{}-{name}", process::id()));
        let _ = fs::remove_dir_all(&path);
        fs::create_dir_all(&path).expect("a folder");
        Folder(path)
    }

    pub fn path(&self, name: &str) -> PathBuf {
        self.0.join(name)
    }

    pub fn write(&self, name: &str, bytes: &[u8]) {
        fs::write(self.path(name), bytes).expect("a file is written");
    }

    pub fn read(&self, name: &str) -> Vec<u8> {
        fs::read(self.path(name)).expect("a file is read")
    }

    /// The names of its files.
    pub fn names(&self) -> Vec<String> {
        let files = fs::read_dir(&self.0).expect("a folder");
        let name = |file: fs::DirEntry| file.file_name().to_string_lossy().into_owned();
        let mut names: Vec<_> = files.map(|file| name(file.expect("a file"))).collect();
        names.sort();
        names
    }

    /// The command in this folder.
    pub fn command<S: AsRef<OsStr>>(&self, words: &[S]) -> Command {
        let mut command = Command::new(PROGRAM);
        command.args(words).current_dir(&self.0);
        for name in ["COLUMNS", "NO_COLOR"] {
            command.env_remove(name);
        }
        command
    }

    /// Runs the command in this folder.
    pub fn run(&self, words: &[&str]) -> Ran {
        Ran::of(self.command(words).output().expect("the program starts"))
    }

    /// Runs a line of shell in this folder, where `danumrikal` is the program.
    pub fn shell(&self, line: &str) -> Ran {
        let folder = self.bin();
        let _ = fs::create_dir(&folder);
        let _ = symlink(PROGRAM, folder.join("danumrikal"));
        let path = env::var("PATH").unwrap_or_default();
        let shell = Command::new("sh")
            .args(["-c", line])
            .env("PATH", format!("{}:{path}", folder.display()))
            .env_remove("COLUMNS")
            .current_dir(&self.0)
            .output();
        Ran::of(shell.expect("a shell"))
    }

    /// A folder with the program alone: beside it lie others.
    fn bin(&self) -> PathBuf {
        self.0.with_extension("bin")
    }
}

impl Drop for Folder {
    fn drop(&mut self) {
        if !thread::panicking() {
            let _ = fs::remove_dir_all(&self.0);
            let _ = fs::remove_dir_all(self.bin());
        }
    }
}

/// The pool of `docs/REPORT.md`, in an edition: every kind of page, two free
/// runs.
pub fn sample(edition: Edition) -> Vec<u8> {
    let mut bytes = vec![0; edition.length(12)];
    let mut pool = Pool::new(&mut bytes);
    pool.format(edition).expect("twelve pages");
    pool.alloc(49_152).expect("all pages");
    pool.alloc(16).expect_err("no page is free");
    pool.free(Offset(0)).expect("a block");
    for size in [30, 30, 8, 2_048, 2_048, 5_000, 64, 4_096, 4_096] {
        pool.alloc(size).expect("room");
    }
    for offset in [20_480, 28_672] {
        pool.free(Offset(offset)).expect("a block");
    }
    bytes
}

/// A sound pool of so many pages after calls from a seed.
pub fn played(seed: u64, edition: Edition, pages: usize) -> Vec<u8> {
    let mut rng = Rng::new(seed);
    let habit = Habit::any(&mut rng);
    let tail = rng.below(4_112) as usize;
    let mut bytes = rng.bytes(edition.length(pages) + tail);
    reference::format(&mut bytes, edition.number()).expect("a pool's length");
    let mut live: Vec<u32> = Vec::new();
    for _ in 0..rng.below(40 * pages as u64 + 200) {
        if rng.below(16) < habit.allocs {
            let size = habit.size(&mut rng, pages);
            live.extend(reference::alloc_sound(&mut bytes, size));
        } else if live.is_empty() {
            let _ = reference::free_sound(&mut bytes, offset(&mut rng, pages, None));
        } else {
            let one = rng.below(live.len() as u64) as usize;
            let freed = reference::free_sound(&mut bytes, live.swap_remove(one));
            freed.expect("a live block");
        }
    }
    bytes
}
