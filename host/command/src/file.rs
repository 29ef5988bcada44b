//! Files, read and written whole.
//!
//! A file is written to a temporary name beside its own, flushed to the disk and
//! then renamed, and the folder is flushed: whatever happens meanwhile, under the
//! file's name stand the old bytes or the new ones.

use std::fs::{self, File, OpenOptions};
use std::io::{self, Read, Write};
use std::os::unix::fs::{fchown, MetadataExt};
use std::path::{Path, PathBuf};
use std::process;

use danumrikal::{Edition, MOST_PAGES};

use crate::failure::Failure;

/// More bytes than any pool has are read of no file: they are no pool whatever
/// follows, and there are files without end.
const ENOUGH: usize = Edition::Two.length(MOST_PAGES + 1);

/// The bytes of a file.
pub fn read(tried: &str, path: &Path) -> Result<Vec<u8>, Failure> {
    let read = File::open(path).and_then(|file| read_from(&file));
    read.map_err(|error| Failure::io(format!("{tried} {}", path.display()), &error))
}

/// The bytes of an open file.
pub fn read_from(file: &File) -> io::Result<Vec<u8>> {
    let mut bytes = Vec::new();
    file.take(ENOUGH as u64).read_to_end(&mut bytes)?;
    Ok(bytes)
}

/// That there is no such file yet, or that it may be replaced.
pub fn may_write(tried: &str, path: &Path, force: bool) -> Result<(), Failure> {
    match path.symlink_metadata() {
        Ok(_) if !force => Err(exists(tried, path)),
        _ => Ok(()),
    }
}

fn exists(tried: &str, path: &Path) -> Failure {
    Failure::file(
        format!("{tried} {}: the file exists", path.display()),
        "name another, or say --force to replace it",
    )
}

/// Makes a file that is not there yet. Where it has come to be meanwhile, it
/// stays as it is.
pub fn create(tried: &str, path: &Path, bytes: &[u8]) -> Result<(), Failure> {
    let failed = |error: io::Error| match error.kind() {
        io::ErrorKind::AlreadyExists => exists(tried, path),
        _ => Failure::io(format!("{tried} {}", path.display()), &error),
    };
    let temporary = Temporary::with(path, bytes, None).map_err(failed)?;
    temporary.link(path).map_err(failed)
}

/// Replaces a file, which keeps its owner and its permissions.
pub fn replace(path: &Path, bytes: &[u8], old: &File) -> io::Result<()> {
    Temporary::with(path, bytes, Some(old))?.rename(path)
}

/// A file under a temporary name, which is removed unless it gets its own.
struct Temporary(PathBuf);

impl Temporary {
    fn with(path: &Path, bytes: &[u8], old: Option<&File>) -> io::Result<Temporary> {
        let (temporary, mut file) = Temporary::open(path)?;
        if let Some(old) = old {
            let old = old.metadata()?;
            file.set_permissions(old.permissions())?;
            let mine = file.metadata()?;
            if (mine.uid(), mine.gid()) != (old.uid(), old.gid()) {
                // only the superuser may; others then own what they wrote
                let _ = fchown(&file, Some(old.uid()), Some(old.gid()));
            }
        }
        file.write_all(bytes)?;
        file.sync_all()?;
        Ok(temporary)
    }

    /// Opens a name that nothing has: one that was killed may have left some.
    fn open(path: &Path) -> io::Result<(Temporary, File)> {
        let own = path.file_name().ok_or(io::ErrorKind::IsADirectory)?;
        for count in 0.. {
            let mut name = own.to_owned();
            name.push(format!(".{}-{count}.tmp", process::id()));
            let beside = path.with_file_name(name);
            match OpenOptions::new()
                .write(true)
                .create_new(true)
                .open(&beside)
            {
                Err(error) if error.kind() == io::ErrorKind::AlreadyExists => {}
                opened => return opened.map(|file| (Temporary(beside), file)),
            }
        }
        unreachable!("a folder has fewer files than there are numbers")
    }

    /// Gives it the name of a file that is there.
    fn rename(self, path: &Path) -> io::Result<()> {
        fs::rename(&self.0, path)?;
        flush_folder(path);
        Ok(())
    }

    /// Gives it a name that nothing has.
    fn link(self, path: &Path) -> io::Result<()> {
        match fs::hard_link(&self.0, path) {
            Ok(()) => {
                flush_folder(path);
                Ok(())
            }
            Err(error) if error.kind() == io::ErrorKind::AlreadyExists => Err(error),
            // not every file system has a second name for a file
            Err(_) if path.symlink_metadata().is_err() => self.rename(path),
            Err(_) => Err(io::ErrorKind::AlreadyExists.into()),
        }
    }
}

impl Drop for Temporary {
    fn drop(&mut self) {
        // after a rename nothing has this name any more
        let _ = fs::remove_file(&self.0);
    }
}

/// Flushes the folder of a file, so that its name lasts. Not every folder lets
/// itself be opened or flushed: a crash may then bring the old file back, whole.
fn flush_folder(path: &Path) {
    let folder = match path.parent() {
        Some(parent) if parent != Path::new("") => parent,
        _ => Path::new("."),
    };
    let _ = File::open(folder).and_then(|folder| folder.sync_all());
}
