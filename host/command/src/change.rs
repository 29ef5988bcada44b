//! The bytes of a file changed by calls, or left as they were.

use std::path::Path;

use crate::failure::Failure;
use crate::file;
use crate::lock::Locked;

/// Reads a file, lends its bytes to be changed, and writes them back, under the
/// lock of the file. Where the change fails nothing is written.
pub fn change<T>(
    tried: &str,
    path: &Path,
    change: impl FnOnce(&mut [u8]) -> Result<T, Failure>,
) -> Result<T, Failure> {
    let failed = |error| Failure::io(format!("{tried} {}", path.display()), &error);
    let locked = lock(tried, path)?;
    let mut bytes = file::read_from(&locked.file).map_err(failed)?;
    let done = change(&mut bytes)?;
    file::replace(&locked.path, &bytes, &locked.file).map_err(failed)?;
    Ok(done)
}

/// Writes a file that may be there already where `force` says so.
pub fn write(tried: &str, path: &Path, bytes: &[u8], force: bool) -> Result<(), Failure> {
    if !force || path.symlink_metadata().is_err() {
        return file::create(tried, path, bytes);
    }
    let locked = lock(tried, path)?;
    let written = file::replace(&locked.path, bytes, &locked.file);
    written.map_err(|error| Failure::io(format!("{tried} {}", path.display()), &error))
}

fn lock(tried: &str, path: &Path) -> Result<Locked, Failure> {
    let tried = format!("{tried} {}", path.display());
    let waiting =
        |who: &str| eprintln!("danumrikal: {tried}: waiting for {who}, which has its lock");
    Locked::wait(path, waiting).map_err(|error| Failure::io(&tried, &error))
}
