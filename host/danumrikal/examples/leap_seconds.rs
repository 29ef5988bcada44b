//! A leap second table that is replaced under its readers, who know its key and
//! not its place. Then the night of the incident once more: a program that still
//! has the old table's offset gives its block back a second time.
//!
//! `examples/leap_seconds.c` is the same in C and prints the same.

use danumrikal::{Edition, Keeper, Offset, Pool, Refusal};

/// The table's key.
const SECONDS: u16 = 7;

/// The shared memory: a pool, and a directory of eight places.
struct Shared {
    pool: Vec<u8>,
    directory: [u64; 8],
}

impl Shared {
    fn keeper(&mut self) -> Keeper<'_> {
        Keeper::new(&mut self.pool, &mut self.directory)
    }

    /// Replaces the table and tells where it lies now.
    fn publish(&mut self, table: &str) -> Result<Offset, Refusal> {
        let block = self.keeper().put(SECONDS, table.as_bytes())?;
        println!("table: {} bytes at {block}", table.len());
        Ok(block)
    }

    /// What a reader finds under the key.
    fn read(&mut self) {
        match self.keeper().find(SECONDS) {
            Ok(table) => println!("readers: {}", String::from_utf8_lossy(table)),
            Err(refusal) => println!("readers: {refusal}"),
        }
    }

    /// A table of so many zeros is refused.
    fn refuse(&mut self, len: usize, what: &str) {
        let refused = self.keeper().put(SECONDS, &vec![0; len]);
        println!("table of {what} bytes: {}", refused.unwrap_err());
    }
}

fn main() -> Result<(), Refusal> {
    let mut shared = Shared {
        pool: vec![0; Edition::Two.length(12)],
        directory: [0; 8],
    };
    let pages = Pool::new(&mut shared.pool).format(Edition::Two)?;
    println!("pages: {pages}");
    let old = shared.publish("2015-07-01: 36")?;
    shared.read();
    shared.publish("2017-01-01: 37")?;
    shared.read();

    // The incident: the old block once more.
    let again = Pool::new(&mut shared.pool).free(old);
    println!("old block back again: {}", again.unwrap_err());
    shared.read();

    // A refused put leaves the table that is there.
    shared.refuse(0, "no");
    shared.refuse(65_536, "65536");
    shared.refuse(60_000, "60000");
    shared.read();

    println!("table: {} bytes back", shared.keeper().remove(SECONDS)?);
    shared.read();
    let sound = Pool::new(&mut shared.pool).check().is_ok();
    println!("records: {}", if sound { "sound" } else { "unsound" });
    Ok(())
}
