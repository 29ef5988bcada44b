//! Records by key, in a directory of words above the pool.

use std::collections::BTreeSet;
use std::ops::Range;

use crate::layout::{Layout, PageNo};
use crate::pool::{alloc, free};
use crate::refusal::Refusal;
use crate::view::live_blocks;

/// The most words of a directory.
const MOST_PLACES: usize = 64;

/// What a directory's word tells of a record.
#[derive(Clone, Copy, Debug, PartialEq, Eq)]
pub struct Entry {
    /// The record's key.
    pub key: u16,
    /// Its bytes, at least one.
    pub length: u16,
    /// Where its block begins.
    pub offset: u32,
}

impl Entry {
    /// The entry of a word: none where the place is empty.
    pub fn read(word: u64) -> Option<Entry> {
        let entry = Entry {
            key: (word >> 48) as u16,
            length: (word >> 32) as u16,
            offset: word as u32,
        };
        (entry.length != 0).then_some(entry)
    }

    /// The word of the entry.
    pub fn word(self) -> u64 {
        u64::from(self.key) << 48 | u64::from(self.length) << 32 | u64::from(self.offset)
    }
}

/// Whether the pool is sound, and the directory on it.
pub fn both_sound(pool: &[u8], directory: &[u64]) -> bool {
    let Some(blocks) = live_blocks(pool) else {
        return false;
    };
    if directory.is_empty() || directory.len() > MOST_PLACES {
        return false;
    }
    let mut keys = BTreeSet::new();
    let mut offsets = BTreeSet::new();
    directory.iter().all(|&word| match Entry::read(word) {
        None => word == 0,
        Some(entry) => {
            keys.insert(entry.key)
                && offsets.insert(entry.offset)
                && blocks
                    .get(&entry.offset)
                    .is_some_and(|block| block.bytes() >= u64::from(entry.length))
        }
    })
}

/// Stores a record under its key, and answers the offset of its block. A record
/// that stood under the key is given back last.
pub fn put(
    pool: &mut [u8],
    directory: &mut [u64],
    key: u16,
    record: &[u8],
) -> Result<u32, Refusal> {
    if !both_sound(pool, directory) {
        return Err(Refusal::NotSound);
    }
    if record.is_empty() {
        return Err(Refusal::NothingAsked);
    }
    let length = u16::try_from(record.len()).map_err(|_| Refusal::WrongLength)?;
    let own = directory.iter().position(|&word| holds(word, key));
    let empty = directory.iter().position(|&word| word == 0);
    let place = own.or(empty).ok_or(Refusal::NoPlace)?;
    let offset = alloc(pool, u32::from(length))?;
    let entry = Entry {
        key,
        length,
        offset,
    };
    let bytes = bytes_of(pool, entry);
    pool[bytes].copy_from_slice(record);
    let old = Entry::read(directory[place]);
    directory[place] = entry.word();
    if let Some(old) = old {
        free(pool, old.offset)?;
    }
    Ok(offset)
}

/// Where the record of a key lies.
pub fn find(pool: &[u8], directory: &[u64], key: u16) -> Result<Entry, Refusal> {
    if !both_sound(pool, directory) {
        return Err(Refusal::NotSound);
    }
    let word = directory.iter().find(|&&word| holds(word, key));
    word.and_then(|&word| Entry::read(word))
        .ok_or(Refusal::NotHeld)
}

/// Gives the block of a key's record back, empties its place, and answers the
/// bytes released.
pub fn remove(pool: &mut [u8], directory: &mut [u64], key: u16) -> Result<u32, Refusal> {
    let entry = find(pool, directory, key)?;
    for word in directory {
        if *word == entry.word() {
            *word = 0;
        }
    }
    free(pool, entry.offset)
}

fn holds(word: u64, key: u16) -> bool {
    Entry::read(word).is_some_and(|entry| entry.key == key)
}

/// The record's bytes in the slice of a sound pool.
pub fn bytes_of(pool: &[u8], entry: Entry) -> Range<usize> {
    let layout = Layout::of(pool).expect("a sound pool");
    let start = layout.page_at(PageNo(0)) + entry.offset as usize;
    start..start + usize::from(entry.length)
}
