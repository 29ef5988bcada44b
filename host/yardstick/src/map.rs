//! Chunk maps: chunk 0 is the highest bit of the first word.

use crate::class::FIRST_MARK;
use crate::Refusal;

/// A word of a map, however it is stored.
pub trait MapWord {
    /// The word.
    fn get(&self) -> u64;
    /// Stores a word.
    fn put(&mut self, word: u64);
}

impl MapWord for u64 {
    #[inline]
    fn get(&self) -> u64 {
        *self
    }

    #[inline]
    fn put(&mut self, word: u64) {
        *self = word;
    }
}

/// Big-endian, where it stands.
impl MapWord for [u8; 8] {
    #[inline]
    fn get(&self) -> u64 {
        u64::from_be_bytes(*self)
    }

    #[inline]
    fn put(&mut self, word: u64) {
        *self = word.to_be_bytes();
    }
}

/// Marks the lowest free chunk of a word, if it has one, and answers it with
/// the word as it is then.
#[inline]
pub fn take_lowest(word: &mut impl MapWord) -> Option<(u32, u64)> {
    let marks = word.get();
    let highest = (!marks).checked_ilog2()?;
    let marks = marks | 1 << highest;
    word.put(marks);
    Some((63 - highest, marks))
}

/// Marks the lowest free chunk of a map that has one, and tells whether it was
/// the last.
#[inline(always)]
pub fn take_from_words(map: &mut [impl MapWord]) -> Option<(u32, bool)> {
    for (index, word) in map.iter_mut().enumerate() {
        if let Some((bit, marks)) = take_lowest(word) {
            // The words before this one are full.
            let full = marks == u64::MAX && is_full(&map[index + 1..]);
            return Some((64 * index as u32 + bit, full));
        }
    }
    None
}

/// Clears a mark and answers the word as it was and as it is then.
#[inline]
pub fn give(word: &mut impl MapWord, chunk: u32) -> Result<(u64, u64), Refusal> {
    let old = word.get();
    let mark = FIRST_MARK >> (chunk % 64);
    if old & mark == 0 {
        return Err(Refusal::NotTaken);
    }
    word.put(old ^ mark);
    Ok((old, old ^ mark))
}

/// Clears a mark of a map; tells whether the map was full before, and whether
/// it is now that of a page without a block, with `unused` for its first word.
#[inline(always)]
pub fn give_to_words(
    map: &mut [impl MapWord],
    chunk: u32,
    unused: u64,
) -> Result<(bool, bool), Refusal> {
    let index = chunk as usize / 64;
    let (old, _) = give(&mut map[index], chunk)?;
    let was_full = old == u64::MAX && is_full(&map[..index]) && is_full(&map[index + 1..]);
    let now_unused = map[0].get() == unused && map[1..].iter().all(|word| word.get() == 0);
    Ok((was_full, now_unused))
}

/// Whether no word has a free chunk.
#[inline]
pub fn is_full(map: &[impl MapWord]) -> bool {
    map.iter().all(|word| word.get() == u64::MAX)
}
