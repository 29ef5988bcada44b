use std::fmt;

use crate::pool::{answer, range};
use crate::{ffi, Answer, Offset, Refusal};

/// Places of the largest directory.
pub const MOST_PLACES: usize = 64;

/// Records by key: blocks of a pool, and a directory that tells which is whose.
///
/// The directory is 1 to [`MOST_PLACES`] words, a place each; it begins with all
/// of them 0. A word has the key in its top 16 bits, the record's length in the
/// next 16 and its block's offset in the low 32. Like a [`Pool`](crate::Pool), a
/// keeper is the lent bytes and words and nothing else, and can be made anew
/// whenever they are lent. Others may take and give blocks of the same pool in
/// between; nobody else writes the words or a record, or gives its block back.
///
/// ```
/// use danumrikal::{Edition, Keeper, Pool, Refusal};
///
/// let mut bytes = vec![0; Edition::One.length(12)];
/// Pool::new(&mut bytes).format(Edition::One)?;
/// let mut directory = [0; 2];
/// let mut keeper = Keeper::new(&mut bytes, &mut directory);
/// keeper.put(7, b"2015-07-01: 36")?;
/// keeper.put(7, b"2017-01-01: 37")?; // in another block; the old one is given back
/// assert_eq!(keeper.find(7), Ok(&b"2017-01-01: 37"[..]));
/// assert_eq!(keeper.remove(7), Ok(16)); // the bytes of its chunk
/// assert_eq!(keeper.find(7), Err(Refusal::NotHeld));
/// # Ok::<(), Refusal>(())
/// ```
pub struct Keeper<'a> {
    pool: &'a mut [u8],
    directory: &'a mut [u64],
}

impl fmt::Debug for Keeper<'_> {
    fn fmt(&self, f: &mut fmt::Formatter<'_>) -> fmt::Result {
        let (bytes, places) = (self.pool.len(), self.directory.len());
        write!(f, "Keeper({bytes} bytes, {places} places)")
    }
}

impl<'a> Keeper<'a> {
    /// The keeper of this pool and this directory, which stay as they are.
    pub fn new(pool: &'a mut [u8], directory: &'a mut [u64]) -> Keeper<'a> {
        Keeper { pool, directory }
    }

    /// Stores a record under its key, and answers where its block begins. The
    /// new block is taken first, and the block of a record that stood under the
    /// key is given back last, so that a refused put leaves the old record whole.
    /// A new key takes the first empty place.
    ///
    /// # Errors
    ///
    /// The first of these; nothing changes, but that a chunk refused for room is
    /// counted in its class's asks and failures:
    ///
    /// - [`Refusal::NotSound`]: the pool's records break a rule, or the directory
    ///   is not sound
    /// - [`Refusal::NothingAsked`]: the record has no byte
    /// - [`Refusal::WrongLength`]: the record has more than 65,535 bytes
    /// - [`Refusal::NoPlace`]: the key is new, and no place is empty
    /// - [`Refusal::NoRoom`]: as [`Pool::alloc`](crate::Pool::alloc) says
    ///
    /// ```
    /// use danumrikal::{Edition, Keeper, Pool, Refusal};
    ///
    /// let mut bytes = vec![0; Edition::Two.length(1)];
    /// Pool::new(&mut bytes).format(Edition::Two)?;
    /// let mut directory = [0];
    /// let mut keeper = Keeper::new(&mut bytes, &mut directory);
    /// keeper.put(7, b"Vega")?;
    /// assert_eq!(keeper.put(8, b"Altair"), Err(Refusal::NoPlace));
    /// assert_eq!(keeper.put(8, b""), Err(Refusal::NothingAsked)); // tried before
    /// assert_eq!(keeper.put(7, b"Vega, Altair"), Err(Refusal::NoRoom)); // the page is of class 8
    /// assert_eq!(keeper.find(7), Ok(&b"Vega"[..]));
    /// # Ok::<(), Refusal>(())
    /// ```
    pub fn put(&mut self, key: u16, record: &[u8]) -> Result<Offset, Refusal> {
        answer(ffi::keeper_put(self.pool, self.directory, key, record)).map(Offset)
    }

    /// The record of a key, where it lies in the pool.
    ///
    /// # Errors
    ///
    /// The first of:
    ///
    /// - [`Refusal::NotSound`]: as in [`Keeper::put`]
    /// - [`Refusal::NotHeld`]: no place holds the key
    pub fn find(&self, key: u16) -> Result<&[u8], Refusal> {
        let word = ffi::keeper_find(self.pool, self.directory, key);
        let offset = Answer::from_word(word).block()?;
        let len = u32::from((word >> 32) as u16);
        let range = range(self.pool, offset, len).expect("a live block");
        Ok(&self.pool[range])
    }

    /// Gives the block of a key's record back and empties its place; answers the
    /// bytes released.
    ///
    /// # Errors
    ///
    /// As [`Keeper::find`]; nothing changes.
    pub fn remove(&mut self, key: u16) -> Result<u32, Refusal> {
        answer(ffi::keeper_remove(self.pool, self.directory, key))
    }
}
